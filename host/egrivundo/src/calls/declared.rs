//! The functions of the archive, as `include/egrivundo.h` declares them.

extern "C" {
    pub fn egrivundo_table(table: *const u8, table_count: usize) -> u8;

    pub fn egrivundo_log(
        table: *const u8,
        table_count: usize,
        line: *const u8,
        line_count: usize,
        told: *mut [u64; 3],
    );

    pub fn egrivundo_port(
        table: *const u8,
        table_count: usize,
        values: *mut i64,
        values_count: usize,
        port: *mut [u8; 66],
        given: *const u8,
        given_count: usize,
        reply: *mut u8,
        reply_count: usize,
        told: *mut [u64; 4],
    ) -> u8;

    pub fn egrivundo_panel(
        table: *const u8,
        table_count: usize,
        values: *mut i64,
        values_count: usize,
        owner: u64,
        row: u64,
        value: i64,
        reply: *mut u8,
        reply_count: usize,
        told: *mut [u64; 1],
    ) -> u8;

    pub fn egrivundo_restore_size(
        table: *const u8,
        table_count: usize,
        present: *const i64,
        present_count: usize,
        selection: *const u8,
        selection_count: usize,
        wanted: *const i64,
        wanted_count: usize,
        told: *mut [u64; 2],
    ) -> u8;

    pub fn egrivundo_restore_write(
        table: *const u8,
        table_count: usize,
        present: *const i64,
        present_count: usize,
        selection: *const u8,
        selection_count: usize,
        wanted: *const i64,
        wanted_count: usize,
        list: *mut u8,
        list_count: usize,
        told: *mut [u64; 2],
    ) -> u8;

    pub fn egrivundo_turn(
        table: *const u8,
        table_count: usize,
        values: *mut i64,
        values_count: usize,
        row: *mut u8,
        row_count: usize,
        last: u64,
        given: *const u8,
        given_count: usize,
        counts: *const u64,
        counts_count: usize,
        reply: *mut u8,
        reply_count: usize,
        told: *mut [u64; 6],
    ) -> u8;

    pub fn egrivundo_open(row: *mut u8, row_count: usize, number: u64) -> u8;

    pub fn egrivundo_close(row: *mut u8, row_count: usize, number: u64) -> u8;

    pub fn egrivundo_value_count(table: *const u8, table_count: usize, told: *mut [u64; 1]) -> u8;

    pub fn egrivundo_starts(
        table: *const u8,
        table_count: usize,
        values: *mut i64,
        values_count: usize,
    ) -> u8;

    pub fn egrivundo_place(
        table: *const u8,
        table_count: usize,
        owner: u64,
        row: u64,
        told: *mut [u64; 1],
    ) -> u8;

    pub fn egrivundo_row(
        table: *const u8,
        table_count: usize,
        owner: u64,
        row: u64,
        told: *mut [i64; 7],
    ) -> u8;

    pub fn egrivundo_refusal(number: u8, text: *mut [u8; 64]);
}
