//! The paper once more, in plain safe Rust.
//!
//! The nine functions here take the same arguments as the C functions of the
//! archive, as slices and blocks of fixed size, and answer with the same
//! numbers, so that the two can be compared byte for byte. Nothing here
//! allocates.

#![forbid(unsafe_code)]

pub mod catalogue;
mod connections;
mod control;
pub mod layout;
mod line;
mod log;
mod mixer;
mod panel;
mod port;
mod restore;
mod table;
mod text;

/// Bytes that a port lends: held count, overrun, held bytes.
pub const PORT_BYTES: usize = 66;
/// Connections of a row.
pub const CONNECTIONS: usize = 32;
/// Bytes that a connection lends: open, and its port.
pub const CONNECTION_BYTES: usize = 1 + PORT_BYTES;

/// A refusal: the paper's number.
type Refusal = u8;

/// Whether the table is sound: 0, or 1 where it is not.
pub fn table(table: &[u8]) -> u8 {
    match table::Table::new(table) {
        Some(_) => 0,
        None => 1,
    }
}

/// The label that a line means. `told` becomes 1 for the table or 0 for the
/// line, the start of the part and its length.
pub fn log(table: &[u8], line: &[u8], told: &mut [u64; 3]) {
    let part = log::part(table, line);
    *told = [part.in_table as u64, part.start as u64, part.length as u64];
}

/// One port call. `told` becomes bytes consumed, reply length, and why a line
/// was answered with 99: cause (0 none) and place.
pub fn port(
    table: &[u8],
    values: &mut [i64],
    port: &mut [u8; PORT_BYTES],
    given: &[u8],
    reply: &mut [u8],
    told: &mut [u64; 4],
) -> u8 {
    tell(told, port::call(table, values, port, given, reply))
}

/// One change at a wall panel, by module and row number, both from 0. `told`
/// becomes the length of the notice, 0 for none.
pub fn panel(
    table: &[u8],
    values: &mut [i64],
    owner: u64,
    row: u64,
    value: i64,
    reply: &mut [u8],
    told: &mut [u64; 1],
) -> u8 {
    tell(told, panel::call(table, values, owner, row, value, reply))
}

/// One turn over a row of connections, in bytes. `given` has the waiting bytes
/// of all, in number order, and `counts` how many are of each; `last` is the
/// last served. `told` becomes 1 where one was served, its number, and what a
/// port call tells; zeros where none waits.
#[allow(clippy::too_many_arguments)]
pub fn turn(
    table: &[u8],
    values: &mut [i64],
    row: &mut [u8],
    last: u64,
    given: &[u8],
    counts: &[u64],
    reply: &mut [u8],
    told: &mut [u64; 6],
) -> u8 {
    let waiting = connections::Waiting {
        last,
        given,
        counts,
    };
    tell(told, connections::turn(table, values, row, waiting, reply))
}

/// Opens a closed connection: 0, or 10.
pub fn open(row: &mut [u8], number: u64) -> u8 {
    tell(&mut [], connections::switch(row, number, true))
}

/// Closes an open connection: 0, or 10.
pub fn close(row: &mut [u8], number: u64) -> u8 {
    tell(&mut [], connections::switch(row, number, false))
}

/// The size of the restore list. `told` becomes its bytes and lines.
pub fn restore_size(
    table: &[u8],
    present: &[i64],
    selection: &[u8],
    wanted: &[i64],
    told: &mut [u64; 2],
) -> u8 {
    tell(told, restore::size(table, present, selection, wanted))
}

/// The restore list. `told` becomes bytes and lines written.
pub fn restore_write(
    table: &[u8],
    present: &[i64],
    selection: &[u8],
    wanted: &[i64],
    list: &mut [u8],
    told: &mut [u64; 2],
) -> u8 {
    tell(
        told,
        restore::write(table, present, selection, wanted, list),
    )
}

fn tell<const COUNT: usize>(
    told: &mut [u64; COUNT],
    answer: Result<[usize; COUNT], Refusal>,
) -> u8 {
    match answer {
        Ok(numbers) => {
            *told = numbers.map(|number| number as u64);
            0
        }
        Err(refusal) => {
            *told = [0; COUNT];
            refusal
        }
    }
}
