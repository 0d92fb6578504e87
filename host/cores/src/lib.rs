//! The cores that are compared and measured.

#![forbid(unsafe_code)]

type Port = fn(&[u8], &mut [i64], &mut [u8; 66], &[u8], &mut [u8], &mut [u64; 4]) -> u8;
type Panel = fn(&[u8], &mut [i64], u64, u64, i64, &mut [u8], &mut [u64; 1]) -> u8;
type Turn = fn(&[u8], &mut [i64], &mut [u8], u64, &[u8], &[u64], &mut [u8], &mut [u64; 6]) -> u8;
type Switch = fn(&mut [u8], u64) -> u8;
type RestoreSize = fn(&[u8], &[i64], &[u8], &[i64], &mut [u64; 2]) -> u8;
type RestoreWrite = fn(&[u8], &[i64], &[u8], &[i64], &mut [u8], &mut [u64; 2]) -> u8;

/// The nine calls of a core, over slices and blocks of fixed size.
pub struct Calls {
    /// Of a table.
    pub table: fn(&[u8]) -> u8,
    /// Of table, values, port, given bytes, reply, told.
    pub port: Port,
    /// Of table, values, module and row number, value, reply, told.
    pub panel: Panel,
    /// Of table, values, row, last served, given bytes, counts, reply, told.
    pub turn: Turn,
    /// Of row and number.
    pub open: Switch,
    /// Of row and number.
    pub close: Switch,
    /// Of table, present values, selection, wanted values, told.
    pub restore_size: RestoreSize,
    /// Of table, present values, selection, wanted values, list, told.
    pub restore_write: RestoreWrite,
    /// Of table, line, told.
    pub log: fn(&[u8], &[u8], &mut [u64; 3]),
}

/// The reference.
pub static REFERENCE: Calls = Calls {
    table: reference::table,
    port: reference::port,
    panel: reference::panel,
    turn: reference::turn,
    open: reference::open,
    close: reference::close,
    restore_size: reference::restore_size,
    restore_write: reference::restore_write,
    log: reference::log,
};

/// The proved archive.
#[cfg(feature = "archive")]
pub static ARCHIVE: Calls = Calls {
    table: egrivundo::calls::table,
    port: egrivundo::calls::port,
    panel: egrivundo::calls::panel,
    turn: egrivundo::calls::turn,
    open: egrivundo::calls::open,
    close: egrivundo::calls::close,
    restore_size: egrivundo::calls::restore_size,
    restore_write: egrivundo::calls::restore_write,
    log: egrivundo::calls::log,
};
