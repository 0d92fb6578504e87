//! The calls of the archive over slices and blocks of fixed size, with
//! their bare numbers.
//!
//! The numbers 1 to 10 are those of [`Refusal`]; with them `told` is set to
//! zero and nothing else changes.
//!
//! [`Refusal`]: crate::Refusal

// This module is the one place with unsafe code.
#![allow(unsafe_code)]

mod connections;
mod declared;

pub use connections::{close, open, turn};

use declared::*;

// Safety of all: each pointer and count come from one slice, and each
// pointer alone from a block of the size that the call takes, so they are
// valid for the call; the unique ones overlap nothing, since Rust lent them
// so; and the archive keeps no pointer.

/// Whether a table is sound: 0, or 1 where it is not.
///
/// ```
/// assert_eq!(egrivundo::calls::table(&[]), 0);
/// assert_eq!(egrivundo::calls::table(&[1]), 1);
/// ```
#[inline]
#[must_use = "0 is accepted, any other number refused"]
pub fn table(table: &[u8]) -> u8 {
    unsafe { egrivundo_table(table.as_ptr(), table.len()) }
}

/// The label that a line means. `told` becomes 1 for the table or 0 for the
/// line, the start of the part there, and its length.
///
/// ```
/// let mut told = [9; 3];
/// egrivundo::calls::log(&[], b"GA\"Q q\">1", &mut told);
/// assert_eq!(told, [0, 3, 3]);
/// ```
#[inline]
pub fn log(table: &[u8], line: &[u8], told: &mut [u64; 3]) {
    unsafe { egrivundo_log(table.as_ptr(), table.len(), line.as_ptr(), line.len(), told) }
}

/// One call on a port. `told` becomes the bytes consumed, the reply's length
/// and, where the reply is 99, the number of a [`Cause`] and its place, else 0
/// and 0. Any overrun byte but 0 is read as overrun; it is stored as 0 or 1
/// where bytes are given, and a call given none leaves all 66 bytes.
///
/// [`Cause`]: crate::Cause
///
/// ```
/// let mut port = [0; 66];
/// let mut reply = [0; 64];
/// let mut told = [0; 4];
/// let given = b"GA\"T\">1\r";
/// let answer = egrivundo::calls::port(&[], &mut [], &mut port, given, &mut reply, &mut told);
/// assert_eq!((answer, told), (0, [8, 4, 0, 0]));
/// assert_eq!(&reply[..4], b"\x1501\r");
/// ```
#[inline]
#[must_use = "0 is accepted, any other number refused"]
pub fn port(
    table: &[u8],
    values: &mut [i64],
    port: &mut [u8; 66],
    given: &[u8],
    reply: &mut [u8],
    told: &mut [u64; 4],
) -> u8 {
    unsafe {
        egrivundo_port(
            table.as_ptr(),
            table.len(),
            values.as_mut_ptr(),
            values.len(),
            port,
            given.as_ptr(),
            given.len(),
            reply.as_mut_ptr(),
            reply.len(),
            told,
        )
    }
}

/// One change at a wall panel: sets the value of a module's row, both counted
/// from 0. `told` becomes the length of what is put at the reply's start: the
/// answer to a get line where the module's label begins with `#` and its value
/// did change, else 0, with no byte of the reply written.
///
/// ```
/// let mut table = [0; 33];
/// table[..3].copy_from_slice(b"\x02#S");
/// let mut values = [0];
/// let mut reply = [0; 64];
/// let mut told = [9];
/// let answer = egrivundo::calls::panel(&table, &mut values, 0, 0, 1, &mut reply, &mut told);
/// assert_eq!((answer, told, values), (0, [11], [1]));
/// assert_eq!(&reply[..11], b"GA\"#S\">1=O\r");
/// ```
#[inline]
#[must_use = "0 is accepted, any other number refused"]
pub fn panel(
    table: &[u8],
    values: &mut [i64],
    owner: u64,
    row: u64,
    value: i64,
    reply: &mut [u8],
    told: &mut [u64; 1],
) -> u8 {
    unsafe {
        egrivundo_panel(
            table.as_ptr(),
            table.len(),
            values.as_mut_ptr(),
            values.len(),
            owner,
            row,
            value,
            reply.as_mut_ptr(),
            reply.len(),
            told,
        )
    }
}

/// The size of the restore list. `told` becomes its bytes and lines. There is
/// no buffer, so the answer is never 8.
///
/// ```
/// let mut table = [0; 33];
/// table[..2].copy_from_slice(b"\x02S");
/// let mut told = [9; 2];
/// let answer = egrivundo::calls::restore_size(&table, &[0], &[1], &[1], &mut told);
/// assert_eq!((answer, told), (0, [10, 1]));
/// ```
#[inline]
#[must_use = "0 is accepted, any other number refused"]
pub fn restore_size(
    table: &[u8],
    present: &[i64],
    selection: &[u8],
    wanted: &[i64],
    told: &mut [u64; 2],
) -> u8 {
    unsafe {
        egrivundo_restore_size(
            table.as_ptr(),
            table.len(),
            present.as_ptr(),
            present.len(),
            selection.as_ptr(),
            selection.len(),
            wanted.as_ptr(),
            wanted.len(),
            told,
        )
    }
}

/// The restore list, put at the start of `list`. `told` becomes its bytes and
/// lines, which are those that [`restore_size`] tells of the same; the answer
/// is 8 exactly where `list` is shorter.
#[inline]
#[must_use = "0 is accepted, any other number refused"]
pub fn restore_write(
    table: &[u8],
    present: &[i64],
    selection: &[u8],
    wanted: &[i64],
    list: &mut [u8],
    told: &mut [u64; 2],
) -> u8 {
    unsafe {
        egrivundo_restore_write(
            table.as_ptr(),
            table.len(),
            present.as_ptr(),
            present.len(),
            selection.as_ptr(),
            selection.len(),
            wanted.as_ptr(),
            wanted.len(),
            list.as_mut_ptr(),
            list.len(),
            told,
        )
    }
}

/// How many values a table has. `told` becomes that number.
///
/// ```
/// let mut told = [9];
/// assert_eq!(egrivundo::calls::value_count(&[], &mut told), 0);
/// assert_eq!(told, [0]);
/// ```
#[inline]
#[must_use = "0 is accepted, any other number refused"]
pub fn value_count(table: &[u8], told: &mut [u64; 1]) -> u8 {
    unsafe { egrivundo_value_count(table.as_ptr(), table.len(), told) }
}

/// The start values: `values`, one for each parameter, becomes them.
#[inline]
#[must_use = "0 is accepted, any other number refused"]
pub fn starts(table: &[u8], values: &mut [i64]) -> u8 {
    unsafe {
        egrivundo_starts(
            table.as_ptr(),
            table.len(),
            values.as_mut_ptr(),
            values.len(),
        )
    }
}

/// Where the value of a module's row stands. Module and row count from 0;
/// `told` becomes the place, from 0 too.
#[inline]
#[must_use = "0 is accepted, any other number refused"]
pub fn place(table: &[u8], owner: u64, row: u64, told: &mut [u64; 1]) -> u8 {
    unsafe { egrivundo_place(table.as_ptr(), table.len(), owner, row, told) }
}

/// A module's row, both counted from 0. `told` becomes index 1, index 2 (-1:
/// none), the kind (0 level, 1 switch, 2 number, 3 word), low, high, step, and
/// 1 where a line may set it, else 0.
#[inline]
#[must_use = "0 is accepted, any other number refused"]
pub fn row(table: &[u8], owner: u64, row: u64, told: &mut [i64; 7]) -> u8 {
    unsafe { egrivundo_row(table.as_ptr(), table.len(), owner, row, told) }
}

/// The words of an answer's number, with zero bytes behind them.
///
/// ```
/// let mut text = [1; 64];
/// egrivundo::calls::refusal(8, &mut text);
/// assert!(text.starts_with(b"the list does not fit its buffer\0"));
/// ```
#[inline]
pub fn refusal(number: u8, text: &mut [u8; 64]) {
    unsafe { egrivundo_refusal(number, text) }
}
