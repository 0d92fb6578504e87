//! The calls on a row of 32 connections, which is 2,144 bytes: of each, open
//! (0 no, any other byte yes) and the 66 bytes of its port. All zero is the
//! fresh row.

use super::declared::*;

/// One turn over a row: one port call for the next open connection with bytes
/// waiting. `given` has the waiting bytes of all 32, one after the other, and
/// `counts` how many are of each. `told` becomes 1 where one was served, its
/// number, and what [`port`] tells; six zeros where nobody waits. A turn stores
/// into the one connection that it served, its first byte as 1.
///
/// `last` is the last served, 31 for a fresh row; the number told is the next
/// one where one was served.
///
/// [`port`]: super::port
///
/// ```
/// use egrivundo::calls;
///
/// let mut row = [0; 2144];
/// assert_eq!(calls::open(&mut row, 5), 0);
/// let mut counts = [0; 32];
/// counts[5] = 8;
/// let mut reply = [0; 64];
/// let mut told = [9; 6];
/// let answer = calls::turn(
///     &[], &mut [], &mut row, 31, b"GA\"T\">1\r", &counts, &mut reply, &mut told,
/// );
/// assert_eq!((answer, told), (0, [1, 5, 8, 4, 0, 0]));
/// assert_eq!(&reply[..4], b"\x1501\r");
/// ```
#[allow(clippy::too_many_arguments)]
#[inline]
#[must_use = "0 is accepted, any other number refused"]
pub fn turn(
    table: &[u8],
    values: &mut [i64],
    row: &mut [u8],
    last: u64,
    given: &[u8],
    counts: &[u64],
    reply: &mut [u8],
    told: &mut [u64; 6],
) -> u8 {
    unsafe {
        egrivundo_turn(
            table.as_ptr(),
            table.len(),
            values.as_mut_ptr(),
            values.len(),
            row.as_mut_ptr(),
            row.len(),
            last,
            given.as_ptr(),
            given.len(),
            counts.as_ptr(),
            counts.len(),
            reply.as_mut_ptr(),
            reply.len(),
            told,
        )
    }
}

/// Opens a closed connection, with a fresh port.
///
/// ```
/// use egrivundo::calls;
///
/// let mut row = [0; 2144];
/// assert_eq!(calls::open(&mut row, 31), 0);
/// assert_eq!(calls::open(&mut row, 31), 10);
/// assert_eq!(calls::close(&mut row, 31), 0);
/// assert_eq!(calls::open(&mut row, 32), 10);
/// ```
#[inline]
#[must_use = "0 is accepted, any other number refused"]
pub fn open(row: &mut [u8], number: u64) -> u8 {
    unsafe { egrivundo_open(row.as_mut_ptr(), row.len(), number) }
}

/// Closes an open connection, and leaves it a fresh port.
#[inline]
#[must_use = "0 is accepted, any other number refused"]
pub fn close(row: &mut [u8], number: u64) -> u8 {
    unsafe { egrivundo_close(row.as_mut_ptr(), row.len(), number) }
}
