//! Random rows of connections.

use super::port;
use crate::rng::Rng;

/// Bytes of a connection, and of a row.
pub const CONNECTION: usize = 67;
pub const ROW: usize = 32 * CONNECTION;

/// A row of connections: fresh, with some or all open, or with ports that hold
/// something; of the last, some hold parts of a line.
pub fn row(rng: &mut Rng, line: &[u8]) -> Vec<u8> {
    let mut row = vec![0; ROW];
    if rng.once_in(8) {
        return row;
    }
    let closed = rng.pick(&[1, 2, 4, 30]);
    let used = rng.once_in(2);
    for connection in row.chunks_mut(CONNECTION) {
        if used && rng.once_in(2) {
            connection[1..].copy_from_slice(&port(rng, line));
            // Any claim that is too high refuses all turns over the row.
            if connection[1] > 64 && !rng.once_in(16) {
                connection[1] = 64;
            }
        }
        if !rng.once_in(closed + 1) {
            connection[0] = flag(rng);
        }
    }
    row
}

/// A flag of an open connection.
pub fn flag(rng: &mut Rng) -> u8 {
    match rng.below(8) {
        0 => rng.pick(&[2, 3, 127, 128, 254, 255]),
        _ => 1,
    }
}

/// The number of a connection, now and then of none.
pub fn connection(rng: &mut Rng) -> u64 {
    match rng.below(12) {
        0 => rng.pick(&[
            32,
            33,
            63,
            64,
            255,
            256,
            1 << 16,
            1 << 32,
            1 << 63,
            u64::MAX,
        ]),
        1 => (1 << (5 + rng.below(59))) + rng.below(32) as u64,
        2 => rng.pick(&[0, 31]),
        _ => rng.below(32) as u64,
    }
}
