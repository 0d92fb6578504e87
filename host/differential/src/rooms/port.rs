//! Random ports.

use crate::rng::Rng;

/// A lent port: fresh, holding a part of a line, overrun, or with a claim that
/// is too high.
pub fn port(rng: &mut Rng, line: &[u8]) -> [u8; 66] {
    let mut port = [0; 66];
    if rng.once_in(2) {
        return port;
    }
    if rng.once_in(2) {
        port[2..].fill_with(|| rng.byte());
    }
    let held = match rng.below(6) {
        0 => rng.pick(&[0, 1, 62, 63, 64]),
        1 => rng.below(65),
        _ => rng.below(line.len() + 1).min(64),
    };
    port[0] = held as u8;
    if !rng.once_in(4) {
        let length = held.min(line.len());
        port[2..2 + length].copy_from_slice(&line[..length]);
    }
    if held > 0 && rng.once_in(12) {
        port[2 + rng.below(held)] = b'\r';
    }
    if rng.once_in(6) {
        port[1] = rng.pick(&[1, 1, 1, 2, 3, 7, 128, 255]);
    }
    if rng.once_in(16) {
        port[0] = rng.pick(&[65, 66, 100, 127, 128, 254, 255]);
    }
    port
}
