//! The rows of a Standard Mixer, and the bits of its routing words.

use super::catalogue::{fader, row, switch, two, Kind, Row};

/// The most inputs, and the most outputs.
pub const MOST: u8 = 32;

static INPUTS: [Row; 64] = channels(1);
static OUTPUTS: [Row; 64] = channels(2);
/// By the number of outputs, less one.
static ROUTES: [[Row; 32]; 32] = routes();

/// The rows in order, in three parts: of the inputs, of the outputs, and a
/// routing word for each input.
pub fn rows(inputs: u8, outputs: u8) -> [&'static [Row]; 3] {
    let (inputs, outputs) = (usize::from(inputs), usize::from(outputs));
    [
        &INPUTS[..2 * inputs],
        &OUTPUTS[..2 * outputs],
        &ROUTES[outputs - 1][..inputs],
    ]
}

/// The bit of an output: output 1 has the highest.
pub const fn bit(output: u16) -> i64 {
    1 << (32 - output)
}

/// The one output in which two words differ, if it is one.
pub fn only_differing(one: i64, other: i64) -> Option<u16> {
    (1..=u16::from(MOST)).find(|&output| one ^ other == bit(output))
}

/// The bits of so many outputs.
const fn all(outputs: u16) -> i64 {
    (0xFFFF_FFFF << (32 - outputs)) & 0xFFFF_FFFF
}

/// A level and a mute for each of 32 channels.
const fn channels(index1: u16) -> [Row; 64] {
    let mut rows = [switch(two(index1, 0)); 64];
    let mut place = 0;
    while place < 64 {
        let index = two(index1, place as u16 + 1);
        rows[place] = match place % 2 {
            0 => fader(index),
            _ => switch(index),
        };
        place += 1;
    }
    rows
}

/// The routing words of 32 inputs, for each number of outputs.
const fn routes() -> [[Row; 32]; 32] {
    let mut rows = [[switch(two(3, 0)); 32]; 32];
    let mut outputs = 1;
    while outputs <= 32 {
        let mut input = 1;
        while input <= 32 {
            let step = bit(outputs) as u32;
            let word = row(two(3, input), Kind::Word, 0, all(outputs), step);
            rows[outputs as usize - 1][input as usize - 1] = word;
            input += 1;
        }
        outputs += 1;
    }
    rows
}
