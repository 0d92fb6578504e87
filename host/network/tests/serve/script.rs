//! Lines of a client, right and wrong ones.

use egrivundo::{Kind, Row};

use super::model::rows;

/// Numbers that look random: xorshift with 64 bits.
pub struct Random(u64);

impl Random {
    pub fn new(seed: u64) -> Random {
        Random(seed.wrapping_mul(0x9E37_79B9_7F4A_7C15) | 1)
    }

    pub fn below(&mut self, limit: usize) -> usize {
        self.0 ^= self.0 << 13;
        self.0 ^= self.0 >> 7;
        self.0 ^= self.0 << 17;
        (self.0 >> 16) as usize % limit
    }

    pub fn byte(&mut self) -> u8 {
        self.below(256) as u8
    }

    pub fn of<'a, T>(&mut self, all: &'a [T]) -> &'a T {
        &all[self.below(all.len())]
    }
}

/// A client's line with its end: sets and gets of its own module, some of them
/// refused, and a few that are no lines of the protocol at all.
pub fn line(random: &mut Random, client: usize) -> Vec<u8> {
    let rows = rows(client);
    let row = random.of(&rows);
    let (index, value) = (row.index, value(random, row));
    let text = match random.below(12) {
        0..=4 => format!("SA\"P{client}\">{index}={value}\r"),
        5..=8 => format!("GA\"P{client}\">{index}\r"),
        9 => format!("SA \"P{client}\">0{index}={value}0\r"),
        10 => format!("GA\"P{client}x\">{index}\r"),
        _ => format!("SA\"P{client}\">{index}{}\r", "x".repeat(random.below(90))),
    };
    text.into_bytes()
}

/// A text that the row's kind may have; not all are permitted.
fn value(random: &mut Random, row: &Row) -> String {
    match row.kind {
        Kind::Switch => random.of(&["O", "F", "T", "on"]).to_string(),
        Kind::Word => format!("{:08X}", random.below(8) << 29),
        Kind::Level => {
            let level = row.low - 5 + random.below((row.high - row.low) as usize + 10) as i64;
            let sign = if level < 0 { "-" } else { "" };
            format!("{sign}{}.{}", level.abs() / 10, level.abs() % 10)
        }
        _ => (row.low + random.below((row.high - row.low) as usize + 3) as i64).to_string(),
    }
}
