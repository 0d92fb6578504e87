//! Values of a row: permitted ones, words that differ, and wrong ones.

use crate::rng::Rng;
use reference::catalogue::{Kind, Row};

/// A permitted value, often at a bound or 0.
pub fn permitted(rng: &mut Rng, row: &Row) -> i64 {
    let step = i64::from(row.step);
    match rng.below(8) {
        0 => row.low,
        1 => row.high,
        2 => row.start(),
        3 => (row.low + step).min(row.high),
        // Around 0, where a sign is easily lost.
        4 if row.low < 0 && row.high > 0 => rng.between(-9 / step, 9 / step) * step,
        4 if row.kind == Kind::Word => output(rng, row),
        _ => row.low + step * rng.between(0, (row.high - row.low) / step),
    }
}

/// The bit of one output of a word's row.
fn output(rng: &mut Rng, row: &Row) -> i64 {
    let outputs = row.high.count_ones() as usize;
    i64::from(row.step) << rng.below(outputs)
}

/// Another value: of a word, one that differs in no, one, two or all outputs,
/// or in some.
pub fn differing(rng: &mut Rng, row: &Row, present: i64) -> i64 {
    if row.kind != Kind::Word {
        return permitted(rng, row);
    }
    match rng.below(8) {
        0 => present,
        1..4 => present ^ output(rng, row),
        4 | 5 => present ^ output(rng, row) ^ output(rng, row),
        6 => present ^ row.high,
        _ => permitted(rng, row),
    }
}

/// A value that is mostly not permitted.
pub fn spoiled(rng: &mut Rng, row: &Row, value: i64) -> i64 {
    let step = i64::from(row.step);
    match rng.below(14) {
        0 => row.low - 1,
        1 => row.high + 1,
        2 => row.low - step,
        3 => row.high + step,
        4 => value.wrapping_add(1),
        5 => i64::MIN,
        6 => i64::MAX,
        7 => value.wrapping_add(1 << 32),
        8 => value.wrapping_add(1 << rng.below(64)),
        9 if step > 1 => rng.between(row.low, row.high),
        9 => value.wrapping_neg(),
        10 => rng.next() as i64,
        // A word as a signed number of 32 bits, or with another bit.
        11 if row.kind == Kind::Word => i64::from(value as i32),
        12 if row.kind == Kind::Word => value | 1 << rng.below(33),
        _ => value.wrapping_add(rng.between(-20, 20)),
    }
}
