//! Random changes at a wall panel.

use super::{differing, permitted, spoiled, Room};
use crate::rng::Rng;
use reference::catalogue::Row;
use reference::layout::Layout;

/// A change at a wall panel: module and row by their numbers, and a value.
#[derive(Clone, Copy, Debug)]
pub struct Knob {
    pub owner: u64,
    pub row: u64,
    pub value: i64,
}

/// Mostly a change of a row that is there, to a value that it permits.
pub fn knob(rng: &mut Rng, room: &Room, values: &[i64]) -> Knob {
    let count = room.modules.len();
    let module = rng.below(count.max(1));
    let layout = room.modules.get(module).map(|module| module.0);
    let layout = layout.unwrap_or(Layout::of(1));
    let words = usize::from(layout.inputs);
    let place = match rng.once_in(2) {
        true if words > 0 => layout.count() - 1 - rng.below(words),
        _ => rng.below(layout.count()),
    };
    let row = layout.rows().nth(place).expect("a row for each place");
    let before = room.modules.iter().take(module);
    let start: usize = before.map(|(layout, _)| layout.count()).sum();
    let present = values.get(start + place).copied().unwrap_or(0);
    Knob {
        owner: number(rng, module, count),
        row: number(rng, place, layout.count()),
        value: value(rng, row, present),
    }
}

/// A number, sometimes one that is not there: just past the last, or one that
/// would be there if it were cut.
fn number(rng: &mut Rng, right: usize, count: usize) -> u64 {
    let right = right as u64;
    match rng.below(80) {
        0 => count as u64,
        1 => (count + rng.below(40)) as u64,
        2 => right.wrapping_sub(1),
        3 => right + (1 << rng.pick(&[8, 16, 32, 63])),
        4 => right | 1 << rng.below(64),
        5 => u64::MAX - right,
        _ => right,
    }
}

/// Another value, the present one, or one that is just not permitted.
fn value(rng: &mut Rng, row: &Row, present: i64) -> i64 {
    match rng.below(10) {
        0 => present,
        1 => spoiled(rng, row, present),
        2 => permitted(rng, row),
        _ => differing(rng, row, present),
    }
}
