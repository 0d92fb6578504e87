//! Random selections and wanted values.

use super::{differing, spoiled, Room};
use crate::rng::Rng;

/// One byte for each module.
pub fn selection(rng: &mut Rng, room: &Room) -> Vec<u8> {
    let chosen = rng.below(5);
    let mut selection: Vec<u8> = (0..room.modules.len())
        .map(|_| u8::from(rng.below(4) < chosen))
        .collect();
    if rng.once_in(20) {
        match rng.below(3) {
            0 => selection.push(rng.pick(&[0, 1])),
            1 => {
                selection.pop();
            }
            _ if selection.is_empty() => selection.push(1),
            _ => {
                let place = rng.below(selection.len());
                selection[place] = rng.pick(&[2, 3, 128, 255]);
            }
        }
    }
    selection
}

/// A wish: some changes, seldom wrong ones.
pub fn wanted(rng: &mut Rng, room: &Room, present: &[i64], selection: &[u8]) -> Vec<i64> {
    let mut wanted = present.to_vec();
    let changes = rng.pick(&[0, 1, 3, 10, 30, 100]);
    let read_only = rng.once_in(12);
    let rubbish = rng.once_in(3);
    let wrong = rng.once_in(10);
    let mut entries = wanted.iter_mut();
    for (number, (layout, _)) in room.modules.iter().enumerate() {
        let chosen = selection.get(number) == Some(&1);
        for (row, entry) in layout.rows().zip(&mut entries) {
            if (rubbish && !chosen) || (wrong && rng.once_in(20)) {
                *entry = spoiled(rng, row, *entry);
            } else if (row.settable || read_only) && rng.below(100) < changes {
                *entry = differing(rng, row, *entry);
            }
        }
    }
    if rng.once_in(30) {
        match rng.below(3) {
            0 => wanted.push(0),
            1 => {
                wanted.pop();
            }
            _ => wanted.clear(),
        }
    }
    wanted
}
