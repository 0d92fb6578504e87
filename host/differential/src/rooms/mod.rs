//! Random tables, values, wishes and ports, right and wrong.

mod knob;
mod port;
mod row;
mod spoil;
mod value;
mod wish;

pub use knob::{knob, Knob};
pub use port::port;
pub use row::{connection, flag, row, CONNECTION, ROW};
pub use spoil::{spoil_table, spoil_values};
pub use value::{differing, permitted, spoiled};
pub use wish::{selection, wanted};

use crate::rng::Rng;
use reference::layout::Layout;

/// A room as it was drawn; its table may have been spoiled afterwards.
pub struct Room {
    pub modules: Vec<(Layout, Vec<u8>)>,
    pub table: Vec<u8>,
    pub values: Vec<i64>,
}

/// Sizes of mixers where texts grow longer, or a word has a bound.
pub const SIZES: [u8; 6] = [1, 2, 9, 10, 31, 32];

const SIMPLE: [&[u8]; 14] = [
    b"T", b"S", b"t", b"T ", b" T", b" ", b"=", b">", b"#", b">1=O", b"SA", b"AB", b"ABC", b"~",
];

/// A sound room with permitted values.
pub fn room(rng: &mut Rng) -> Room {
    // Now and then the largest that there is, with every module in reach.
    let largest = rng.once_in(400);
    let count = match rng.below(100) {
        _ if largest => 64,
        0..3 => 0,
        3..30 => 1,
        30..90 => 2 + rng.below(6),
        90..98 => 8 + rng.below(24),
        _ => 62 + rng.below(3),
    };
    let kinds: &[u8] = match rng.below(5) {
        0 => &[1, 2, 3, 4, 6],
        1 => &[4, 5, 6],
        2 => &[1, 2, 3, 4, 5, 6],
        _ => &[1, 2, 5, 6, 7, 7, 7],
    };
    let mut modules: Vec<(Layout, Vec<u8>)> = Vec::with_capacity(count);
    for number in 0..count {
        let label = match rng.below(24) {
            0..2 if !modules.is_empty() => rng.below(modules.len()),
            _ => usize::MAX,
        };
        let label = match modules.get(label) {
            _ if largest => format!("{number:032}").into_bytes(),
            Some(other) => other.1.clone(),
            None => self::label(rng),
        };
        let layout = match rng.pick(kinds) {
            _ if largest => Layout::mixer(32, 32),
            7 => mixer(rng),
            kind => Layout::of(kind),
        };
        modules.push((layout, label));
    }
    let records = modules.iter().map(|(layout, label)| record(*layout, label));
    let table = records.flatten().collect();
    let rows = modules.iter().flat_map(|(layout, _)| layout.rows());
    let values = rows.map(|row| permitted(rng, row)).collect();
    Room {
        modules,
        table,
        values,
    }
}

/// A mixer of some size.
fn mixer(rng: &mut Rng) -> Layout {
    let size = |rng: &mut Rng| match rng.below(4) {
        0 => 1 + rng.below(32) as u8,
        1 => rng.pick(&SIZES),
        // Small ones, so that a case is soon done.
        _ => rng.pick(&[1, 2, 3, 9, 10]),
    };
    Layout::mixer(size(rng), size(rng))
}

/// The record of a module.
pub fn record(layout: Layout, label: &[u8]) -> Vec<u8> {
    let mut record = vec![0; 33];
    record[0] = layout.kind;
    record[1..1 + label.len()].copy_from_slice(label);
    if layout.kind == 7 {
        record.extend([layout.inputs, layout.outputs]);
    }
    record
}

/// A label: simple, random, or of all 32 bytes; often with a `#` before it,
/// and seldom with one in another place.
fn label(rng: &mut Rng) -> Vec<u8> {
    let mut label = unmarked(rng);
    match rng.below(12) {
        0 => label.insert(rng.below(label.len() + 1), b'#'),
        1..6 => label.insert(0, b'#'),
        _ => {}
    }
    label.truncate(32);
    label
}

fn unmarked(rng: &mut Rng) -> Vec<u8> {
    let length = match rng.below(8) {
        0..3 => return rng.pick(&SIMPLE).to_vec(),
        3 => 32,
        4 => 31,
        _ => 1 + rng.below(12),
    };
    // Few letters make labels that begin one another.
    let few = rng.once_in(3);
    let byte = |rng: &mut Rng| loop {
        let byte = if few {
            rng.pick(b"AB")
        } else {
            rng.between(0x20, 0x7E) as u8
        };
        if byte != b'"' {
            return byte;
        }
    };
    (0..length).map(|_| byte(rng)).collect()
}

/// The records of a sound table with their layouts; it may have been spoiled.
pub fn records(table: &[u8]) -> Vec<(Layout, &[u8])> {
    let mut records = Vec::new();
    let mut rest = table;
    while let Some(&kind) = rest.first() {
        let (layout, length) = match kind {
            7 => (Layout::mixer(rest[33], rest[34]), 35),
            _ => (Layout::of(kind), 33),
        };
        let (record, others) = rest.split_at(length);
        records.push((layout, record));
        rest = others;
    }
    records
}
