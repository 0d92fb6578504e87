//! Index parts with a pair of numbers.

use crate::rng::Rng;
use reference::catalogue::Row;
use reference::layout::Layout;

/// Mostly a cross-point of the mixer or one just outside it, else a pair in
/// another place, or in a form that is wrong.
pub fn pair(rng: &mut Rng, layout: Layout, row: &Row, line: &mut Vec<u8>) {
    let (first, second) = numbers(rng, layout, row);
    let part = match rng.below(40) {
        0 => format!(">({first},{second})"),
        1 => format!(">({first},{second})>1"),
        2 => format!(">({first},{second})>({second},{first})"),
        3 => format!(">4>({first},{second}"),
        4 => format!(">4>({first}, {second})"),
        5 => format!(">4>({first},{second},1)"),
        6 => format!(">4>{first},{second})"),
        7 => format!(">4>({first},{second})>1"),
        8 => format!(">4>({first},{second}))"),
        9 => format!(">{}>({first},{second})", rng.below(6)),
        10 => format!(">4>({first:04},{second})"),
        11 => format!(">4>({first},{second:04})"),
        12..15 => format!(">04>({first:02},{second:03})"),
        _ => format!(">4>({first},{second})"),
    };
    line.extend(part.bytes());
}

fn numbers(rng: &mut Rng, layout: Layout, row: &Row) -> (usize, usize) {
    let within = |rng: &mut Rng, size: u8| match rng.below(12) {
        0 => 0,
        1 => usize::from(size) + 1,
        2 => usize::from(size),
        3 => rng.below(34),
        4 => 256 + rng.below(34),
        _ => 1 + rng.below(size.max(1).into()),
    };
    // A type without pairs is asked for its row by one.
    let of_row = if layout.inputs == 0 { 2 } else { 20 };
    if rng.once_in(of_row) {
        return (row.index.0.into(), row.index.1.unwrap_or(1).into());
    }
    (within(rng, layout.inputs), within(rng, layout.outputs))
}
