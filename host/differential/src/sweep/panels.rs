//! Changes at a wall panel.

use super::mixers::masks;
use super::{fixed, line, module, FRESH};
use crate::compare::{Compare, Difference, Sides, USUAL};
use crate::rng::Rng;
use crate::rooms::Knob;
use reference::catalogue::Kind;
use reference::layout::Layout;

type Room = (Vec<u8>, Vec<i64>);

/// A table of modules, with their starting values.
fn room(modules: &[(Layout, &[u8])]) -> Room {
    let modules = modules.iter().map(|&(layout, label)| module(layout, label));
    let (tables, values): (Vec<_>, Vec<_>) = modules.unzip();
    (tables.concat(), values.concat())
}

/// A module with this label between two others.
fn between(layout: Layout, label: &[u8]) -> Room {
    let (first, last) = ((Layout::of(1), &b"#A"[..]), (Layout::of(2), &b"#Z"[..]));
    room(&[first, (layout, label), last])
}

/// One change on its own, with a buffer of so many bytes.
fn turn(
    compare: &mut Compare,
    room: &Room,
    (owner, row, value): (u64, u64, i64),
    length: usize,
) -> Result<(), Difference> {
    let mut sides = Sides::new(&room.1, &FRESH);
    let knob = Knob { owner, row, value };
    let rng = &mut Rng::new(6, 6);
    compare.panel(rng, &room.0, &mut sides, knob, length)?;
    Ok(())
}

/// Each small number of a module and of a row, and such as would be there if
/// they were cut to some width.
pub fn numbers(compare: &mut Compare) -> Result<(), Difference> {
    let kinds = [Layout::of(5), Layout::of(2), Layout::mixer(2, 3)];
    let room = room(&[(kinds[0], b"#"), (kinds[1], b"#"), (kinds[2], b"M")]);
    let far = (1..64).flat_map(|bit| (0..3).map(move |number| (1 << bit) + number));
    let far: Vec<u64> = far.flat_map(|number| [number, !number]).collect();
    for value in [0, 1, -60] {
        for (owner, row) in (0..70).flat_map(|owner| (0..70).map(move |row| (owner, row))) {
            turn(compare, &room, (owner, row, value), USUAL)?;
        }
        for number in far.iter().copied().chain([u64::MAX]) {
            for other in 0..4 {
                turn(compare, &room, (number, other, value), USUAL)?;
                turn(compare, &room, (other, number, value), USUAL)?;
            }
        }
    }
    Ok(())
}

/// Each value of each row, and some outside, from the row's start and from its
/// bounds, of a module with `#` and of one without.
pub fn values(compare: &mut Compare) -> Result<(), Difference> {
    for (layout, label) in fixed().flat_map(|layout| [(layout, &b"#M"[..]), (layout, b"M")]) {
        let start = between(layout, label);
        let first = Layout::of(1).count();
        for (place, row) in layout.rows().enumerate() {
            for present in [row.start(), row.low, row.high] {
                let mut room = start.clone();
                room.1[first + place] = present;
                // The longest row is passed over once, and near its bounds.
                let near = |value| value - row.low < 20 || row.high - value < 20;
                for value in (row.low - 12..=row.high + 12)
                    .filter(|&value| present == row.start() || near(value))
                {
                    turn(compare, &room, (1, place as u64, value), USUAL)?;
                }
                for far in (8..64).map(|bit| present.wrapping_add(1 << bit)) {
                    turn(compare, &room, (1, place as u64, far), USUAL)?;
                }
            }
        }
    }
    Ok(())
}

/// Each word of one or two bits, from none and from all outputs, with each
/// number of outputs; and the other rows of mixers.
pub fn words(compare: &mut Compare) -> Result<(), Difference> {
    for outputs in 1..=32 {
        let layout = Layout::mixer(2, outputs);
        let room = between(layout, b"#M");
        let first = Layout::of(1).count();
        let last = layout.count() - 1;
        let all = layout.rows().last().map_or(0, |row| row.high);
        for present in [0, all] {
            let mut room = room.clone();
            room.1[first + last] = present;
            for mask in masks(32).chain([0, 1 << 32, -1]) {
                turn(compare, &room, (1, last as u64, present ^ mask), USUAL)?;
            }
        }
        let others = layout.rows().enumerate();
        for (place, row) in others.filter(|(_, row)| row.kind != Kind::Word) {
            for value in [row.low, row.high, row.high + 1] {
                turn(compare, &room, (1, place as u64, value), USUAL)?;
            }
        }
    }
    Ok(())
}

/// Each first byte of a label, a `#` at each of its places, and labels that
/// two modules bear; of no label is a change told that a line has made.
pub fn labels(compare: &mut Compare) -> Result<(), Difference> {
    let bytes = (0x20..=0x7E).filter(|&byte| byte != b'"');
    let firsts = bytes.flat_map(|byte| [vec![byte], vec![byte, b'x'], vec![byte, b'#']]);
    let places = (0..32).map(|place| {
        let mut label = [b'x'; 32];
        label[place] = b'#';
        label.to_vec()
    });
    for label in firsts.chain(places) {
        let alone = between(Layout::of(4), &label);
        let of = |kind| (Layout::of(kind), &label[..]);
        let twice = room(&[of(1), of(4), of(1), (Layout::of(2), b"#Z")]);
        for (value, owner) in (0..2).flat_map(|value| (0..4).map(move |n| (value, n))) {
            turn(compare, &alone, (owner, 0, value), USUAL)?;
            turn(compare, &twice, (owner, 0, value), USUAL)?;
        }
        let set = [b"SA\"", &label[..], b"\">1>1=1"].concat();
        line(compare, &alone, &set)?;
    }
    Ok(())
}

/// Each room for a notice, with everything right and with one or more of the
/// other things wrong that a call is refused for.
pub fn refusals(compare: &mut Compare) -> Result<(), Difference> {
    let knobs = [
        (1, 6, -5),
        (1, 6, 0),
        (1, 0, 0),
        (1, 33, 0),
        (3, 0, 0),
        (1, 6, 1),
        (u64::MAX, u64::MAX, i64::MIN),
    ];
    let rooms = [&b"#R"[..], b"R"].map(|label| between(Layout::of(5), label));
    for (right, wrong) in rooms.iter().flat_map(|room| (0..8).map(move |n| (room, n))) {
        let mut room = right.clone();
        if wrong & 1 != 0 {
            room.0[33] = 8;
        }
        if wrong & 2 != 0 {
            room.1[6 + 5] = -55;
        }
        if wrong & 4 != 0 {
            room.1.pop();
        }
        for (length, knob) in (0..140).flat_map(|n| knobs.map(move |knob| (n, knob))) {
            turn(compare, &room, knob, length)?;
        }
    }
    Ok(())
}
