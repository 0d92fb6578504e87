//! Random lines: drawn from the grammar, then sometimes spoiled.

mod pair;
mod text;

use crate::rng::Rng;
use crate::rooms::Room;
use pair::pair;
use reference::catalogue::{Kind, Row};
use reference::layout::Layout;
use text::text;

/// A line without its end.
pub fn line(rng: &mut Rng, room: &Room) -> Vec<u8> {
    let mut line = Vec::with_capacity(80);
    let set = rng.below(10) < 7;
    match rng.below(40) {
        0 => line.extend(rng.pick(&[b"sa", b"GS", b"AS", b"S ", b"  ", b"Sa"])),
        1 => line.push(rng.pick(b"SGA \n\"")),
        _ => line.extend(if set { b"SA" } else { b"GA" }),
    }
    match rng.below(30) {
        0 => line.extend(b"  "),
        1 => line.push(rng.pick(b"\t\n@x>")),
        2..12 => line.push(b' '),
        _ => {}
    }
    if !rng.once_in(60) {
        line.push(b'"');
    }
    let layout = label(rng, room, &mut line);
    if !rng.once_in(60) {
        line.push(b'"');
    }
    let row = row(rng, layout);
    // A cross-point's text is a switch's.
    let mut kind = row.kind;
    let crossed = match kind {
        Kind::Word => rng.once_in(2),
        _ => rng.once_in(60),
    };
    if crossed {
        pair(rng, layout, row, &mut line);
        kind = Kind::Switch;
    } else {
        index(rng, row, &mut line);
    }
    if set != rng.once_in(40) {
        line.push(b'=');
        text(rng, row, kind, &mut line);
    }
    if rng.once_in(6) {
        for _ in 0..1 + rng.below(3) {
            spoil(rng, &mut line);
        }
    }
    if rng.once_in(15) {
        let length = 60 + rng.below(10);
        let filler = rng.pick(b"0 1x>=\"\n");
        if line.len() < length {
            line.resize(length, filler);
        }
    }
    line
}

/// A row of a layout; of a mixer mostly a word.
fn row(rng: &mut Rng, layout: Layout) -> &'static Row {
    let words = layout.rows().filter(|row| row.kind == Kind::Word).count();
    let first = layout.count() - words;
    let place = match words {
        0 => rng.below(first),
        _ if rng.once_in(3) => rng.below(first),
        _ => first + rng.below(words),
    };
    layout.rows().nth(place).expect("a row for each place")
}

/// Puts down a label, mostly one of the room's, and tells its module's layout.
fn label(rng: &mut Rng, room: &Room, line: &mut Vec<u8>) -> Layout {
    if room.modules.is_empty() || rng.once_in(20) {
        line.extend_from_slice(rng.pick(&[&b""[..], b"Q", b"T", b"t", b"AB", b"\0"]));
        return Layout::of(1);
    }
    let (layout, label) = &room.modules[rng.below(room.modules.len())];
    line.extend_from_slice(label);
    match rng.below(60) {
        0 => line.push(0),
        1 => line.extend([0; 3]),
        2 => line.push(b' '),
        3 => line.push(b'x'),
        4 => {
            line.pop();
        }
        5 => {
            let last = line.len() - 1;
            line[last] ^= 0x20;
        }
        6 => line.resize(line.len() + 33 - label.len().min(32), 0),
        _ => {}
    }
    *layout
}

fn index(rng: &mut Rng, row: &Row, line: &mut Vec<u8>) {
    let (mut first, mut second) = row.index;
    match rng.below(60) {
        0 => second = None,
        1 => second = second.or(Some(0)),
        2 => second = second.or(Some(first)),
        3 => first = rng.below(1000) as u16,
        4 => second = Some(rng.below(20) as u16),
        5 => first += 256,
        6 => second = second.map(|index| index + 256),
        7 => first = rng.below(10) as u16,
        8 => line.extend_from_slice(rng.pick(&[&b">"[..], b">>", b" ", b"1", b">1>", b">0"])),
        _ => {}
    }
    group(rng, first, line);
    if let Some(second) = second {
        group(rng, second, line);
    }
    if rng.once_in(60) {
        line.extend_from_slice(rng.pick(&[&b">"[..], b">1", b" ", b"0", b"=", b"x", b"\n", b";"]));
    }
}

/// `>` and digits, with zeros before them.
fn group(rng: &mut Rng, index: u16, line: &mut Vec<u8>) {
    let width = match rng.below(40) {
        0 => 4,
        1..5 => 2,
        5..8 => 3,
        _ => 1,
    };
    line.push(b'>');
    line.extend(format!("{index:0width$}").bytes());
}

/// One small change anywhere.
pub fn spoil(rng: &mut Rng, line: &mut Vec<u8>) {
    let byte = match rng.below(3) {
        0 => rng.byte(),
        1 => rng.pick(b"\"=> -.0OFT\0\nSAG(,)"),
        _ => rng.between(0x20, 0x7E) as u8,
    };
    let place = rng.below(line.len() + 1);
    match rng.below(5) {
        0 => line.insert(place, byte),
        1 if place < line.len() => {
            line.remove(place);
        }
        2 => line.truncate(place),
        3 if place + 1 < line.len() => line.swap(place, place + 1),
        _ if place < line.len() => line[place] = byte,
        _ => line.push(byte),
    }
}
