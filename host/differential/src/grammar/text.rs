//! Value texts.

use crate::rng::Rng;
use crate::rooms::{permitted, spoiled};
use reference::catalogue::{Kind, Row};

/// A text for a row, as for one of this kind.
pub fn text(rng: &mut Rng, row: &Row, kind: Kind, line: &mut Vec<u8>) {
    if rng.once_in(12) {
        let odd: [&[u8]; 26] = [
            b"",
            b"-",
            b".",
            b".5",
            b"-.5",
            b"3.",
            b"+3",
            b"T",
            b"O",
            b"F",
            b"o",
            b"f",
            b"0",
            b"1",
            b"-0",
            b"-00.0",
            b"3.00",
            b"000",
            b"1 ",
            b" 1",
            b"OO",
            b"99999",
            b"000001",
            b"--1",
            b"80000000",
            b"00000000",
        ];
        line.extend_from_slice(rng.pick(&odd));
        return;
    }
    let mut value = permitted(rng, row);
    if rng.once_in(5) {
        value = spoiled(rng, row, value);
    }
    match kind {
        Kind::Switch => line.push(rng.pick(b"OFT")),
        Kind::Number => {
            let width = 1 + rng.below(6);
            line.extend(format!("{value:0width$}").bytes());
        }
        Kind::Word => line.extend(word(rng, value).bytes()),
        Kind::Level => {
            if value < 0 || rng.once_in(20) {
                line.push(b'-');
            }
            let size = value.unsigned_abs();
            let width = 1 + rng.below(2);
            line.extend(format!("{:0width$}", size / 10).bytes());
            if !size.is_multiple_of(10) || rng.once_in(3) {
                line.extend(format!(".{}", size % 10).bytes());
            }
        }
    }
    if rng.once_in(40) {
        line.push(rng.pick(b" \n0=\";.O"));
    }
}

/// A word, mostly in eight capital hex digits.
fn word(rng: &mut Rng, value: i64) -> String {
    match rng.below(24) {
        0 => format!("{value:X}"),
        1 => format!("{value:09X}"),
        2 => format!("{value:08x}"),
        3 => format!("{:07X}", value >> 4),
        4 => value.to_string(),
        _ => format!("{value:08X}"),
    }
}
