//! Lines: indices, edits and texts.

use super::{fixed, index, line, module};
use crate::compare::{Compare, Difference};
use reference::catalogue::Kind;
use reference::layout::Layout;

/// Each index group of one to three digits, alone and one of two.
pub fn indices(compare: &mut Compare) -> Result<(), Difference> {
    for layout in fixed().chain([Layout::mixer(9, 10), Layout::mixer(32, 31)]) {
        let room = module(layout, b"M");
        for first in 0..1000 {
            for width in 1..=4 {
                line(
                    compare,
                    &room,
                    format!("GA\"M\">{first:0width$}").as_bytes(),
                )?;
            }
            for other in 0..6 {
                line(
                    compare,
                    &room,
                    format!("GA\"M\">{other}>{first}").as_bytes(),
                )?;
                line(
                    compare,
                    &room,
                    format!("GA\"M\">{first}>{other}").as_bytes(),
                )?;
            }
        }
    }
    Ok(())
}

/// Each byte put in, put over and left out at each place of some lines.
pub fn edits(compare: &mut Compare) -> Result<(), Difference> {
    let mixer = Layout::mixer(2, 10);
    let lines: [(Layout, &[u8]); 12] = [
        (Layout::of(1), b"SA\"M\">1=-4.5"),
        (Layout::of(1), b"SA \"M\">2=T"),
        (Layout::of(1), b"GA\"M\">3"),
        (Layout::of(4), b"SA\"M\">1>2=-60.5"),
        (Layout::of(5), b"GA \"M\">2>17"),
        (Layout::of(6), b"SA\"M\">1>1=43200"),
        (Layout::of(5), b"SA\"M\">0>8=-3"),
        (Layout::of(4), b"SA\"M\">1>(2,3)=O"),
        (mixer, b"SA\"M\">3>2=C0400000"),
        (mixer, b"SA\"M\">4>(2,10)=T"),
        (mixer, b"GA\"M\">4>(1,2)"),
        (mixer, b"SA \"M\">1>3=-60.5"),
    ];
    for (layout, right) in lines {
        let mut room = module(layout, b"M");
        for (value, row) in room.1.iter_mut().zip(layout.rows()) {
            *value = row.high;
        }
        for place in 0..=right.len() {
            for byte in 0..=255 {
                let mut edited = right.to_vec();
                edited.insert(place, byte);
                line(compare, &room, &edited)?;
                if place < right.len() {
                    edited.remove(place + 1);
                    line(compare, &room, &edited)?;
                }
            }
            line(compare, &room, &right[..place])?;
            line(compare, &room, &right[place..])?;
        }
    }
    Ok(())
}

/// Each level text and each number text, and words of one bit, on each row of
/// their kind.
pub fn texts(compare: &mut Compare) -> Result<(), Difference> {
    let mut levels = Vec::new();
    for whole in (0..10)
        .map(|n| n.to_string())
        .chain((0..100).map(|n| format!("{n:02}")))
    {
        for tenth in [String::new()]
            .into_iter()
            .chain((0..10).map(|n| format!(".{n}")))
        {
            for sign in ["", "-"] {
                levels.push(format!("{sign}{whole}{tenth}"));
            }
        }
    }
    for layout in fixed().chain([Layout::mixer(2, 3), Layout::mixer(1, 32)]) {
        let room = module(layout, b"M");
        for row in layout.rows() {
            let begin = format!("SA\"M\"{}=", index(row));
            match row.kind {
                Kind::Level => {
                    for text in &levels {
                        line(compare, &room, format!("{begin}{text}").as_bytes())?;
                    }
                }
                Kind::Number => {
                    for width in 1..=6 {
                        // The short rows need no long way past their bounds.
                        let most = if row.high > 99 { 100_000 } else { 120 };
                        for number in 0..most {
                            let text = format!("{number:0width$}");
                            line(compare, &room, format!("{begin}{text}").as_bytes())?;
                            if width > 1 && number > 1200 && number < 43_000 {
                                break;
                            }
                        }
                    }
                }
                Kind::Word => {
                    for (place, width) in (0..34).flat_map(|n| (1..=10).map(move |w| (n, w))) {
                        let word = 1u64 << place;
                        let texts = [
                            format!("{word:0width$X}"),
                            format!("{:0width$x}", word * 10),
                        ];
                        for text in texts.iter().map(String::as_str).chain(["O", "F", "T", ""]) {
                            line(compare, &room, format!("{begin}{text}").as_bytes())?;
                        }
                    }
                }
                Kind::Switch => {
                    for text in 0..=255u8 {
                        line(compare, &room, &[begin.as_bytes(), &[text]].concat())?;
                    }
                }
            }
        }
    }
    Ok(())
}
