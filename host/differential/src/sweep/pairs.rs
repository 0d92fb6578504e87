//! Pairs of numbers as index groups.

use super::{fixed, line, module};
use crate::compare::{Compare, Difference};
use crate::rooms::SIZES;
use reference::catalogue::{Kind, Row};
use reference::layout::Layout;

/// A pair in each place of an index part, right in form and wrong.
pub fn forms(compare: &mut Compare) -> Result<(), Difference> {
    let parts = [
        ">(1,2)",
        ">(1,2)>1",
        ">1>(1,2)",
        ">4>(1,2)",
        ">(1,2)>(3,4)",
        ">4>(1,2)>3",
        ">4>(001,032)",
        ">4>(0001,2)",
        ">4>(1,0002)",
        ">4>(999,0)",
        ">4>(1,2",
        ">4>1,2)",
        ">4>(1,2))",
        ">4>((1,2)",
        ">4>(1,2)3",
        ">4>3(1,2)",
        ">4>(1,2,3)",
        ">4>(1,2),3",
        ">4>( 1,2)",
        ">4>(1 ,2)",
        ">4>(1, 2)",
        ">4>(1,2) ",
        ">4>(1 2)",
        ">4>(1>2)",
        ">4>(1)",
        ">4>(1,)",
        ">4>(,2)",
        ">4>(,)",
        ">4>()",
        ">4>(",
    ];
    for layout in fixed().chain([Layout::mixer(2, 2), Layout::mixer(32, 32)]) {
        let room = module(layout, b"M");
        for part in parts {
            line(compare, &room, format!("GA\"M\"{part}").as_bytes())?;
            for text in ["O", "F", "T", "0", "", "80000000"] {
                line(compare, &room, format!("SA\"M\"{part}={text}").as_bytes())?;
            }
        }
    }
    Ok(())
}

/// Each pair within and around mixers of each size, and of the other types,
/// with no output, all of them and every other one on.
pub fn numbers(compare: &mut Compare) -> Result<(), Difference> {
    let sizes = SIZES.map(|inputs| SIZES.map(|outputs| Layout::mixer(inputs, outputs)));
    for layout in fixed().chain(sizes.into_iter().flatten()) {
        let none = module(layout, b"M");
        let with = |mask: i64| {
            let word = |row: &Row| match row.kind {
                Kind::Word => row.high & mask,
                _ => row.start(),
            };
            (none.0.clone(), layout.rows().map(word).collect())
        };
        let rooms = [&none, &with(0xFFFF_FFFF), &with(0x5555_5555)];
        for (input, output) in (0..34).flat_map(|n| (0..34).map(move |m| (n, m))) {
            for room in rooms {
                let groups = format!("\"M\">4>({input},{output})");
                line(compare, room, format!("GA{groups}").as_bytes())?;
                for text in ["O", "F", "T"] {
                    line(compare, room, format!("SA{groups}={text}").as_bytes())?;
                }
            }
        }
    }
    Ok(())
}
