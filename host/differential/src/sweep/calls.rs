//! Tables, ports, logs, and each value.

use super::{fixed, index, line, module, wish, FRESH};
use crate::compare::{Compare, Difference, Sides, USUAL};
use crate::rng::Rng;
use reference::layout::Layout;

/// Each byte at each place of a record, for short and long labels.
pub fn tables(compare: &mut Compare) -> Result<(), Difference> {
    for length in [1, 2, 31, 32] {
        let (table, _) = module(Layout::of(2), &[b'A'; 32][..length]);
        for place in 0..33 {
            for byte in 0..=255 {
                let mut table = table.clone();
                table[place] = byte;
                compare.table(&table)?;
            }
        }
    }
    let many = module(Layout::of(2), b"A").0.repeat(70);
    for length in 0..many.len() {
        compare.table(&many[..length])?;
    }
    Ok(())
}

/// Each claim with some overrun bytes, and pieces around the limit; then each
/// overrun byte, and each room for a reply.
pub fn ports(compare: &mut Compare) -> Result<(), Difference> {
    let (table, values) = module(Layout::of(2), b"S");
    let rng = &mut Rng::new(2, 2);
    let mut line = b"GA\"S\">1".to_vec();
    line.resize(64, b' ');
    let long = [line.clone(), b"xx\rGA".to_vec()].concat();
    for claim in 0..=255 {
        for overrun in [0, 1, 2, 255] {
            let mut port = FRESH;
            port[0] = claim;
            port[1] = overrun;
            port[2..].copy_from_slice(&line);
            let cuts = (0..=long.len()).map(|end| &long[..end]);
            let ends = (0..=long.len()).map(|start| &long[start..]);
            for given in cuts.chain(ends) {
                let mut sides = Sides::new(&values, &port);
                compare.port(rng, &table, &mut sides, given, USUAL)?;
                // What a line means after it shows what the port has kept.
                let next = b"GA\"S\">1\r";
                compare.port(rng, &table, &mut sides, next, USUAL)?;
            }
        }
    }
    for overrun in 0..=255 {
        for given in [&b""[..], b"x", b"\r", b"xx\rx"] {
            let mut port = FRESH;
            port[1] = overrun;
            let mut sides = Sides::new(&values, &port);
            compare.port(rng, &table, &mut sides, given, USUAL)?;
        }
    }
    for room in 0..140 {
        let mut sides = Sides::new(&values, &FRESH);
        compare.port(rng, &table, &mut sides, b"GA\"S\">1\r", room)?;
    }
    Ok(())
}

/// Each line of seven bytes out of quote, two letters and zero, over a sound
/// table, one with a shared label, and an unsound one.
pub fn logs(compare: &mut Compare) -> Result<(), Difference> {
    let rng = &mut Rng::new(4, 4);
    let one = [
        module(Layout::of(1), b"a").0,
        module(Layout::of(2), b"ab").0,
    ]
    .concat();
    let two = [module(Layout::of(1), b"a").0, module(Layout::of(2), b"a").0].concat();
    for table in [&one[..], &two, &one[1..], &[]] {
        for number in 0..4usize.pow(7) {
            let letters = (0..7).map(|place| b"\"ab\0"[number / 4usize.pow(place) % 4]);
            let line: Vec<u8> = letters.collect();
            compare.log(rng, table, &line)?;
        }
        for before in 0..200 {
            let line = [&vec![b'x'; before][..], b"\"a\""].concat();
            compare.log(rng, table, &line)?;
        }
    }
    Ok(())
}

/// Each value of each fixed row, and some outside: asked for, set and restored.
pub fn values(compare: &mut Compare) -> Result<(), Difference> {
    let rng = &mut Rng::new(3, 3);
    for layout in fixed() {
        let (table, start) = module(layout, b"M");
        for (place, row) in layout.rows().enumerate() {
            let get = format!("GA\"M\"{}", index(row));
            let mut room = (table.clone(), start.clone());
            for value in row.low - 12..=row.high + 12 {
                room.1[place] = value;
                line(compare, &room, get.as_bytes())?;
                wish(compare, rng, &table, (&start, &room.1))?;
                wish(compare, rng, &table, (&room.1, &start))?;
            }
        }
    }
    Ok(())
}
