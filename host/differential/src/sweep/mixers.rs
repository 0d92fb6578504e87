//! Mixers: their tables, their words, and the lists that restore these.

use super::{line, module, wish};
use crate::compare::{Compare, Difference};
use crate::rng::Rng;
use crate::rooms::{record, SIZES};
use reference::layout::Layout;

/// Each byte at each place of a mixer's record, each kind with a body of its
/// length, and records of both lengths cut at each byte.
pub fn tables(compare: &mut Compare) -> Result<(), Difference> {
    for length in [1, 32] {
        let table = record(Layout::mixer(1, 32), &[b'A'; 32][..length]);
        for place in 0..table.len() {
            for byte in 0..=255 {
                let mut table = table.clone();
                table[place] = byte;
                compare.table(&table)?;
            }
        }
    }
    let mixer = record(Layout::mixer(2, 1), b"A");
    let both = [&mixer[..], &record(Layout::of(6), b"B")].concat();
    for table in [both.repeat(33), mixer.repeat(65)] {
        for length in 0..=table.len() {
            compare.table(&table[..length])?;
        }
    }
    Ok(())
}

/// Each word of one or two bits, and each of all but one, set and got with
/// each number of outputs.
pub fn words(compare: &mut Compare) -> Result<(), Difference> {
    for outputs in 1..=32 {
        let layout = Layout::mixer(2, outputs);
        let mut room = module(layout, b"M");
        let place = layout.count() - 1;
        for word in masks(32) {
            for word in [word, !word & 0xFFFF_FFFF] {
                room.1[place] = 0;
                let set = format!("SA\"M\">3>2={word:08X}");
                line(compare, &room, set.as_bytes())?;
                room.1[place] = word;
                line(compare, &room, b"GA\"M\">3>2")?;
            }
        }
    }
    Ok(())
}

/// Lists for words that differ in no, one, two or all outputs.
pub fn lists(compare: &mut Compare) -> Result<(), Difference> {
    let rng = &mut Rng::new(5, 5);
    for (inputs, outputs) in SIZES.iter().flat_map(|&m| SIZES.map(|n| (m, n))) {
        let layout = Layout::mixer(inputs, outputs);
        let (table, start) = module(layout, b"M");
        let all = layout.rows().last().map_or(0, |row| row.high);
        let place = start.len() - 1;
        for mask in masks(outputs).chain([0, all]) {
            for present in [0, all, all & 0x5555_5555] {
                let (mut from, mut to) = (start.clone(), start.clone());
                from[place] = present;
                to[place] = present ^ mask;
                wish(compare, rng, &table, (&from, &to))?;
            }
        }
    }
    Ok(())
}

/// The words of one and of two bits among the highest.
pub fn masks(outputs: u8) -> impl Iterator<Item = i64> {
    let bit = |output: u8| 1i64 << (32 - output);
    (1..=outputs).flat_map(move |one| (one..=outputs).map(move |other| bit(one) | bit(other)))
}
