//! Systematic cases: whole small domains, without chance.

mod calls;
mod lines;
mod mixers;
mod pairs;
mod panels;
mod turns;
mod wishes;

use std::panic::{catch_unwind, AssertUnwindSafe};

use crate::compare::{Compare, Difference, Sides, Wish, USUAL};
use crate::report::Report;
use crate::rng::Rng;
use crate::rooms::record;
use cores::Calls;
use reference::catalogue::Row;
use reference::layout::Layout;

const FRESH: [u8; 66] = [0; 66];

/// Compares two cores on every value, text, index and byte that the sweeps
/// name. Scenario 0 stands for all of them.
pub fn sweep(left: &Calls, right: &Calls) -> Report {
    let mut compare = Compare::new(left, right);
    let played = catch_unwind(AssertUnwindSafe(|| {
        calls::tables(&mut compare)?;
        mixers::tables(&mut compare)?;
        turns::refusals(&mut compare)?;
        turns::numbers(&mut compare)?;
        turns::counts(&mut compare)?;
        turns::bytes(&mut compare)?;
        turns::rounds(&mut compare)?;
        panels::refusals(&mut compare)?;
        panels::numbers(&mut compare)?;
        panels::labels(&mut compare)?;
        panels::words(&mut compare)?;
        wishes::refusals(&mut compare)?;
        wishes::lengths(&mut compare)?;
        wishes::long(&mut compare)?;
        calls::ports(&mut compare)?;
        lines::indices(&mut compare)?;
        pairs::forms(&mut compare)?;
        pairs::numbers(&mut compare)?;
        lines::edits(&mut compare)?;
        calls::logs(&mut compare)?;
        lines::texts(&mut compare)?;
        mixers::words(&mut compare)?;
        mixers::lists(&mut compare)?;
        panels::values(&mut compare)?;
        calls::values(&mut compare)
    }));
    compare.tally.scenarios += 1;
    Report::new(compare.tally, 0, played)
}

/// The layouts of fixed rows.
fn fixed() -> impl Iterator<Item = Layout> {
    (1..=6).map(Layout::of)
}

/// A table of one module, with its starting values.
fn module(layout: Layout, label: &[u8]) -> (Vec<u8>, Vec<i64>) {
    let values = layout.rows().map(Row::start).collect();
    (record(layout, label), values)
}

fn index(row: &Row) -> String {
    match row.index {
        (first, None) => format!(">{first}"),
        (first, Some(second)) => format!(">{first}>{second}"),
    }
}

/// One line with its end on a fresh port.
fn line(compare: &mut Compare, room: &(Vec<u8>, Vec<i64>), line: &[u8]) -> Result<(), Difference> {
    let mut sides = Sides::new(&room.1, &FRESH);
    let given = [line, b"\r"].concat();
    let rng = &mut Rng::new(1, 1);
    compare.port(rng, &room.0, &mut sides, &given, USUAL)?;
    Ok(())
}

/// The list that takes a table's one module from some values to others.
fn wish(
    compare: &mut Compare,
    rng: &mut Rng,
    table: &[u8],
    (present, wanted): (&[i64], &[i64]),
) -> Result<(), Difference> {
    let wish = Wish {
        table,
        present,
        selection: &[1],
        wanted,
    };
    let _ = compare.restore(rng, wish, &[])?;
    Ok(())
}
