//! Scenario after scenario, until enough cases or a difference.

mod lines;
mod panel;
mod turns;
mod wish;

use std::panic::{catch_unwind, AssertUnwindSafe};

use crate::compare::{Compare, Difference};
use crate::grammar;
use crate::report::Report;
use crate::rng::Rng;
use crate::rooms;
use crate::settings::Settings;
use cores::Calls;

/// Compares two cores. A case is one call made on both.
pub fn run(left: &Calls, right: &Calls, settings: Settings) -> Report {
    let mut compare = Compare::new(left, right);
    let mut scenario = settings.first;
    while compare.tally.cases < settings.cases {
        if settings.trace {
            eprintln!("scenario {scenario}");
        }
        let mut rng = Rng::new(settings.seed, scenario);
        let played = catch_unwind(AssertUnwindSafe(|| play(&mut rng, &mut compare)));
        compare.tally.scenarios += 1;
        if !matches!(played, Ok(Ok(()))) {
            return Report::new(compare.tally, scenario, played);
        }
        scenario += 1;
    }
    Report::new(compare.tally, scenario, Ok(Ok(())))
}

/// One scenario: a room, some log calls, lines on a port, knobs, turns, some
/// wishes.
fn play(rng: &mut Rng, compare: &mut Compare) -> Result<(), Difference> {
    let mut room = rooms::room(rng);
    if rng.once_in(6) {
        rooms::spoil_table(rng, &mut room);
    }
    let mut values = room.values.clone();
    if rng.once_in(6) {
        rooms::spoil_values(rng, &room, &mut values);
    }
    let kept = (room.table.clone(), values.clone());
    compare.table(&room.table)?;
    for _ in 0..2 {
        let mut line = grammar::line(rng, &room);
        if rng.once_in(10) {
            line.splice(0..0, vec![b'x'; rng.below(100)]);
        }
        compare.log(rng, &room.table, &line)?;
    }
    lines::feed(rng, compare, &room, &values)?;
    panel::turn(rng, compare, &room, &values)?;
    if rng.once_in(2) {
        turns::play(rng, compare, &room, &values)?;
    }
    for _ in 0..2 {
        wish::ask(rng, compare, &room, &values)?;
    }
    if (room.table, values) != kept {
        return Err("a core wrote to a slice that it may only read".to_string());
    }
    Ok(())
}

/// The bytes of a reply buffer, mostly as they should be.
fn room_for_reply(rng: &mut Rng) -> usize {
    match rng.below(30) {
        0 => 63,
        1 => 0,
        2 => rng.below(64),
        3..6 => 65,
        6 => 64 + rng.below(200),
        _ => 64,
    }
}
