//! The archive against the reference: systematic cases, then five million
//! random ones.

use std::process::exit;
use std::time::Instant;

use cores::{ARCHIVE, REFERENCE};
use differential::{run, settings, sweep, Report};

fn main() {
    let settings = settings(5_000_000);
    let began = Instant::now();
    println!("archive against reference, systematic cases");
    if !well(&sweep(&REFERENCE, &ARCHIVE), began) {
        exit(1);
    }
    let began = Instant::now();
    println!(
        "archive against reference, random cases, seed {}",
        settings.seed
    );
    let report = run(&REFERENCE, &ARCHIVE, settings);
    if !well(&report, began) {
        if let Some(found) = report.found {
            println!(
                "again: EGRIVUNDO_SEED={} EGRIVUNDO_FIRST={} EGRIVUNDO_CASES=1",
                settings.seed, found.scenario
            );
        }
        exit(1);
    }
}

/// Tells a report, and whether there was no difference.
fn well(report: &Report, began: Instant) -> bool {
    println!(
        "{} cases in {} scenarios, {:.1} seconds{}",
        report.tally.cases,
        report.tally.scenarios,
        began.elapsed().as_secs_f64(),
        report.tally
    );
    if let Some(found) = &report.found {
        println!("DIFFERENCE (reference first, archive second) in {found}");
    }
    report.found.is_none()
}
