//! The reference against itself: no difference, and every answer is met.

use std::process::exit;
use std::time::Instant;

use cores::REFERENCE;
use differential::{run, settings, sweep};

fn main() {
    let began = Instant::now();
    let report = sweep(&REFERENCE, &REFERENCE);
    println!(
        "reference against itself, {} systematic cases, {:.1} seconds",
        report.tally.cases,
        began.elapsed().as_secs_f64()
    );
    if let Some(found) = report.found {
        println!("DIFFERENCE in {found}");
        exit(1);
    }
    let settings = settings(300_000);
    println!("reference against itself, seed {}", settings.seed);
    let began = Instant::now();
    let report = run(&REFERENCE, &REFERENCE, settings);
    let text = report.tally.to_string();
    println!(
        "{} cases in {} scenarios, {:.1} seconds{text}",
        report.tally.cases,
        report.tally.scenarios,
        began.elapsed().as_secs_f64(),
    );
    if let Some(found) = report.found {
        println!("DIFFERENCE in {found}");
        exit(1);
    }
    let mut missed = 0;
    for (call, answers) in [
        ("table", "0 1"),
        ("port", "0 1 2 3 4"),
        ("panel", "0 1 2 3 9"),
        ("turn", "0 1 2 3 4 10"),
        ("open", "0 10"),
        ("close", "0 10"),
        ("served", "nobody unfinished line"),
        ("waited", "31"),
        ("size", "0 1 2 5 6 7"),
        ("write", "0 1 2 5 6 7 8"),
        ("buffer", "refused shorter equal longer"),
        ("log", "0 1"),
        ("reply", "ACK GA 01 02 03 99"),
        ("cause", "0 1 2 3 4 5"),
        ("told", "value word pair"),
        ("said", "value word pair"),
        ("notice", "none value word"),
    ] {
        let row = text.lines().find(|line| line.trim().starts_with(call));
        for answer in answers.split(' ') {
            if !row.is_some_and(|row| row.contains(&format!("  {answer}: "))) {
                println!("never met: {call} {answer}");
                missed += 1;
            }
        }
    }
    if missed > 0 {
        exit(1);
    }
}
