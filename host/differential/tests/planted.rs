//! Every planted mistake must be found.

use std::panic;
use std::process::exit;

use cores::{Calls, REFERENCE};
use differential::{run, settings, sweep};

/// A copy of the reference with one mistake.
struct Planted {
    name: &'static str,
    about: &'static str,
    calls: Calls,
}

// The wrong copies, and PLANTED, the list of them.
include!(concat!(env!("OUT_DIR"), "/planted.rs"));

fn main() {
    let settings = settings(2_000_000);
    println!(
        "{} planted mistakes; cases until each was found, random (seed {}) and systematic:",
        PLANTED.len(),
        settings.seed
    );
    // A copy that panics is found as well; its message is of no use here.
    panic::set_hook(Box::new(|_| {}));
    let mut missed = 0;
    for planted in PLANTED {
        let report = run(&REFERENCE, &planted.calls, settings);
        let cases = report.tally.cases;
        let swept = sweep(&REFERENCE, &planted.calls);
        let swept = match swept.found {
            Some(_) => swept.tally.cases.to_string(),
            None => "-".to_string(),
        };
        match report.found {
            Some(found) => {
                let how = found.difference.lines().next().unwrap_or("").to_string();
                println!(
                    "{cases:9} {swept:>9}  {:18} {} ({how})",
                    planted.name, planted.about
                );
            }
            None => {
                missed += 1;
                println!(
                    "NOT FOUND {swept:>9}  {:18} {}",
                    planted.name, planted.about
                );
            }
        }
    }
    if missed > 0 {
        println!("{missed} not found");
        exit(1);
    }
}
