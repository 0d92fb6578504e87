//! Time of each call on the archive and on the reference.
//!
//!     bench                      every case, a table of nanoseconds
//!     bench list                 the names of the cases
//!     bench one CASE CORE COUNT  one case, so many calls; CORE is archive
//!                                or reference (see instructions.sh)

mod cases;
mod rooms;

use std::env;
use std::process::ExitCode;
use std::time::Instant;

use cases::Case;
use cores::{Calls, ARCHIVE, REFERENCE};

/// Rounds of each case; the quickest counts.
const ROUNDS: usize = 15;
/// Seconds of one round.
const ROUND: f64 = 0.004;

fn main() -> ExitCode {
    let arguments: Vec<String> = env::args().skip(1).collect();
    let arguments: Vec<&str> = arguments.iter().map(String::as_str).collect();
    match arguments[..] {
        [] => table(),
        ["list"] => {
            for case in cases::all() {
                println!("{}", case.name);
            }
        }
        ["one", name, core, count] => {
            let case = cases::all().into_iter().find(|case| case.name == name);
            let calls = match core {
                "archive" => Some(&ARCHIVE),
                "reference" => Some(&REFERENCE),
                _ => None,
            };
            let (Some(mut case), Some(calls), Ok(count)) = (case, calls, count.parse()) else {
                eprintln!("bench one CASE archive|reference COUNT; bench list tells the cases");
                return ExitCode::from(2);
            };
            case.check(calls);
            measured_calls(&mut case, calls, count);
        }
        _ => {
            eprintln!("bench, bench list, or bench one CASE archive|reference COUNT");
            return ExitCode::from(2);
        }
    }
    ExitCode::SUCCESS
}

/// The part that is timed; a tool finds it by its name.
#[inline(never)]
fn measured_calls(case: &mut Case, calls: &Calls, count: u64) {
    for _ in 0..count {
        case.call(calls);
    }
}

fn seconds(case: &mut Case, calls: &Calls, count: u64) -> f64 {
    let began = Instant::now();
    measured_calls(case, calls, count);
    began.elapsed().as_secs_f64()
}

fn table() {
    println!("nanoseconds a call, the quickest of {ROUNDS} rounds");
    println!(
        "{:28} {:>12} {:>12} {:>8}",
        "case", "archive", "reference", "ratio"
    );
    for mut case in cases::all() {
        case.check(&ARCHIVE);
        case.check(&REFERENCE);
        let mut count = 1;
        while seconds(&mut case, &REFERENCE, count) < ROUND && count < 1 << 30 {
            count *= 2;
        }
        let mut best = [f64::MAX; 2];
        for _ in 0..ROUNDS {
            for (best, calls) in best.iter_mut().zip([&ARCHIVE, &REFERENCE]) {
                *best = best.min(seconds(&mut case, calls, count));
            }
        }
        let [archive, reference] = best.map(|seconds| seconds * 1e9 / count as f64);
        println!(
            "{:28} {archive:12.1} {reference:12.1} {:8.2}",
            case.name,
            archive / reference
        );
    }
}
