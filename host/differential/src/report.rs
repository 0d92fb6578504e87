//! How a comparison ended.

use std::fmt;

use crate::compare::Difference;
use crate::tally::Tally;

/// The first difference.
pub struct Found {
    pub scenario: u64,
    pub difference: Difference,
}

pub struct Report {
    pub tally: Tally,
    pub found: Option<Found>,
}

impl Report {
    /// A report with the difference of one scenario, if there was one.
    pub fn new(tally: Tally, scenario: u64, played: Played) -> Report {
        let difference = match played {
            Ok(Ok(())) => None,
            Ok(Err(difference)) => Some(difference),
            Err(_) => Some("a core panicked".to_string()),
        };
        let found = difference.map(|difference| Found {
            scenario,
            difference,
        });
        Report { tally, found }
    }
}

/// How a scenario ended: well, with a difference, or with a panic.
pub type Played = std::thread::Result<Result<(), Difference>>;

impl fmt::Display for Found {
    fn fmt(&self, out: &mut fmt::Formatter) -> fmt::Result {
        write!(out, "scenario {}: {}", self.scenario, self.difference)
    }
}
