//! What to run, by variables.

use std::env;

/// What to run.
#[derive(Clone, Copy)]
pub struct Settings {
    pub seed: u64,
    /// The first scenario.
    pub first: u64,
    /// Stop after the scenario that reaches so many cases.
    pub cases: u64,
    /// Tell each scenario before it is played, for a core that crashes.
    pub trace: bool,
}

/// The settings, changed by EGRIVUNDO_SEED, _FIRST, _CASES and _TRACE.
pub fn settings(cases: u64) -> Settings {
    let number = |name: &str, standard: u64| match env::var(name) {
        Err(_) => standard,
        Ok(text) => text
            .parse()
            .unwrap_or_else(|_| panic!("{name} is no whole number: {text}")),
    };
    Settings {
        seed: number("EGRIVUNDO_SEED", 20_261_115),
        first: number("EGRIVUNDO_FIRST", 0),
        cases: number("EGRIVUNDO_CASES", cases),
        trace: env::var_os("EGRIVUNDO_TRACE").is_some(),
    }
}
