//! Counts of what the cases met, to show that they reach every answer.

use std::fmt;

#[derive(Default)]
pub struct Tally {
    pub scenarios: u64,
    pub cases: u64,
    pub played: u64,
    pub asked: u64,
    rows: Vec<(&'static str, String, u64)>,
}

impl Tally {
    pub fn count(&mut self, call: &'static str, answer: &str) {
        self.cases += 1;
        self.note(call, answer);
    }

    pub fn note(&mut self, call: &'static str, what: &str) {
        let row = self
            .rows
            .iter_mut()
            .find(|row| row.0 == call && row.1 == what);
        match row {
            Some(row) => row.2 += 1,
            None => self.rows.push((call, what.to_string(), 1)),
        }
    }
}

impl fmt::Display for Tally {
    fn fmt(&self, out: &mut fmt::Formatter) -> fmt::Result {
        let mut rows: Vec<_> = self.rows.iter().collect();
        rows.sort();
        let mut call = "";
        for row in rows {
            if row.0 != call {
                call = row.0;
                write!(out, "\n  {call:8}")?;
            }
            write!(out, "  {}: {}", row.1, row.2)?;
        }
        write!(out, "\n  lists played to their end: {}", self.played)?;
        write!(out, "\n  notices asked for by a line: {}", self.asked)
    }
}
