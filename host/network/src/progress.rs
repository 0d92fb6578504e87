//! How far the reading is, on standard error.

use std::io::{self, IsTerminal, Write};

use files::words::counted;

use crate::client::{read_all, Address, Link, Live, Parameter};
use crate::words::warn;

/// Reads every parameter, and shows how far it is; `again` is for the second
/// time. A terminal gets a counter, anything else one line.
pub fn read(link: &mut Link, parameters: &[Parameter], from: &Address, again: bool) -> Live {
    let again = if again { " again" } else { "" };
    let all = counted(parameters.len(), "parameter");
    warn(format_args!("Reading {all}{again} from {from}"));
    if !io::stderr().is_terminal() {
        return read_all(link, parameters, |_| {});
    }
    let mut counter = Counter::new(io::stderr(), parameters.len());
    read_all(link, parameters, |done| counter.step(done))
}

/// A counter that is written over itself. What comes after it stands on a line
/// of its own, also where the reading was broken off.
struct Counter<W: Write> {
    out: W,
    all: usize,
    /// The line is not ended.
    open: bool,
}

impl<W: Write> Counter<W> {
    fn new(out: W, all: usize) -> Counter<W> {
        let open = false;
        Counter { out, all, open }
    }

    fn step(&mut self, done: usize) {
        self.open = true;
        let _ = write!(self.out, "\r{done} of {}", self.all);
    }
}

impl<W: Write> Drop for Counter<W> {
    fn drop(&mut self) {
        if self.open {
            let _ = writeln!(self.out);
        }
    }
}

#[cfg(test)]
mod tests {
    use super::*;

    #[test]
    fn the_line_is_ended() {
        for (steps, text) in [
            (0, ""),
            (2, "\r1 of 3\r2 of 3\n"),
            (3, "\r1 of 3\r2 of 3\r3 of 3\n"),
        ] {
            let mut out = Vec::new();
            let mut counter = Counter::new(&mut out, 3);
            (1..=steps).for_each(|done| counter.step(done));
            drop(counter);
            assert_eq!(String::from_utf8(out).unwrap(), text);
        }
    }
}
