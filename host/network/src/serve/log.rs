//! The log: a line on standard output for each finished line, and for each
//! connection that comes or goes.

use std::fmt::{Arguments, Display, Write};
use std::io;

use egrivundo::{Reply, Room};

use super::line::{Line, Shown};
use super::named::Rows;
use super::outlet::Outlet;
use crate::clock;

/// What is told goes on its way by `flush`. A reader who takes none of it, or
/// is gone, loses lines; the service goes on.
pub struct Log {
    out: Outlet,
    /// The line that is being told.
    told: String,
    rows: Rows,
}

impl Log {
    pub fn of(room: &Room) -> Log {
        Log {
            out: Outlet::to(io::stdout()),
            told: String::new(),
            rows: Rows::of(room),
        }
    }

    /// One finished line: time, connection, label, line, reply, and where it
    /// names a value that value before and after, with tabs between. The reply
    /// tells the cause of a 99.
    pub fn line(&mut self, number: usize, line: &Line, reply: &Reply, before: &[i64], room: &Room) {
        let label = room.log(line.bytes());
        let named = match reply.nak() {
            None | Some("03") => self.rows.named(label, line.bytes()),
            Some(_) => None,
        };
        let [before, after] = match named {
            Some(named) => [before, room.values()].map(|values| named.text(values)),
            None => [String::new(), String::new()],
        };
        let label = Shown(label);
        self.tell(format_args!(
            "{number}\t{label}\t{line}\t{reply}\t{before}\t{after}"
        ));
    }

    /// What happened to a connection.
    pub fn connection(&mut self, number: usize, what: impl Display) {
        self.tell(format_args!("{number}\t{what}"));
    }

    /// What happened to none of the 32.
    pub fn server(&mut self, what: impl Display) {
        self.tell(format_args!("-\t{what}"));
    }

    fn tell(&mut self, what: Arguments) {
        self.told.clear();
        // Writing to a String does not fail.
        let _ = writeln!(self.told, "{}\t{what}", clock::now());
        self.out.put(&self.told);
    }

    pub fn flush(&self) {
        self.out.wake();
    }
}
