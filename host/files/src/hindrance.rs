//! What stands in the way of a wish.

use egrivundo::{Beyond, Room, Why};

use crate::value::value_text;
use crate::wish_file::Wish;
use crate::words::listed;

/// A wanted change that cannot be reached.
pub struct Hindrance {
    /// The parameter: `0>1 of Desk`.
    pub what: String,
    pub why: String,
    /// The line of the wish file that wants it.
    pub line: Option<usize>,
    pub present: String,
    pub wanted: String,
}

impl Hindrance {
    /// All of a wish, in the order of values.
    pub fn all(room: &Room, wish: &Wish) -> Vec<Hindrance> {
        let beyond = wish.core.beyond_reach();
        beyond
            .iter()
            .map(|one| hindrance(room, wish, one))
            .collect()
    }

    /// `NAME:LINE: 0>1 of Desk is 4.0, not 5.0: it is read-only`, where the
    /// file `name` has the wish.
    pub fn told(&self, name: &str) -> String {
        let place = match self.line {
            Some(line) => format!("{name}:{line}"),
            None => name.to_string(),
        };
        let Hindrance {
            what,
            why,
            present,
            wanted,
            ..
        } = self;
        format!("{place}: {what} is {present}, not {wanted}: {why}")
    }
}

fn hindrance(room: &Room, wish: &Wish, beyond: &Beyond) -> Hindrance {
    let modules: Vec<_> = room.modules().collect();
    let module = modules[beyond.module];
    let label = String::from_utf8_lossy(module.label);
    let row = module.kind.rows()[beyond.place - module.start];
    let why = match beyond.why {
        Why::ReadOnly => "it is read-only".to_string(),
        _ => {
            let bearers = (1..).zip(&modules).filter(|(_, m)| m.label == module.label);
            let numbers: Vec<String> = bearers.map(|(number, _)| number.to_string()).collect();
            let numbers = listed(&numbers);
            format!("modules {numbers} bear the same label, and lines reach none of them")
        }
    };
    Hindrance {
        what: format!("{} of {label}", beyond.index),
        why,
        line: wish.given.line(beyond.place),
        present: value_text(row.kind, room.values()[beyond.place]),
        wanted: value_text(row.kind, wish.core.wanted()[beyond.place]),
    }
}
