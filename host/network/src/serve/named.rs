//! Which value a line names, for the log.

use egrivundo::{bit, Index, Kind, Room, Row};
use files::value::value_text;

/// The rows of a room's modules.
pub struct Rows(Vec<Module>);

struct Module {
    label: Vec<u8>,
    start: usize,
    rows: Vec<Row>,
}

/// A value: its place, what it means, and the output where one of a word is
/// named.
pub struct Named {
    place: usize,
    kind: Kind,
    output: Option<u16>,
}

impl Rows {
    pub fn of(room: &Room) -> Rows {
        let modules = room.modules().map(|module| Module {
            label: module.label.to_vec(),
            start: module.start,
            rows: module.kind.rows(),
        });
        Rows(modules.collect())
    }

    /// The value that a line names whose label and index the core took.
    pub fn named(&self, label: &[u8], line: &[u8]) -> Option<Named> {
        let module = self.0.iter().find(|module| module.label == label)?;
        let behind = line.splitn(3, |&byte| byte == b'"').nth(2)?;
        let index = behind.split(|&byte| byte == b'=').next()?;
        let index: Index = std::str::from_utf8(index).ok()?.parse().ok()?;
        let (sought, output) = match index {
            Index::Crosspoint { input, output } => (Index::Two(3, input), Some(output)),
            whole => (whole, None),
        };
        let row = module.rows.iter().position(|row| row.index == sought)?;
        Some(Named {
            place: module.start + row,
            kind: module.rows[row].kind,
            output,
        })
    }
}

impl Named {
    /// The value among a room's values, in words.
    pub fn text(&self, values: &[i64]) -> String {
        let value = values[self.place];
        match self.output {
            Some(output) => value_text(Kind::Switch, i64::from(value & bit(output) != 0)),
            None => value_text(self.kind, value),
        }
    }
}

#[cfg(test)]
mod tests {
    use super::*;
    use egrivundo::Type;

    #[test]
    fn values_that_lines_name() {
        let desk = Type::StandardMixer {
            inputs: 2,
            outputs: 3,
        };
        let modules = [
            (Type::ToneControlEq, "T"),
            (desk, "a = b"),
            (Type::SmartBass, "S"),
        ];
        let mut room = Room::new(&modules).unwrap();
        for line in ["SA\"T\">1=-4", "SA\"a = b\">4>(2,3)=O", "SA\"S\">1=O"] {
            assert!(room.line(line.as_bytes()).unwrap().is_ack(), "{line}");
        }
        let rows = Rows::of(&room);
        for (line, text) in [
            ("GA\"T\">1", Some("-4.0")),
            ("SA \"T\">001=x", Some("-4.0")),
            ("GA\"T\">2", Some("off")),
            ("GA\"a = b\">4>(2,3)", Some("on")),
            ("GA\"a = b\">4>(2,1)", Some("off")),
            ("GA\"a = b\">3>2", Some("20000000")),
            ("SA\"S\">1=T", Some("on")),
            ("GA\"T\">7", None),
            ("GA\"T", None),
            ("", None),
        ] {
            let named = rows.named(room.log(line.as_bytes()), line.as_bytes());
            let told = named.map(|named| named.text(room.values()));
            assert_eq!(told.as_deref(), text, "{line}");
        }
    }
}
