//! Parameters in the files: `INDEX = VALUE`.

use egrivundo::{bit, Index, Kind, Type};

use crate::lines::Fault;
use crate::value::{range, read_value};

/// What one statement sets: a row of a module, or one output of a word.
#[derive(Debug, PartialEq, Eq)]
pub struct Setting {
    /// The row's number.
    pub row: usize,
    pub output: Option<u16>,
    pub index: Index,
    pub value: i64,
}

impl Setting {
    /// The parameter's value with this setting.
    pub fn over(&self, before: i64) -> i64 {
        match self.output {
            None => self.value,
            Some(output) if self.value == 1 => before | bit(output),
            Some(output) => before & !bit(output),
        }
    }
}

/// Reads `INDEX = VALUE`; `4>(INPUT,OUTPUT)` is one output of an input's word.
pub fn read_setting(kind: Type, index: &str, value: &str, line: usize) -> Result<Setting, Fault> {
    let wrong = |takes: &str| Fault::new(line, format!("{index} takes {takes}, not: {value}"));
    let named = index.parse().ok();
    let found = named.and_then(|named| Some((named, kind.find(named)?)));
    let Some((named, (row, output))) = found else {
        let message = format!("a {kind} has no index {index} (it has {})", indices(kind));
        return Err(Fault::new(line, message));
    };
    let limits = kind.rows()[row];
    let value = match output {
        Some(_) => read_value(Kind::Switch, value).ok_or_else(|| wrong("on or off"))?,
        None => read_value(limits.kind, value)
            .filter(|&value| limits.permits(value))
            .ok_or_else(|| wrong(&range(&limits)))?,
    };
    Ok(Setting {
        row,
        output,
        index: named,
        value,
    })
}

/// The indices that a type has, in words.
fn indices(kind: Type) -> String {
    if let Type::StandardMixer {
        inputs: m,
        outputs: n,
    } = kind
    {
        let channels = format!("1>1 to 1>{}, 2>1 to 2>{}", 2 * m, 2 * n);
        return format!("{channels}, 3>1 to 3>{m}, 4>(1,1) to 4>({m},{n})");
    }
    let indices: Vec<String> = kind
        .rows()
        .iter()
        .map(|row| row.index.to_string())
        .collect();
    indices.join(", ")
}

#[cfg(test)]
mod tests {
    use super::*;
    use crate::value::value_text;

    const DESK: Type = Type::StandardMixer {
        inputs: 2,
        outputs: 10,
    };

    fn read(kind: Type, index: &str, value: &str) -> Option<i64> {
        let setting = read_setting(kind, index, value, 1).ok()?;
        Some(setting.over(0))
    }

    #[test]
    fn values() {
        let tone = Type::ToneControlEq;
        assert_eq!(read(tone, "1", "-4"), Some(-40));
        assert_eq!(read(tone, ">1", "-0.5"), Some(-5));
        assert_eq!(read(tone, "1", "15.0"), Some(150));
        for wrong in [
            "15.1",
            "",
            "-",
            ".5",
            "3.",
            "3.00",
            "+3",
            "on",
            "1e3",
            "99999999999999999999",
        ] {
            assert_eq!(read(tone, "1", wrong), None, "{wrong}");
        }
        for (text, value) in [("on", 1), ("O", 1), ("off", 0), ("F", 0)] {
            assert_eq!(read(tone, "2", text), Some(value), "{text}");
        }
        for wrong in ["1", "0", "o", "f", "T", "On"] {
            assert_eq!(read(tone, "2", wrong), None, "{wrong}");
        }
        assert_eq!(read(tone, "1>1", "1"), None);
        assert_eq!(read(tone, ">>1", "1"), None);
        assert_eq!(read(Type::RoomCombiner, "1>2", "-3.2"), None);
        assert_eq!(read(Type::RoomCombiner, "1>1", "9"), Some(9));
        assert_eq!(read(Type::FeedbackSuppression, "1>1", "43201"), None);
        assert_eq!(read(Type::FeedbackSuppression, "1>1", ""), None);
    }

    #[test]
    fn every_row_reads_what_is_shown() {
        for kind in Type::FIXED.into_iter().chain([DESK]) {
            for (place, row) in kind.rows().iter().enumerate() {
                for value in [row.low, row.high, kind.start()[place]] {
                    let index = row.index.to_string();
                    let text = value_text(row.kind, value);
                    let setting = read_setting(kind, &index, &text, 1).unwrap();
                    assert_eq!((setting.row, setting.output), (place, None));
                    assert_eq!(setting.over(row.low), value);
                }
            }
        }
    }

    #[test]
    fn words_and_outputs() {
        assert_eq!(read(DESK, "3>2", "80400000"), Some(0x8040_0000));
        assert_eq!(read(DESK, "3>2", "80200000"), None);
        assert_eq!(read(DESK, ">4>(2,10)", "O"), Some(0x0040_0000));
        let off = read_setting(DESK, "4>(1,2)", "off", 1).unwrap();
        assert_eq!((off.row, off.output), (24, Some(2)));
        assert_eq!(off.over(0xC000_0000), 0x8000_0000);
        for (index, value) in [
            ("4>(0,1)", "on"),
            ("4>(3,1)", "on"),
            ("4>(1,11)", "on"),
            ("4>(1,0)", "on"),
            ("4>(1,1)", "T"),
            ("4>(1,1)", "80000000"),
            ("3>(1,1)", "on"),
            ("4>1", "on"),
            ("3>3", "80000000"),
        ] {
            assert_eq!(read(DESK, index, value), None, "{index}");
        }
        assert_eq!(read(Type::ConferenceRouter, "4>(1,1)", "on"), None);
    }
}
