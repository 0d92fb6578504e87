//! What a box says, line by line.
//!
//! Boxes differ in what the paper leaves open. Taken are a NAK with or without
//! a space before its code, or with words for a code, a space behind `GA`, a `>`
//! or spaces before `=`, spaces at the end, and a line feed before a line.

use egrivundo::{Index, Kind};
use files::value::read_value;

/// One line of a box, without its end.
#[derive(Debug, PartialEq, Eq)]
pub enum Said {
    Ack,
    /// With its code, or what stands there; control characters are spelled out.
    Nak(String),
    /// `GA"LABEL">INDEX=TEXT`: the answer to a get line, or news of a knob.
    Value {
        label: String,
        index: Index,
        text: String,
    },
    /// Anything else.
    Other(String),
}

impl Said {
    pub fn read(line: &[u8]) -> Said {
        let text: String = line.iter().map(|&byte| char::from(byte)).collect();
        let text = text.trim_start_matches('\n').trim_end();
        if text == "\x06" {
            return Said::Ack;
        }
        if let Some(code) = text.strip_prefix('\x15') {
            return Said::Nak(code.trim_start().escape_default().to_string());
        }
        value(text).unwrap_or_else(|| Said::Other(text.to_string()))
    }
}

fn value(text: &str) -> Option<Said> {
    let rest = text.strip_prefix("GA")?.trim_start().strip_prefix('"')?;
    let (label, rest) = rest.split_once('"')?;
    let (index, value) = rest.split_once('=')?;
    let index = index.trim_end();
    Some(Said::Value {
        label: label.to_string(),
        index: index.strip_suffix('>').unwrap_or(index).parse().ok()?,
        text: value.trim_start().to_string(),
    })
}

/// The parameter that a get line asks for, where it has the form of one.
pub fn asked(line: &str) -> Option<(String, Index)> {
    match value(&format!("{line}="))? {
        Said::Value { label, index, text } if text.is_empty() => Some((label, index)),
        _ => None,
    }
}

/// The value that a box's text means: `-3` and `-3.0` are the same level, and
/// the hex digits of a word may be small.
pub fn number(kind: Kind, text: &str) -> Option<i64> {
    match kind {
        Kind::Word => read_value(kind, &text.to_ascii_uppercase()),
        Kind::Switch if text != "O" && text != "F" => None,
        _ => read_value(kind, text),
    }
}

/// A NAK in words: `NAK 03: the value is not permitted`.
pub fn nak(code: &str) -> String {
    match code {
        "" => "NAK without a code".to_string(),
        code => format!("NAK {code}: {}", meaning(code)),
    }
}

fn meaning(code: &str) -> &'static str {
    match code {
        "01" => "no module bears this label, or more than one does",
        "02" => "the module has no such index",
        "03" => "the value is not permitted",
        "99" => "the line is not understood",
        _ => "the protocol does not name this code",
    }
}

#[cfg(test)]
mod tests {
    use super::*;

    #[test]
    fn lines() {
        for line in [&b"\x06"[..], b"\n\x06", b"\x06 "] {
            assert_eq!(Said::read(line), Said::Ack);
        }
        for line in [&b"\x1503"[..], b"\x15 03", b"\n\x15 03 "] {
            assert_eq!(Said::read(line), Said::Nak("03".to_string()));
        }
        for (line, code) in [
            (&b"\x15 busy"[..], "busy"),
            (b"\x15", ""),
            (b"\x15\x1b[2J", "\\u{1b}[2J"),
        ] {
            assert_eq!(Said::read(line), Said::Nak(code.to_string()));
        }
        for line in [
            &b"GA\"Hall EQ\">1>2=-3.0"[..],
            b"GA \"Hall EQ\">1>2=-3.0",
            b"GA \"Hall EQ\">1>2>=-3.0 ",
            b"\nGA\"Hall EQ\">01>2 = -3.0",
        ] {
            let value = Said::Value {
                label: "Hall EQ".to_string(),
                index: Index::Two(1, 2),
                text: "-3.0".to_string(),
            };
            assert_eq!(Said::read(line), value);
        }
        for line in ["", "ACK", "GA", "GA\"T\">x=1", "GA\"T\">1", "\x06\x06"] {
            let said = Said::read(line.as_bytes());
            assert_eq!(said, Said::Other(line.to_string()), "{line}");
        }
    }

    #[test]
    fn naks() {
        for (code, words) in [
            ("03", "NAK 03: the value is not permitted"),
            ("07", "NAK 07: the protocol does not name this code"),
            ("", "NAK without a code"),
        ] {
            assert_eq!(nak(code), words);
        }
    }

    #[test]
    fn get_lines() {
        let parameter = Some(("Hall EQ".to_string(), Index::Two(1, 2)));
        for line in ["GA\"Hall EQ\">1>2", "GA \"Hall EQ\">1>2"] {
            assert_eq!(asked(line), parameter);
        }
        for line in ["GA\"T\">x", "GA\"T\"", "GA", "SA\"T\">1=1", "GA\"T\">1=2"] {
            assert_eq!(asked(line), None, "{line}");
        }
    }

    #[test]
    fn numbers() {
        for (kind, text, value) in [
            (Kind::Level, "-3", Some(-30)),
            (Kind::Level, "-3.0", Some(-30)),
            (Kind::Level, "-0.5", Some(-5)),
            (Kind::Level, "-3.05", None),
            (Kind::Level, "O", None),
            (Kind::Switch, "O", Some(1)),
            (Kind::Switch, "F", Some(0)),
            (Kind::Switch, "on", None),
            (Kind::Number, "300", Some(300)),
            (Kind::Word, "C000000f", Some(0xC000_000F)),
            (Kind::Word, "C", None),
        ] {
            assert_eq!(number(kind, text), value, "{text}");
        }
    }
}
