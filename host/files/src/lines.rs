//! The form that both files share: one statement on a line.
//!
//! ```text
//! # a remark
//! module REST
//! INDEX = VALUE     # a remark
//! ```
//!
//! A byte-order mark before the first line means nothing, and a tab is as
//! good as a space.

use crate::types::{ROOM_GIVEN, WISH_GIVEN};

/// What is wrong, and on which line.
#[derive(Debug, PartialEq, Eq)]
pub struct Fault {
    pub line: usize,
    pub message: String,
}

impl Fault {
    pub fn new(line: usize, message: impl Into<String>) -> Fault {
        Fault {
            line,
            message: message.into(),
        }
    }

    /// Whether a room is given for a wish, or a wish for a room.
    pub fn is_exchanged(&self) -> bool {
        [WISH_GIVEN, ROOM_GIVEN].contains(&&self.message[..])
    }

    /// The fault as it is told: file, line, message.
    pub fn in_file(&self, name: &str) -> String {
        format!("{name}:{}: {}", self.line, self.message)
    }
}

/// A statement with its line number, from 1.
pub struct Statement<'a> {
    pub line: usize,
    pub content: Content<'a>,
}

pub enum Content<'a> {
    /// What follows the word `module`.
    Module(&'a str),
    /// Index and value.
    Value(&'a str, &'a str),
}

/// The statements of a file, without empty lines and remarks.
pub fn statements(text: &str) -> Result<Vec<Statement<'_>>, Fault> {
    let text = text.strip_prefix('\u{feff}').unwrap_or(text);
    let mut found = Vec::new();
    for (number, line) in text.lines().enumerate() {
        let number = number + 1;
        let line = without_remark(line).trim();
        if line.is_empty() {
            continue;
        }
        let (first, rest) = line.split_once(char::is_whitespace).unwrap_or((line, ""));
        let content = if first == "module" {
            Content::Module(rest.trim())
        } else if let Some((index, value)) = line.split_once('=') {
            Content::Value(index.trim(), value.trim())
        } else {
            let message = format!("neither `module ...` nor `INDEX = VALUE`: {line}");
            return Err(Fault::new(number, message));
        };
        found.push(Statement {
            line: number,
            content,
        });
    }
    Ok(found)
}

/// A line without its remark; a `#` between quotes begins none.
fn without_remark(line: &str) -> &str {
    let mut quoted = false;
    let end = line.find(|letter| {
        quoted ^= letter == '"';
        letter == '#' && !quoted
    });
    &line[..end.unwrap_or(line.len())]
}

/// The label between the quotes that begin and end a text.
pub fn quoted(text: &str, line: usize) -> Result<&str, Fault> {
    let inside = text
        .strip_prefix('"')
        .and_then(|rest| rest.strip_suffix('"'));
    let Some(label) = inside else {
        return Err(Fault::new(line, format!("no label in quotes: {text}")));
    };
    if label.is_empty() || label.len() > 32 {
        let message = format!("a label has 1 to 32 bytes, this one {}", label.len());
        return Err(Fault::new(line, message));
    }
    let bad = |letter: &char| !(' '..='~').contains(letter) || *letter == '"';
    if let Some(letter) = label.chars().find(bad) {
        let message = format!("a label cannot hold the character {letter:?}");
        return Err(Fault::new(line, message));
    }
    Ok(label)
}

#[cfg(test)]
mod tests {
    use super::*;

    #[test]
    fn remarks_and_blanks() {
        let found = statements("# one\n\n  module x\n 1>2 = 3 \n").ok().unwrap();
        let places: Vec<usize> = found.iter().map(|statement| statement.line).collect();
        assert_eq!(places, [3, 4]);
        assert!(matches!(found[1].content, Content::Value("1>2", "3")));
        assert_eq!(statements("\nnonsense").err().unwrap().line, 2);
    }

    #[test]
    fn marks_tabs_and_remarks_behind() {
        let text = "\u{feff}module\t1\t\"T #1\" # the first\n\t1\t=\t-4# before: -6.5\r\n";
        let found = statements(text).ok().unwrap();
        assert!(matches!(found[0].content, Content::Module("1\t\"T #1\"")));
        assert!(matches!(found[1].content, Content::Value("1", "-4")));
        assert_eq!(found.len(), 2);
        // A mark elsewhere is a letter as any other.
        assert!(statements("\n\u{feff}module 1\n").is_err());
    }

    #[test]
    fn labels() {
        assert_eq!(quoted("\"a = b\"", 1), Ok("a = b"));
        for wrong in [
            "",
            "a",
            "\"",
            "\"\"",
            "\"a\"b\"",
            "\"\u{e9}\"",
            "\"a",
            "\"\t\"",
        ] {
            assert!(quoted(wrong, 1).is_err(), "{wrong}");
        }
        let long = format!("\"{}\"", "x".repeat(33));
        assert!(quoted(&long, 1).is_err());
        assert!(quoted(&long.replacen('x', "", 1), 1).is_ok());
    }
}
