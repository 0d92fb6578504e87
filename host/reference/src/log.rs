//! The label that a line means, for a log.

use super::line::split_around;
use super::table::Table;

/// A part of the table or of the line.
#[derive(Default)]
pub struct Part {
    pub in_table: bool,
    pub start: usize,
    pub length: usize,
}

/// The part to show: the label in the table where one module alone bears the
/// text between the first quotes, else that text.
pub fn part(table: &[u8], line: &[u8]) -> Part {
    let Some(table) = Table::new(table) else {
        return Part::default();
    };
    let Some((before, rest)) = split_around(line, b'"') else {
        return Part::default();
    };
    let Some((text, _)) = split_around(rest, b'"') else {
        return Part::default();
    };
    match table.bearer(text) {
        Some(module) => Part {
            in_table: true,
            start: module.label_start,
            length: module.label().len(),
        },
        None => Part {
            in_table: false,
            start: before.len() + 1,
            length: text.len(),
        },
    }
}
