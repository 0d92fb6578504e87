//! A parameter on the page.

use std::fmt::Write;

use egrivundo::{bit, Kind};
use files::value::{outputs, turned, value_text};

use super::escaped;
use crate::answer::Row;

/// A parameter that moved: from, to, and a small picture of it.
pub fn moved(out: &mut String, row: &Row) {
    let index = escaped(&row.index.to_string());
    let [old, new] = [row.old, row.new].map(|value| value_text(row.kind, value));
    let picture = match row.kind {
        Kind::Level => level(row),
        Kind::Word => word(row),
        _ => String::new(),
    };
    writeln!(
        out,
        "<div class=\"row\"><span class=\"index\">{index}</span> <span class=\"change\"><s>{old}</s> \
         <i>\u{2192}</i> <b>{new}</b></span>{picture}</div>"
    )
    .unwrap();
}

/// A parameter as it was.
pub fn stayed(out: &mut String, row: &Row) {
    let index = escaped(&row.index.to_string());
    let value = value_text(row.kind, row.new);
    let note = match row.kind {
        Kind::Word => format!(" <small>{}</small>", outputs(row.new)),
        _ => String::new(),
    };
    writeln!(out, "<div><dt>{index}</dt><dd>{value}{note}</dd></div>").unwrap();
}

/// Old and new place between the row's low and high.
fn level(row: &Row) -> String {
    let percent = |value: i64| (value - row.low) * 100 / (row.high - row.low);
    let (old, new) = (percent(row.old), percent(row.new));
    let (left, width) = (old.min(new), (old - new).abs());
    format!(
        "<span class=\"track\" aria-hidden=\"true\"><span style=\"left:{left}%;width:{width}%\"></span>\
         <u style=\"left:{old}%\"></u><u class=\"new\" style=\"left:{new}%\"></u></span>"
    )
}

/// The outputs of a word, with those that were turned.
fn word(row: &Row) -> String {
    let has = |word: i64, output: u16| word & bit(output) != 0;
    let mut cells = String::new();
    for output in (1..=32).filter(|&output| has(row.high, output)) {
        let on = if has(row.new, output) { "on" } else { "off" };
        let turned = has(row.old, output) != has(row.new, output);
        let class = if turned { " turned" } else { "" };
        write!(cells, "<span class=\"{on}{class}\">{output}</span>").unwrap();
    }
    let words = turned(row.old, row.new);
    format!("<span class=\"outputs\" aria-hidden=\"true\">{cells}</span><small>{words}</small>")
}
