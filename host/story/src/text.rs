//! The answer as text: before it the size of the list, then the answer, the
//! list, and what changed.

use std::fmt::Write;

use egrivundo::{Kind, Size};
use files::value::{turned, value_text};
use files::words::counted;
use files::Hindrance;

use crate::answer::{Answer, Changed, Row, Yes};
use crate::paint::Paint;

/// Writing to a String does not fail.
macro_rules! say {
    ($out:expr, $($what:tt)*) => { writeln!($out, $($what)*).unwrap() };
}

/// What the list takes, told before it is written.
pub fn size(size: Size, paint: Paint) -> String {
    let size = paint.title(&size.to_string());
    format!("This takes {size}.\n")
}

/// All the rest; `wish_name` is the file that has the wish.
pub fn tell(answer: &Answer, wish_name: &str, all: bool, paint: Paint) -> String {
    let mut out = String::new();
    let (word, sentence) = (answer.word(), answer.sentence());
    match answer {
        Answer::Yes(_) => say!(out, "{}: {sentence}", paint.yes(word)),
        Answer::No(_) => {
            say!(out, "{}: {sentence} {}", paint.no(word), answer.measure());
        }
    }
    match answer {
        Answer::Yes(yes) => {
            list(&mut out, yes, paint);
            changes(&mut out, yes, all, paint);
        }
        Answer::No(hindrances) => hindered(&mut out, hindrances, wish_name),
    }
    out
}

fn hindered(out: &mut String, hindrances: &[Hindrance], wish_name: &str) {
    say!(out, "");
    for hindrance in hindrances {
        say!(out, "{}", hindrance.told(wish_name));
    }
    say!(
        out,
        "\nThe core refuses with 7: no bytes at all could do it."
    );
}

fn list(out: &mut String, yes: &Yes, paint: Paint) {
    if yes.list.is_empty() {
        return;
    }
    let texts: Vec<_> = yes.list.texts().map(String::from_utf8_lossy).collect();
    let width = texts.iter().map(|text| text.len()).max().unwrap_or(0);
    say!(out, "\n{}", paint.title("The list, with the replies"));
    for (text, reply) in texts.iter().zip(&yes.replies) {
        let reply = paint.faint(&reply.to_string());
        say!(out, "  {text:width$}   {reply}");
    }
    say!(
        out,
        "  {}",
        paint.faint("(each line ends with a carriage return, 0D)")
    );
}

fn changes(out: &mut String, yes: &Yes, all: bool, paint: Paint) {
    if yes.modules.is_empty() {
        return;
    }
    let title = match all {
        true => "Every parameter (levels in dB)",
        false => "What changed (levels in dB)",
    };
    say!(out, "\n{}", paint.title(title));
    let labels = yes.modules.iter().map(|module| module.label.len());
    let width = labels.max().unwrap_or(0);
    for module in &yes.modules {
        let rest = module.rows.len() - module.moved().count();
        let label = format!("{:width$}", module.label);
        let folded = !all && rest == module.rows.len();
        if folded {
            let rest = counted(rest, "parameter");
            let note = format!("{label}  {}, {rest} as before", module.kind);
            say!(out, "  {}", paint.faint(&note));
            continue;
        }
        say!(out, "  {}  {}", paint.title(&label), module.kind);
        rows(out, module, all, paint);
        if !all && rest > 0 {
            let note = format!("{} as before", counted(rest, "other"));
            say!(out, "    {}", paint.faint(&note));
        }
    }
}

fn rows(out: &mut String, module: &Changed, all: bool, paint: Paint) {
    for row in module.rows.iter().filter(|row| all || row.moved()) {
        let index = row.index.to_string();
        let old = value_text(row.kind, row.old);
        if !row.moved() {
            say!(out, "    {}", paint.faint(&format!("{index:>5}  {old:>8}")));
            continue;
        }
        let new = value_text(row.kind, row.new);
        let moved = format!("{index:>5}  {old:>8} \u{2192} {new}");
        say!(out, "    {}{}", paint.moved(&moved), outputs(row));
    }
}

/// Which outputs of a word were turned.
fn outputs(row: &Row) -> String {
    match row.kind {
        Kind::Word => format!("   {}", turned(row.old, row.new)),
        _ => String::new(),
    }
}
