//! The answer as one page: no script, and no file but this one.

use std::fmt::Write;

use files::words::counted;
use files::Hindrance;

use crate::answer::{Answer, Changed, Yes};

mod row;

const QUESTION: &str =
    "Can I put back just what I chose, and be sure nothing else in the room moved?";

const STYLE: &str = include_str!("page.css");

/// Writing to a String does not fail.
macro_rules! put {
    ($out:expr, $($what:tt)*) => { writeln!($out, $($what)*).unwrap() };
}

/// The page; with `all` every row is shown, else what stayed is folded.
pub fn page(answer: &Answer, all: bool) -> String {
    let mut out = String::new();
    let (word, sentence) = (answer.word(), answer.sentence());
    let title = escaped(&format!("{word}: {sentence}"));
    put!(out, "<!DOCTYPE html>\n<html lang=\"en\">\n<head>");
    put!(out, "<meta charset=\"utf-8\">");
    put!(
        out,
        "<meta name=\"viewport\" content=\"width=device-width, initial-scale=1\">"
    );
    put!(out, "<meta name=\"color-scheme\" content=\"light dark\">");
    put!(
        out,
        "<title>{title}</title>\n<style>\n{STYLE}</style>\n</head>\n<body>\n<main>"
    );
    let class = word.to_lowercase();
    put!(out, "<header class=\"{class}\">");
    put!(out, "<p class=\"question\">{QUESTION}</p>");
    put!(out, "<h1><b>{word}:</b> {}</h1>", escaped(&sentence));
    put!(out, "<p>{}</p>\n</header>", escaped(&answer.measure()));
    match answer {
        Answer::Yes(yes) => {
            list(&mut out, yes);
            cards(&mut out, yes, all);
        }
        Answer::No(hindrances) => hindered(&mut out, hindrances),
    }
    put!(out, "</main>\n</body>\n</html>");
    out
}

fn list(out: &mut String, yes: &Yes) {
    if yes.list.is_empty() {
        return;
    }
    put!(out, "<section>\n<h2>The list <small>and the reply to each line</small></h2>\n<ol class=\"list\">");
    for (text, reply) in yes.list.texts().zip(&yes.replies) {
        let line = escaped(&String::from_utf8_lossy(text));
        let reply = escaped(&reply.to_string());
        put!(
            out,
            "<li><code>{line}</code> <span class=\"reply\">{reply}</span></li>"
        );
    }
    put!(
        out,
        "</ol>\n<p class=\"note\">Each line ends with a carriage return (0D).</p>\n</section>"
    );
}

/// The modules: first those that moved.
fn cards(out: &mut String, yes: &Yes, all: bool) {
    put!(
        out,
        "<section>\n<h2>The room <small>levels in dB</small></h2>\n<div class=\"cards\">"
    );
    let (moved, stayed): (Vec<_>, Vec<_>) = yes
        .modules
        .iter()
        .partition(|module| module.moved().next().is_some());
    for module in moved.into_iter().chain(stayed) {
        card(out, module, all);
    }
    put!(out, "</div>\n</section>");
}

fn card(out: &mut String, module: &Changed, all: bool) {
    let moved = module.moved().count();
    let stayed = module.rows.len() - moved;
    let class = if moved > 0 { "card moved" } else { "card" };
    put!(
        out,
        "<article class=\"{class}\">\n<h3>{}</h3>",
        escaped(&module.label)
    );
    put!(out, "<p class=\"type\">{}</p>", module.kind);
    for row in module.moved() {
        row::moved(out, row);
    }
    if stayed > 0 {
        let word = if moved > 0 { "other" } else { "parameter" };
        let open = if all { " open" } else { "" };
        let summary = counted(stayed, word);
        put!(
            out,
            "<details{open}>\n<summary>{summary} as before</summary>\n<dl>"
        );
        for row in module.rows.iter().filter(|row| !row.moved()) {
            row::stayed(out, row);
        }
        put!(out, "</dl>\n</details>");
    }
    put!(out, "</article>");
}

fn hindered(out: &mut String, hindrances: &[Hindrance]) {
    put!(
        out,
        "<section>\n<h2>What cannot be reached</h2>\n<div class=\"cards\">"
    );
    for hindrance in hindrances {
        let [what, why, present, wanted] = [
            &hindrance.what,
            &hindrance.why,
            &hindrance.present,
            &hindrance.wanted,
        ]
        .map(|text| escaped(text));
        put!(out, "<article class=\"card barred\">\n<h3>{what}</h3>");
        put!(
            out,
            "<p>It is {present}, and {wanted} is wanted; but {why}.</p>\n</article>"
        );
    }
    put!(out, "</div>\n<p class=\"note\">The core refuses with 7: no bytes at all could do it.</p>\n</section>");
}

fn escaped(text: &str) -> String {
    text.chars()
        .map(|letter| match letter {
            '&' => "&amp;".to_string(),
            '<' => "&lt;".to_string(),
            '>' => "&gt;".to_string(),
            '"' => "&quot;".to_string(),
            other => other.to_string(),
        })
        .collect()
}
