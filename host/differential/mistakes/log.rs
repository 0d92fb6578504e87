//! The log.

use super::Mistake;

pub const MISTAKES: &[Mistake] = &[
    (
        "log_64",
        "the log looks at 64 bytes only",
        "log.rs",
        "split_around(line, b'\"') else",
        "split_around(&line[..line.len().min(64)], b'\"') else",
    ),
    (
        "log_unsound",
        "the log reads a line over an unsound table",
        "log.rs",
        "return Part::default();\n    };\n    let Some((before",
        "return Part { in_table: false, start: 0, length: line.len().min(1) };\n    };\n    let Some((before",
    ),
    (
        "log_untold",
        "the log leaves its numbers where the part is empty",
        "lib.rs",
        "    *told = [part.in_table",
        "    if part.length == 0 {\n        return;\n    }\n    *told = [part.in_table",
    ),
    (
        "log_place",
        "the log's label starts at its record",
        "log.rs",
        "start: module.label_start",
        "start: module.label_start - 1",
    ),
    (
        "log_one_quote",
        "the log shows what follows a single quote",
        "log.rs",
        "split_around(rest, b'\"') else {",
        "split_around(rest, b'\"').or(Some((rest, rest))) else {",
    ),
];
