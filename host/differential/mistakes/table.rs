//! Tables, labels and the length of the value list.

use super::Mistake;

pub const MISTAKES: &[Mistake] = &[
    (
        "records_65",
        "65 records are sound",
        "table.rs",
        "const MOST_MODULES: usize = 64;",
        "const MOST_MODULES: usize = 65;",
    ),
    (
        "cut_body",
        "a cut last record is passed over",
        "table.rs",
        "let (first, others) = split_record(rest)?;",
        "let Some((first, others)) = split_record(rest) else {\n                break;\n            };",
    ),
    (
        "kind_0",
        "kind 0 is sound",
        "table.rs",
        "1..=6 => Some(FIELD)",
        "0..=6 => Some(FIELD)",
    ),
    (
        "kind_8",
        "kind 8 is sound",
        "table.rs",
        "1..=6 => Some(FIELD)",
        "1..=6 | 8 => Some(FIELD)",
    ),
    (
        "quote_in_label",
        "a label may hold a quote",
        "table.rs",
        " && byte != QUOTE",
        "",
    ),
    (
        "byte_7f",
        "a label may hold 0x7F",
        "table.rs",
        "(0x20..=0x7E)",
        "(0x20..=0x7F)",
    ),
    (
        "empty_label",
        "a label may be empty",
        "table.rs",
        "    !label.is_empty()\n        && label",
        "    label",
    ),
    (
        "after_zero",
        "bytes after the label's zero are not looked at",
        "table.rs",
        "zeros.iter().all(|&byte| byte == 0)",
        "zeros.len() < 33",
    ),
    (
        "first_bearer",
        "the first module of a shared label is taken",
        "table.rs",
        "(Some(module), None) => Some(module)",
        "(Some(module), _) => Some(module)",
    ),
    (
        "padded_label",
        "labels are compared with their zeros",
        "table.rs",
        "None | Some(0) => false",
        "None => false",
    ),
    (
        "label_begins",
        "the beginning of a label is taken for it",
        "table.rs",
        " && field.get(label.len()).is_none_or(|&byte| byte == 0)",
        "",
    ),
    (
        "values_longer",
        "values after the last are not looked at",
        "table.rs",
        "rest.is_some_and(|rest| rest.is_empty())",
        "rest.is_some_and(|rest| rest.len() < 99)",
    ),
];
