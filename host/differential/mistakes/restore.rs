//! The restore list: both calls, and what the writing call puts down.

use super::Mistake;

pub const MISTAKES: &[Mistake] = &[
    (
        "selection_2",
        "a selection byte of 2 is taken",
        "restore.rs",
        "|&byte| byte > 1",
        "|&byte| byte > 2",
    ),
    (
        "unchosen_judged",
        "the wanted values of all modules are judged",
        "restore.rs",
        "if !wish.chosen().all(|module|",
        "if !wish.table.modules().all(|module|",
    ),
    (
        "read_only_skipped",
        "a change of a read-only row is no 7",
        "restore.rs",
        "read_only || ",
        "",
    ),
    (
        "shared_written",
        "a change of a shared label is no 7",
        "restore.rs",
        "(any && self.table.bearer(module.label()).is_none())",
        "(any && module.label().is_empty())",
    ),
    (
        "shared_unchanged",
        "a shared label without a change is 7",
        "restore.rs",
        "(any && self.table",
        "(self.table",
    ),
    (
        "room_equal",
        "a buffer of just the length is too short",
        "restore.rs",
        "if bytes > list.len() {",
        "if bytes >= list.len() && bytes > 0 {",
    ),
    (
        "long_level",
        "a list has levels with .0",
        "control.rs",
        "    sink.put(b\"\\r\");",
        "    if verb == b\"SA\" && self.row.kind == Kind::Level && value % 10 == 0 {\n        sink.put(b\".0\");\n    }\n    sink.put(b\"\\r\");",
    ),
    (
        "count_lines",
        "lines told are one too few from ten on",
        "restore.rs",
        "Ok([writer.length, lines])",
        "Ok([writer.length, if lines > 9 { lines - 1 } else { lines }])",
    ),
    (
        "list_toggle",
        "a list turns switches over with T",
        "restore.rs",
        "control.write_line(sink, b\"SA\", label, change.wanted);",
        "if change.row.kind == super::catalogue::Kind::Switch {\n                    let (index1, index2) = change.row.index;\n                    let index2 = index2.map_or(String::new(), |index2| format!(\">{index2}\"));\n                    sink.put(b\"SA\\\"\");\n                    sink.put(label);\n                    sink.put(format!(\"\\\">{index1}{index2}=T\\r\").as_bytes());\n                } else {\n                    control.write_line(sink, b\"SA\", label, change.wanted);\n                }",
    ),
    (
        "part_written",
        "a list that does not fit is begun",
        "restore.rs",
        "if bytes > list.len() {",
        "if bytes > list.len() {\n        list.iter_mut().zip(b\"SA\").for_each(|(to, from)| *to = *from);",
    ),
    (
        "reach_late",
        "8 comes before 7",
        "restore.rs",
        "    let wish = Wish::new(table, present, selection, wanted)?;\n    let [bytes, _] = wish.measure();",
        "    let wish = match Wish::new(table, present, selection, wanted) {\n        Err(7) => {\n            let wish = Wish { table: Table::new(table).ok_or(1u8)?, present, selection, wanted };\n            return Err(if wish.measure()[0] > list.len() { 8 } else { 7 });\n        }\n        wish => wish?,\n    };\n    let [bytes, _] = wish.measure();",
    ),
];
