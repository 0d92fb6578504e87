//! The writing call alone.

use super::Mistake;

pub const MISTAKES: &[Mistake] = &[
    (
        "write_shorter",
        "a buffer that lacks the last 0D is taken",
        "restore.rs",
        "    if bytes > list.len() {\n",
        "    if bytes == list.len() + 1 {\n        let mut whole = vec![0; bytes];\n        let mut writer = Writer { buffer: &mut whole, length: 0 };\n        let lines = wish.put(&mut writer);\n        list.copy_from_slice(&whole[..bytes - 1]);\n        return Ok([bytes - 1, lines]);\n    }\n    if bytes > list.len() {\n",
    ),
    (
        "write_no_buffer",
        "an empty buffer is too short for an empty list",
        "restore.rs",
        "    if bytes > list.len() {\n",
        "    if bytes > list.len() || list.is_empty() {\n",
    ),
    (
        "write_room_told",
        "the writing call tells the buffer's length for bytes",
        "restore.rs",
        "Ok([writer.length, lines])",
        "Ok([writer.buffer.len(), lines])",
    ),
    (
        "write_swapped",
        "the writing call exchanges bytes and lines",
        "restore.rs",
        "Ok([writer.length, lines])",
        "Ok([lines, writer.length])",
    ),
    (
        "write_counts_8",
        "the writing call tells the size with 8",
        "lib.rs",
        "    tell(\n        told,\n        restore::write(table, present, selection, wanted, list),\n    )",
        "    let answer = tell(told, restore::write(table, present, selection, wanted, list));\n    if answer == 8 {\n        restore_size(table, present, selection, wanted, told);\n    }\n    answer",
    ),
    (
        "write_selection",
        "the writing call alone takes a selection byte of 2",
        "restore.rs",
        "    let wish = Wish::new(table, present, selection, wanted)?;\n    let [bytes, _] = wish.measure();",
        "    let chosen: Vec<u8> = selection.iter().map(|&byte| byte.min(1)).collect();\n    let selection = &chosen[..];\n    let wish = Wish::new(table, present, selection, wanted)?;\n    let [bytes, _] = wish.measure();",
    ),
    (
        "write_short",
        "the writing call alone takes a selection that is too short",
        "restore.rs",
        "    let wish = Wish::new(table, present, selection, wanted)?;\n    let [bytes, _] = wish.measure();",
        "    let mut padded = selection.to_vec();\n    let count = Table::new(table).map_or(0, |table| table.count());\n    padded.resize(count.max(selection.len()), 0);\n    let selection = &padded[..];\n    let wish = Wish::new(table, present, selection, wanted)?;\n    let [bytes, _] = wish.measure();",
    ),
    (
        "write_wanted",
        "the writing call alone does not judge the wanted values",
        "restore.rs",
        "    let wish = Wish::new(table, present, selection, wanted)?;\n    let [bytes, _] = wish.measure();",
        "    let wish = match Wish::new(table, present, selection, wanted) {\n        Err(6) if wanted.len() == present.len() => Wish { table: Table::new(table).ok_or(1u8)?, present, selection, wanted },\n        wish => wish?,\n    };\n    let [bytes, _] = wish.measure();",
    ),
    (
        "write_reach",
        "the writing call alone accepts what is beyond reach",
        "restore.rs",
        "    let wish = Wish::new(table, present, selection, wanted)?;\n    let [bytes, _] = wish.measure();",
        "    let wish = match Wish::new(table, present, selection, wanted) {\n        Err(7) => Wish { table: Table::new(table).ok_or(1u8)?, present, selection, wanted },\n        wish => wish?,\n    };\n    let [bytes, _] = wish.measure();",
    ),
    (
        "write_present",
        "the writing call alone takes present values as they are",
        "restore.rs",
        "    let wish = Wish::new(table, present, selection, wanted)?;\n    let [bytes, _] = wish.measure();",
        "    let starts: Vec<i64> = Table::new(table).map_or(vec![], |table| table.modules().flat_map(|module| module.layout.rows()).map(|row| row.start()).collect());\n    let wish = match Wish::new(table, present, selection, wanted) {\n        Err(2) if present.len() == starts.len() => {\n            Wish::new(table, &starts, selection, wanted)?;\n            Wish { table: Table::new(table).ok_or(1u8)?, present, selection, wanted }\n        },\n        wish => wish?,\n    };\n    let [bytes, _] = wish.measure();",
    ),
    (
        "write_order",
        "the writing call alone tells 8 before 6",
        "restore.rs",
        "    let wish = Wish::new(table, present, selection, wanted)?;\n    let [bytes, _] = wish.measure();",
        "    let wish = match Wish::new(table, present, selection, wanted) {\n        Err(6) if list.is_empty() => return Err(8),\n        wish => wish?,\n    };\n    let [bytes, _] = wish.measure();",
    ),
];
