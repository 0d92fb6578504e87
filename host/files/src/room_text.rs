//! Room files as they are written: every value of every module.

use std::fmt::Write;

use egrivundo::Room;

use crate::types::module_text;
use crate::value::value_text;

/// The text of a room, from which [`crate::room_file::parse`] reads the same.
pub fn text(room: &Room) -> String {
    text_with(room, |place| Ok(room.values()[place]))
}

/// The text of a room's modules with other values, by their place. Where there
/// is none, why is said in a remark, and the `?` before it is taken for no
/// value by a reader.
pub fn text_with(room: &Room, value: impl Fn(usize) -> Result<i64, String>) -> String {
    let mut out = String::new();
    for module in room.modules() {
        let label = String::from_utf8_lossy(module.label);
        let gap = if module.start == 0 { "" } else { "\n" };
        let head = module_text(module.kind, &label);
        writeln!(out, "{gap}module {head}").expect("a text takes all");
        for (number, row) in module.kind.rows().iter().enumerate() {
            let text = match value(module.start + number) {
                Ok(value) => value_text(row.kind, value),
                Err(why) => format!("?    # {why}"),
            };
            writeln!(out, "    {} = {text}", row.index).expect("a text takes all");
        }
    }
    out
}

#[cfg(test)]
mod tests {
    use super::*;
    use crate::room_file::parse;

    #[test]
    fn rooms_come_back() {
        let given = "module 1 \"T # 1\"\n1 = -4\n2 = on\nmodule standard-mixer \"M\" 2x3\n\
                     3>1 = A0000000\nmodule 6 \"P\"\nmodule 4 \"R\"\n1>2 = -0.5\nmodule 5 \"C\"\n";
        let room = parse(given).unwrap();
        let text = text(&room);
        assert!(text.starts_with("module tone-control-eq \"T # 1\"\n    1 = -4.0\n    2 = on\n"));
        assert!(text.contains("\n\nmodule standard-mixer \"M\" 2x3\n    1>1 = 0.0\n"));
        assert_eq!(parse(&text).unwrap(), room);
        assert_eq!(super::text(&parse("").unwrap()), "");
    }

    #[test]
    fn no_value() {
        let room = parse("module 2 \"S\"\n").unwrap();
        let text = text_with(&room, |_| Err("NAK 02".to_string()));
        assert_eq!(text, "module smartbass \"S\"\n    1 = ?    # NAK 02\n");
        let fault = parse(&text).unwrap_err();
        assert_eq!(fault.line, 2);
        assert_eq!(fault.message, "1 takes on or off, not: ?");
    }
}
