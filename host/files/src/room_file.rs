//! Room files: the modules and their present values.
//!
//! ```text
//! module TYPE "LABEL"
//! module standard-mixer "LABEL" 8x4
//! INDEX = VALUE
//! ```
//!
//! A value that is not given starts at 0 where its row permits it, else at
//! the row's low. Outputs of a word that are not given are off.

use egrivundo::{Room, Type};

use crate::given::Given;
use crate::lines::{statements, Content, Fault};
use crate::parameter::read_setting;
use crate::types::read_module;

pub fn parse(text: &str) -> Result<Room, Fault> {
    parse_given(text).map(|(room, _)| room)
}

/// The room, and which lines give its values.
pub fn parse_given(text: &str) -> Result<(Room, Given), Fault> {
    let mut modules: Vec<(Type, &str)> = Vec::new();
    let mut values: Vec<i64> = Vec::new();
    let mut start = 0;
    let mut given = Given::default();
    for statement in statements(text)? {
        let line = statement.line;
        match statement.content {
            Content::Module(rest) => {
                if modules.len() == 64 {
                    return Err(Fault::new(line, "a room has at most 64 modules"));
                }
                let (kind, label) = read_module(rest, line)?;
                modules.push((kind, label));
                start = values.len();
                values.extend(kind.start());
            }
            Content::Value(index, value) => {
                let Some(&(kind, _)) = modules.last() else {
                    return Err(Fault::new(line, "a value before the first module"));
                };
                let setting = read_setting(kind, index, value, line)?;
                let place = start + setting.row;
                given.note(place, setting.output, line, index)?;
                values[place] = setting.over(values[place]);
            }
        }
    }
    let end = text.lines().count().max(1);
    let refused = |refusal: egrivundo::Refusal| Fault::new(end, refusal.to_string());
    let table = Room::new(&modules).map_err(refused)?.table().to_vec();
    let room = Room::from_parts(table, values).map_err(refused)?;
    Ok((room, given))
}

#[cfg(test)]
mod tests {
    use super::*;

    #[test]
    fn a_room() {
        let text = "# A\nmodule 1 \"T\"\n1 = -4\n2 = on\nmodule feedback-suppression \"P\"\n";
        let room = parse(text).unwrap();
        assert_eq!(room.values(), [-40, 1, 0, 0, 0, 0, 0, 1]);
        assert_eq!(parse("").unwrap().values(), [0; 0]);
    }

    #[test]
    fn a_mixer() {
        let text = "module standard-mixer \"M\" 2x3\n1>1 = -3\n2>6 = on\n3>1 = A0000000\n\
                    4>(2,1) = on\n4>(2,3) = on\n4>(2,2) = off\nmodule 2 \"S\"\n1 = on\n";
        let room = parse(text).unwrap();
        assert_eq!(room.table()[33..35], [2, 3]);
        let word = 0xA000_0000;
        assert_eq!(
            room.values(),
            [-30, 0, 0, 0, 0, 0, 0, 0, 0, 1, word, word, 1]
        );
    }

    #[test]
    fn what_is_given() {
        let text = "module 7 \"M\" 2x2\n1>1 = 0\n3>1 = 00000000\n4>(2,1) = on\n4>(2,2) = off\n\
                    module 7 \"N\" 1x2\n4>(1,1) = on\n";
        let (room, given) = parse_given(text).unwrap();
        let whole = given.whole(&room);
        let places: Vec<usize> = (0..whole.len()).filter(|&place| whole[place]).collect();
        // A word is given by its line, or by a line for each of its outputs.
        assert_eq!((places, whole.len()), (vec![0, 8, 9], 17));
    }

    #[test]
    fn faults() {
        for (text, line) in [
            ("1 = 2", 1),
            ("module", 1),
            ("module 1", 1),
            ("module 7 \"M\" 0x1", 1),
            ("module 7 \"M\" 1x1\n4>(1,2) = on", 2),
            ("module 7 \"M\" 1x1\n3>1 = C0000000", 2),
            ("module 7 \"M\" 1x1\n3>1 = 80000000\n4>(1,1) = on", 3),
            ("module 7 \"M\" 1x1\n4>(1,1) = on\n4>(1,1) = on", 3),
            ("\nmodule 7 \"T\"", 2),
            ("module 1 T", 1),
            ("module 1 \"T\"\n7 = 1", 2),
            ("module 1 \"T\"\n1 = 16", 2),
            ("module 1 \"T\"\n1 = 1\n1 = 2", 3),
        ] {
            assert_eq!(parse(text).unwrap_err().line, line, "{text}");
        }
        let many = "module 2 \"S\"\n".repeat(65);
        assert_eq!(parse(&many).unwrap_err().line, 65);
    }
}
