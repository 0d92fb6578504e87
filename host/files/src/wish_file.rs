//! Wish files: the chosen modules and what is wanted of them.
//!
//! ```text
//! module "LABEL"
//! INDEX = VALUE
//! ```
//!
//! `module NUMBER` chooses by the place in the room, from 1. A value of a
//! chosen module that is not given is wanted as it is at present, and so is an
//! output of a word.

use egrivundo::{Module, Room};

use crate::given::Given;
use crate::lines::{quoted, statements, Content, Fault};
use crate::parameter::read_setting;
use crate::types::{read_module, ROOM_GIVEN};

/// A wish, and the lines that say it.
#[derive(Debug)]
pub struct Wish<'a> {
    pub core: egrivundo::Wish<'a>,
    pub given: Given,
}

pub fn parse<'a>(text: &str, room: &'a Room) -> Result<Wish<'a>, Fault> {
    let modules: Vec<Module> = room.modules().collect();
    let mut core = egrivundo::Wish::from_present(room);
    let mut given = Given::default();
    let mut chosen: Option<usize> = None;
    for statement in statements(text)? {
        let line = statement.line;
        let wrong = |error: egrivundo::WishError| Fault::new(line, error.to_string());
        match statement.content {
            Content::Module(rest) => {
                let number = choose(&modules, rest, line)?;
                if core.selection()[number] == 1 {
                    return Err(Fault::new(line, format!("chosen twice: {rest}")));
                }
                core = core.choose_at(number).map_err(wrong)?;
                chosen = Some(number);
            }
            Content::Value(index, value) => {
                let Some(number) = chosen else {
                    return Err(Fault::new(line, "a value before the first module"));
                };
                let module = modules[number];
                let setting = read_setting(module.kind, index, value, line)?;
                let place = module.start + setting.row;
                given.note(place, setting.output, line, index)?;
                let set = core.set_at(number, setting.index, setting.value);
                core = set.map_err(wrong)?;
            }
        }
    }
    Ok(Wish { core, given })
}

/// The module that a wish names, by label or by number.
fn choose(modules: &[Module], text: &str, line: usize) -> Result<usize, Fault> {
    if let Ok(number) = text.parse::<usize>() {
        if number == 0 || number > modules.len() {
            let message = format!("no module {number}: the room has {}", modules.len());
            return Err(Fault::new(line, message));
        }
        return Ok(number - 1);
    }
    if read_module(text, line).is_ok() {
        return Err(Fault::new(line, ROOM_GIVEN));
    }
    let label = quoted(text, line)?.as_bytes();
    let bearers: Vec<usize> = (0..modules.len())
        .filter(|&number| modules[number].label == label)
        .collect();
    match bearers[..] {
        [number] => Ok(number),
        [] => Err(Fault::new(
            line,
            format!("no module bears the label {text}"),
        )),
        _ => {
            let numbers: Vec<String> = bearers.iter().map(|n| (n + 1).to_string()).collect();
            let message = format!(
                "modules {} bear the label {text}; name one by its number",
                numbers.join(" and ")
            );
            Err(Fault::new(line, message))
        }
    }
}

#[cfg(test)]
mod tests {
    use super::*;
    use crate::room_file;

    fn room() -> Room {
        room_file::parse("module 1 \"T\"\n1 = 2\nmodule 2 \"S\"\nmodule 3 \"S\"\n").unwrap()
    }

    #[test]
    fn a_wish() {
        let room = room();
        let wish = parse("module \"T\"\n3 = 0.5\nmodule 3\n1 = on\n", &room).unwrap();
        assert_eq!(wish.core.selection(), [1, 0, 1]);
        assert_eq!(wish.core.wanted(), [20, 0, 5, 0, 0, 0, 0, 1]);
        let lines: Vec<_> = (0..8).map(|place| wish.given.line(place)).collect();
        let none = None;
        assert_eq!(
            lines,
            [none, none, Some(2), none, none, none, none, Some(4)]
        );
    }

    #[test]
    fn outputs_that_are_not_given_stay() {
        let room = room_file::parse("module 7 \"M\" 1x3\n3>1 = A0000000\n").unwrap();
        let wish = parse("module \"M\"\n4>(1,2) = on\n4>(1,3) = off\n", &room).unwrap();
        assert_eq!(wish.core.wanted()[8], 0xC000_0000);
        assert_eq!(wish.given.line(8), Some(2));
        let whole = "module \"M\"\n4>(1,2) = on\n3>1 = 80000000\n";
        assert_eq!(parse(whole, &room).unwrap_err().line, 3);
    }

    #[test]
    fn faults() {
        for (text, line) in [
            ("1 = 2", 1),
            ("module \"Q\"", 1),
            ("\nmodule \"S\"", 2),
            ("module 4", 1),
            ("module 0", 1),
            ("module T", 1),
            ("module 1 \"T\"", 1),
            ("module \"T\"\nmodule 1", 2),
            ("module \"T\"\n1 = on", 2),
            ("module \"T\"\n1 = 1\n1 = 1", 3),
            ("module \"T\"\n9 = 1", 2),
        ] {
            assert_eq!(parse(text, &room()).unwrap_err().line, line, "{text}");
        }
    }
}
