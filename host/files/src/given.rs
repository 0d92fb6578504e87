//! Which lines of a file give a value.

use std::collections::HashMap;

use egrivundo::{Kind, Room, Type};

use crate::lines::Fault;

/// By a value's place: each line that gives it, with the output where it gives
/// one output of a word.
#[derive(Debug, Default)]
pub struct Given(HashMap<usize, Vec<(Option<u16>, usize)>>);

impl Given {
    /// Notes a line, unless one before it has given the same: the value, or
    /// the output.
    pub fn note(
        &mut self,
        place: usize,
        output: Option<u16>,
        line: usize,
        index: &str,
    ) -> Result<(), Fault> {
        let earlier = self.0.entry(place).or_default();
        let same = |other: Option<u16>| output.is_none() || other.is_none() || other == output;
        if let Some((_, first)) = earlier.iter().find(|(other, _)| same(*other)) {
            let message = format!("{index} was given on line {first}");
            return Err(Fault::new(line, message));
        }
        earlier.push((output, line));
        Ok(())
    }

    /// The first line that gives a value.
    pub fn line(&self, place: usize) -> Option<usize> {
        self.of(place).next().map(|(_, line)| line)
    }

    /// What is given of a value, line by line.
    pub fn of(&self, place: usize) -> impl Iterator<Item = (Option<u16>, usize)> + '_ {
        self.0.get(&place).into_iter().flatten().copied()
    }

    /// By place, of a room's values: whether all of the value is given.
    pub fn whole(&self, room: &Room) -> Vec<bool> {
        let modules = room.modules().flat_map(|module| {
            let rows = module.kind.rows().into_iter().enumerate();
            rows.map(move |(number, row)| {
                let place = module.start + number;
                let outputs = match (module.kind, row.kind) {
                    (Type::StandardMixer { outputs, .. }, Kind::Word) => usize::from(outputs),
                    _ => 1,
                };
                self.of(place).any(|(output, _)| output.is_none())
                    || self.of(place).count() == outputs
            })
        });
        modules.collect()
    }
}

#[cfg(test)]
mod tests {
    use super::*;

    #[test]
    fn twice() {
        let mut given = Given::default();
        assert_eq!(given.note(3, Some(1), 10, ""), Ok(()));
        assert_eq!(given.note(3, Some(2), 11, ""), Ok(()));
        assert_eq!(given.note(4, None, 12, ""), Ok(()));
        for (place, output, line) in [(3, Some(2), 11), (3, None, 10), (4, Some(1), 12)] {
            let fault = given.note(place, output, 20, "X").unwrap_err();
            assert_eq!(fault.message, format!("X was given on line {line}"));
        }
        assert_eq!(given.line(3), Some(10));
        assert_eq!(given.of(3).count(), 2);
        assert_eq!(given.line(5), None);
    }
}
