//! Which parts of a wish cannot be reached.

use super::Wish;
use crate::Index;

/// A wanted change that no line can make.
#[derive(Clone, Copy, Debug, PartialEq, Eq)]
#[non_exhaustive]
pub struct Beyond {
    /// The module's number, from 0.
    pub module: usize,
    /// The place of the value.
    pub place: usize,
    /// The parameter's index.
    pub index: Index,
    /// What stands in the way.
    pub why: Why,
}

/// Why a wanted change cannot be reached.
#[derive(Clone, Copy, Debug, PartialEq, Eq)]
#[non_exhaustive]
pub enum Why {
    /// The parameter is read-only.
    ReadOnly,
    /// Another module bears the same label, so that lines reach neither.
    SharedLabel,
}

impl Wish<'_> {
    /// The wanted changes that no line can make, in the order of values.
    ///
    /// ```
    /// use egrivundo::{Refusal, Room, Type, Why, Wish};
    ///
    /// let room = Room::new(&[(Type::ConferenceRouter, "Desk")])?;
    /// let wish = Wish::from_present(&room).set("Desk", (0, 1), 3)?;
    /// assert_eq!(wish.list(), Err(Refusal::Reach));
    /// assert_eq!(wish.beyond_reach()[0].why, Why::ReadOnly);
    /// # Ok::<(), Box<dyn std::error::Error>>(())
    /// ```
    #[must_use]
    pub fn beyond_reach(&self) -> Vec<Beyond> {
        let mut found = Vec::new();
        let modules = self.room.modules().enumerate();
        for (number, module) in modules.filter(|(number, _)| self.selection[*number] == 1) {
            let same = |other: &crate::Module| other.label == module.label;
            let shared = self.room.modules().filter(same).count() > 1;
            for (row, limits) in module.kind.rows().into_iter().enumerate() {
                let place = module.start + row;
                let why = match (limits.settable, shared) {
                    _ if self.wanted[place] == module.values[row] => continue,
                    (false, _) => Why::ReadOnly,
                    (true, true) => Why::SharedLabel,
                    (true, false) => continue,
                };
                found.push(Beyond {
                    module: number,
                    place,
                    index: limits.index,
                    why,
                });
            }
        }
        found
    }
}
