//! What fixes the rows of a module: its kind, and a mixer's sizes.

use super::catalogue::{self, Index, Row};
use super::mixer;

/// The kind of a Standard Mixer.
pub const MIXER: u8 = 7;

#[derive(Clone, Copy, Debug, PartialEq, Eq)]
pub struct Layout {
    pub kind: u8,
    /// Of a mixer; 0 for any other kind.
    pub inputs: u8,
    /// Of a mixer; 0 for any other kind.
    pub outputs: u8,
}

impl Layout {
    /// Of a kind with fixed rows.
    pub const fn of(kind: u8) -> Layout {
        Layout {
            kind,
            inputs: 0,
            outputs: 0,
        }
    }

    pub const fn mixer(inputs: u8, outputs: u8) -> Layout {
        Layout {
            kind: MIXER,
            inputs,
            outputs,
        }
    }

    /// The rows in order, in parts of which some may be empty.
    pub fn parts(self) -> [&'static [Row]; 3] {
        match self.kind {
            MIXER => mixer::rows(self.inputs, self.outputs),
            kind => [catalogue::rows(kind), &[], &[]],
        }
    }

    /// The rows in order.
    pub fn rows(self) -> impl Iterator<Item = &'static Row> + Clone {
        self.parts().into_iter().flatten()
    }

    /// How many rows there are.
    pub fn count(self) -> usize {
        match self.kind {
            MIXER => 3 * usize::from(self.inputs) + 2 * usize::from(self.outputs),
            kind => catalogue::rows(kind).len(),
        }
    }

    /// The row with these indices, and its place.
    pub fn find(self, index: Index) -> Option<(usize, &'static Row)> {
        self.rows().enumerate().find(|(_, row)| row.index == index)
    }

    /// The values after the module's own, which come first, where they are all
    /// there and permitted.
    pub fn pass(self, values: &[i64]) -> Option<&[i64]> {
        let mut rest = values;
        for part in self.parts() {
            let (own, others) = rest.split_at_checked(part.len())?;
            if !part.iter().zip(own).all(|(row, &value)| row.permits(value)) {
                return None;
            }
            rest = others;
        }
        Some(rest)
    }
}
