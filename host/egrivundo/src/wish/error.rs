use std::{error, fmt};

use crate::{Index, IndexError, Kind, Row, Type};

/// What is wrong with a wish.
#[derive(Clone, Debug, PartialEq, Eq)]
#[non_exhaustive]
pub enum WishError {
    /// A text is no index.
    Index(IndexError),
    /// No module bears the label.
    NoModule {
        /// The label.
        label: String,
        /// Whether it is the saved room that has none.
        saved: bool,
    },
    /// More than one module bears the label.
    Shared {
        /// The label.
        label: String,
        /// How many bear it.
        bearers: usize,
        /// Whether it is the saved room that has them.
        saved: bool,
    },
    /// There is no module with this number.
    NoNumber {
        /// The number, from 0.
        number: usize,
        /// How many modules there are.
        modules: usize,
    },
    /// The module has no such index.
    NoRow {
        /// The module's label.
        label: String,
        /// The index.
        index: Index,
    },
    /// The row does not permit the value.
    Value {
        /// The module's label.
        label: String,
        /// The index.
        index: Index,
        /// The value.
        value: i64,
        /// The row, which has the bounds.
        row: Row,
    },
    /// The saved module is of another type or size.
    OtherType {
        /// The label.
        label: String,
        /// The module's type in the room.
        present: Type,
        /// Its type in the saved room.
        saved: Type,
    },
}

impl WishError {
    /// The same, of the saved room.
    pub(crate) fn in_saved(self) -> WishError {
        match self {
            WishError::NoModule { label, .. } => WishError::NoModule { label, saved: true },
            WishError::Shared { label, bearers, .. } => WishError::Shared {
                label,
                bearers,
                saved: true,
            },
            other => other,
        }
    }
}

impl From<IndexError> for WishError {
    fn from(error: IndexError) -> WishError {
        WishError::Index(error)
    }
}

fn room(saved: bool) -> &'static str {
    match saved {
        true => "the saved room",
        false => "the room",
    }
}

impl fmt::Display for WishError {
    fn fmt(&self, out: &mut fmt::Formatter) -> fmt::Result {
        match self {
            WishError::Index(error) => write!(out, "{error}"),
            WishError::NoModule { label, saved } => {
                write!(
                    out,
                    "no module of {} bears the label \"{label}\"",
                    room(*saved)
                )
            }
            WishError::Shared {
                label,
                bearers,
                saved,
            } => {
                let room = room(*saved);
                write!(
                    out,
                    "{bearers} modules of {room} bear the label \"{label}\""
                )
            }
            WishError::NoNumber { number, modules } => {
                write!(
                    out,
                    "no module {number}: the room has {modules}, counted from 0"
                )
            }
            WishError::NoRow { label, index } => write!(out, "\"{label}\" has no index {index}"),
            WishError::Value {
                label,
                index,
                value,
                row,
            } => {
                write!(out, "{index} of \"{label}\" cannot be {value}: it is ")?;
                bounds(out, *index, row)
            }
            WishError::OtherType {
                label,
                present,
                saved,
            } => write!(
                out,
                "\"{label}\" is a {present} in the room and a {saved} in the saved room"
            ),
        }
    }
}

fn bounds(out: &mut fmt::Formatter, index: Index, row: &Row) -> fmt::Result {
    match (index, row.kind) {
        (Index::Crosspoint { .. }, _) | (_, Kind::Switch) => write!(out, "0 or 1"),
        (_, Kind::Word) => write!(out, "a word with bits of {:08X} alone", row.high),
        _ => {
            write!(out, "from {} to {}", row.low, row.high)?;
            match row.step {
                1 => Ok(()),
                step => write!(out, " in steps of {step}"),
            }
        }
    }
}

impl error::Error for WishError {}
