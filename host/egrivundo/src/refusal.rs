use crate::calls;
use std::{error, fmt};

/// Why a call was refused, with the paper's number.
#[derive(Clone, Copy, Debug, PartialEq, Eq)]
#[repr(u8)]
#[non_exhaustive]
pub enum Refusal {
    /// The table is not sound.
    Table = 1,
    /// The values have the wrong length, or one is not permitted.
    Values = 2,
    /// The reply buffer is too short.
    Reply = 3,
    /// The port claims too many held bytes.
    Port = 4,
    /// The selection is too long, too short, or has a byte over 1.
    Selection = 5,
    /// The wanted list is too long or too short, or an entry of a chosen module
    /// is not permitted.
    Wanted = 6,
    /// A wanted change is beyond reach.
    Reach = 7,
    /// The list buffer is too short.
    List = 8,
    /// There is no such module or row; of a panel change also: the row is
    /// read-only, or does not permit the value.
    Row = 9,
    /// The counts do not add up to the waiting bytes, there is no connection
    /// with this number, or it is open already, or closed already.
    Connections = 10,
}

impl Refusal {
    /// The number.
    #[must_use]
    pub fn number(self) -> u8 {
        self as u8
    }

    /// The answer of a call: nothing for 0.
    ///
    /// # Panics
    ///
    /// On a number that no call gives.
    pub(crate) fn check(answer: u8) -> Result<(), Refusal> {
        Err(match answer {
            0 => return Ok(()),
            1 => Refusal::Table,
            2 => Refusal::Values,
            3 => Refusal::Reply,
            4 => Refusal::Port,
            5 => Refusal::Selection,
            6 => Refusal::Wanted,
            7 => Refusal::Reach,
            8 => Refusal::List,
            9 => Refusal::Row,
            10 => Refusal::Connections,
            _ => panic!("the archive answered {answer}, which is no refusal"),
        })
    }
}

/// The number, and its words as the core has them.
impl fmt::Display for Refusal {
    fn fmt(&self, out: &mut fmt::Formatter) -> fmt::Result {
        let mut text = [0; 64];
        calls::refusal(self.number(), &mut text);
        let words = text.split(|byte| *byte == 0).next().unwrap_or_default();
        write!(out, "refused with {}: ", self.number())?;
        words
            .iter()
            .try_for_each(|byte| write!(out, "{}", char::from(*byte)))
    }
}

impl error::Error for Refusal {}
