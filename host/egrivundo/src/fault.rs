use std::fmt;

/// What a line lacks that is answered with 99, in the order in which it is
/// looked for.
#[derive(Clone, Copy, Debug, PartialEq, Eq)]
#[repr(u8)]
#[non_exhaustive]
pub enum Cause {
    /// The line is over 64 bytes.
    Overrun = 1,
    /// It begins with neither `SA` nor `GA`.
    NoVerb = 2,
    /// There is no quote behind the verb and its optional space.
    NoOpeningQuote = 3,
    /// There is no second quote.
    NoClosingQuote = 4,
    /// A set line has no `=` behind its second quote.
    NoEquals = 5,
}

impl Cause {
    /// The number.
    #[must_use]
    pub fn number(self) -> u8 {
        self as u8
    }
}

/// Why a line was answered with 99.
///
/// ```
/// # use egrivundo::{Cause, Fault, Room, Type};
/// let mut room = Room::new(&[(Type::SmartBass, "S")])?;
/// let fault = room.line(b"GA\"S>1")?.fault().unwrap();
/// assert_eq!(fault, Fault { cause: Cause::NoClosingQuote, place: 6 });
/// assert_eq!(fault.to_string(), "no closing quote: the line ends at byte 6");
/// assert_eq!(room.line(b"GA\"S\">1")?.fault(), None);
/// # Ok::<(), egrivundo::Refusal>(())
/// ```
#[derive(Clone, Copy, Debug, PartialEq, Eq)]
pub struct Fault {
    /// What the line lacks.
    pub cause: Cause,
    /// The byte of the line where it shows, counted from 0.
    pub place: usize,
}

impl Fault {
    /// The fault that a call told: nothing for cause 0.
    ///
    /// # Panics
    ///
    /// On a number that no call tells.
    pub(crate) fn told(cause: u64, place: u64) -> Option<Fault> {
        let cause = match cause {
            0 => return None,
            1 => Cause::Overrun,
            2 => Cause::NoVerb,
            3 => Cause::NoOpeningQuote,
            4 => Cause::NoClosingQuote,
            5 => Cause::NoEquals,
            _ => panic!("the archive told {cause}, which is no cause"),
        };
        Some(Fault {
            cause,
            place: place as usize,
        })
    }
}

impl fmt::Display for Fault {
    fn fmt(&self, out: &mut fmt::Formatter) -> fmt::Result {
        let place = self.place;
        match self.cause {
            Cause::Overrun => write!(out, "overrun: byte {place} is one too many"),
            Cause::NoVerb => write!(out, "no verb: no SA or GA at byte {place}"),
            Cause::NoOpeningQuote => write!(out, "no opening quote at byte {place}"),
            Cause::NoClosingQuote => {
                write!(out, "no closing quote: the line ends at byte {place}")
            }
            Cause::NoEquals => write!(out, "no `=`: the line ends at byte {place}"),
        }
    }
}
