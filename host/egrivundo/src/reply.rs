use std::fmt;

use crate::{Fault, Port};

/// The reply of one port call, empty where no line was finished; or what is
/// told of a panel change, empty where nothing is.
#[derive(Clone)]
#[must_use = "a reply is to be sent, and tells whether a line was taken"]
pub struct Reply {
    pub(crate) buffer: [u8; Port::REPLY],
    pub(crate) length: usize,
    pub(crate) fault: Option<Fault>,
}

impl Reply {
    pub(crate) fn empty() -> Reply {
        Reply {
            buffer: [0; Port::REPLY],
            length: 0,
            fault: None,
        }
    }

    /// The bytes to send. A get line is answered in the form asked, with the
    /// value as a restore list has it: whole decibels have no point.
    pub fn bytes(&self) -> &[u8] {
        &self.buffer[..self.length]
    }

    /// Whether there is nothing to send.
    pub fn is_empty(&self) -> bool {
        self.length == 0
    }

    /// Whether it is an ACK.
    pub fn is_ack(&self) -> bool {
        self.bytes() == b"\x06\r"
    }

    /// The code of a NAK.
    ///
    /// ```
    /// # use egrivundo::{Room, Type};
    /// let mut room = Room::new(&[(Type::SmartBass, "S")])?;
    /// assert_eq!(room.line(b"SA\"S\">2=O")?.nak(), Some("02"));
    /// assert_eq!(room.line(b"SA\"S\">1=O")?.nak(), None);
    /// # Ok::<(), egrivundo::Refusal>(())
    /// ```
    pub fn nak(&self) -> Option<&str> {
        match self.bytes() {
            [0x15, code @ .., b'\r'] => std::str::from_utf8(code).ok(),
            _ => None,
        }
    }

    /// Why the line was answered with 99.
    pub fn fault(&self) -> Option<Fault> {
        self.fault
    }
}

/// Shown in words: `ACK`, `NAK 03`, a NAK 99 with its cause, or the text
/// without its end.
///
/// ```
/// # use egrivundo::{Room, Type};
/// let mut room = Room::new(&[(Type::SmartBass, "S")])?;
/// let reply = room.line(b"SA\"S\">1")?;
/// assert_eq!(reply.to_string(), "NAK 99, no `=`: the line ends at byte 7");
/// # Ok::<(), egrivundo::Refusal>(())
/// ```
impl fmt::Display for Reply {
    fn fmt(&self, out: &mut fmt::Formatter) -> fmt::Result {
        if self.is_ack() {
            return out.write_str("ACK");
        }
        if let Some(code) = self.nak() {
            write!(out, "NAK {code}")?;
            return match self.fault {
                Some(fault) => write!(out, ", {fault}"),
                None => Ok(()),
            };
        }
        let text = self.bytes();
        write!(
            out,
            "{}",
            String::from_utf8_lossy(text.strip_suffix(b"\r").unwrap_or(text))
        )
    }
}

impl fmt::Debug for Reply {
    fn fmt(&self, out: &mut fmt::Formatter) -> fmt::Result {
        write!(out, "Reply(\"{}\")", self.bytes().escape_ascii())
    }
}

impl PartialEq for Reply {
    fn eq(&self, other: &Reply) -> bool {
        self.bytes() == other.bytes() && self.fault == other.fault
    }
}

impl Eq for Reply {}
