//! Port calls on a room.

use super::Room;
use crate::{calls, Fault, Port, Refusal, Reply};

/// What one port call did.
#[derive(Clone, Debug, PartialEq, Eq)]
#[must_use = "bytes may be left, and the reply is to be sent"]
pub struct Fed {
    /// How many of the given bytes were consumed.
    pub consumed: usize,
    /// The reply, empty where no line was finished.
    pub reply: Reply,
}

impl Room {
    /// Gives bytes to a port. One call serves at most one line: give what is
    /// left until all is consumed.
    pub fn feed(&mut self, port: &mut Port, given: &[u8]) -> Result<Fed, Refusal> {
        let mut reply = Reply::empty();
        let mut told = [0; 4];
        Refusal::check(calls::port(
            &self.table,
            &mut self.values,
            &mut port.bytes,
            given,
            &mut reply.buffer,
            &mut told,
        ))?;
        let [consumed, length, cause, place] = told;
        reply.length = length as usize;
        reply.fault = Fault::told(cause, place);
        Ok(Fed {
            consumed: consumed as usize,
            reply,
        })
    }

    /// Gives all bytes to a port, call after call, and hands back the replies.
    ///
    /// ```
    /// # use egrivundo::{Port, Room, Type};
    /// let mut room = Room::new(&[(Type::SmartBass, "S")])?;
    /// let replies = room.feed_all(&mut Port::new(), b"SA\"S\">1=T\rGA\"S\">1\rGA")?;
    /// assert_eq!(replies.len(), 2);
    /// assert_eq!(replies[1].bytes(), b"GA\"S\">1=O\r");
    /// # Ok::<(), egrivundo::Refusal>(())
    /// ```
    pub fn feed_all(&mut self, port: &mut Port, given: &[u8]) -> Result<Vec<Reply>, Refusal> {
        let mut replies = Vec::new();
        let mut rest = given;
        while !rest.is_empty() {
            let fed = self.feed(port, rest)?;
            rest = &rest[fed.consumed..];
            if !fed.reply.is_empty() {
                replies.push(fed.reply);
            }
        }
        Ok(replies)
    }

    /// The reply to one line, given without its 0x0D, on a fresh port.
    ///
    /// ```
    /// # use egrivundo::{Room, Type};
    /// let mut room = Room::new(&[(Type::ToneControlEq, "T")])?;
    /// assert!(room.line(b"SA\"T\">1=15")?.is_ack());
    /// assert_eq!(room.line(b"SA\"T\">1=15.1")?.nak(), Some("03"));
    /// # Ok::<(), egrivundo::Refusal>(())
    /// ```
    ///
    /// # Panics
    ///
    /// On a line with a 0x0D in it, which would be more than one.
    pub fn line(&mut self, line: &[u8]) -> Result<Reply, Refusal> {
        assert!(!line.contains(&b'\r'), "one line has no 0x0D in it");
        let mut port = Port::new();
        // All is consumed, and finishes no line.
        let _ = self.feed(&mut port, line)?;
        Ok(self.feed(&mut port, b"\r")?.reply)
    }
}
