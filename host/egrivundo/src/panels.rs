use std::fmt;

use crate::{calls, Fault, Port, Refusal, Reply, Room};

/// Thirty-two connections to one room, some of them open, each with a port of
/// its own, and which of them was served last.
///
/// A turn serves one connection. The round begins behind the last served, goes
/// up to 31 and on from 0; the first in it that is open and has bytes waiting
/// is served. So whoever waits in each of 32 turns is served by one of them,
/// where none is refused.
///
/// ```
/// use egrivundo::{Panels, Room, Type};
///
/// let mut room = Room::new(&[(Type::SmartBass, "S")])?;
/// let mut panels = Panels::new();
/// panels.open(3)?;
/// panels.open(7)?;
///
/// // Two lines wait at 3, and one at 7.
/// let mut queues: [&[u8]; 32] = [b""; 32];
/// queues[3] = b"SA\"S\">1=O\rGA\"S\">1\r";
/// queues[7] = b"GA\"S\">1\r";
/// let mut served = Vec::new();
/// while let Some(turned) = panels.turn_of(&mut room, &queues)? {
///     let queue = &mut queues[turned.number];
///     *queue = &queue[turned.consumed..];
///     served.push((turned.number, turned.reply.to_string()));
/// }
/// let expected = [(3, "ACK"), (7, "GA\"S\">1=O"), (3, "GA\"S\">1=O")];
/// assert!(served.iter().map(|(number, reply)| (*number, &reply[..])).eq(expected));
/// # Ok::<(), egrivundo::Refusal>(())
/// ```
#[derive(Clone)]
pub struct Panels {
    row: [u8; Panels::BYTES],
    last: u64,
}

/// What one turn did that served a connection.
#[derive(Clone, Debug, PartialEq, Eq)]
#[must_use = "bytes may be left, and the reply is to be sent"]
pub struct Turned {
    /// The connection that was served, from 0.
    pub number: usize,
    /// How many of its waiting bytes were consumed.
    pub consumed: usize,
    /// The reply to it, empty where no line was finished.
    pub reply: Reply,
}

impl Panels {
    /// How many connections there are.
    pub const COUNT: usize = 32;
    /// The bytes of a connection as the archive takes it: open (0 no, any
    /// other byte yes), and its port.
    pub const CONNECTION: usize = 1 + Port::BYTES;
    /// The bytes of all.
    pub const BYTES: usize = Panels::COUNT * Panels::CONNECTION;

    /// The fresh row: all are closed, and 0 is the first whose turn it is.
    ///
    /// ```
    /// let panels = egrivundo::Panels::new();
    /// assert!((0..32).all(|number| !panels.is_open(number)));
    /// assert_eq!(panels.last_served(), 31);
    /// ```
    #[must_use]
    pub const fn new() -> Panels {
        Panels {
            row: [0; Panels::BYTES],
            last: Panels::COUNT as u64 - 1,
        }
    }

    /// Opens a connection, which gets a fresh port. Refused where the number
    /// is over 31, or it is open.
    ///
    /// ```
    /// use egrivundo::{Panels, Refusal};
    ///
    /// let mut panels = Panels::new();
    /// panels.open(31)?;
    /// assert_eq!(panels.open(31), Err(Refusal::Connections));
    /// assert_eq!(panels.open(32), Err(Refusal::Connections));
    /// panels.close(31)?;
    /// assert_eq!(panels.close(31), Err(Refusal::Connections));
    /// # Ok::<(), Refusal>(())
    /// ```
    pub fn open(&mut self, number: usize) -> Result<(), Refusal> {
        Refusal::check(calls::open(&mut self.row, number as u64))
    }

    /// Closes a connection: its unfinished line is gone. Refused where the
    /// number is over 31, or it is closed.
    pub fn close(&mut self, number: usize) -> Result<(), Refusal> {
        Refusal::check(calls::close(&mut self.row, number as u64))
    }

    /// Whether a connection is open.
    ///
    /// # Panics
    ///
    /// On a number over 31.
    #[must_use]
    pub fn is_open(&self, number: usize) -> bool {
        self.connection(number)[0] != 0
    }

    /// A connection's port, as it stands.
    ///
    /// # Panics
    ///
    /// On a number over 31.
    #[must_use]
    pub fn port(&self, number: usize) -> Port {
        let [_, bytes @ ..] = *self.connection(number);
        Port { bytes }
    }

    /// The bytes of a connection's unfinished line; none after an overrun.
    ///
    /// # Panics
    ///
    /// On a number over 31.
    #[must_use]
    pub fn held(&self, number: usize) -> Vec<u8> {
        self.port(number).held().to_vec()
    }

    /// The connection that was served last, 31 where none was yet. The next
    /// turn looks first at the one after it.
    #[must_use]
    pub fn last_served(&self) -> usize {
        self.last as usize
    }

    /// One turn. The bytes of all connections wait in one buffer, in number
    /// order, and `counts` says how many are of each. One port call is made,
    /// on all bytes of the connection whose turn it is; nothing is told where
    /// no open one has bytes waiting. Bytes counted for a closed one are passed
    /// over.
    ///
    /// Refused with [`Refusal::Connections`] where the counts do not add up to
    /// the buffer's length. The last served stays where a turn is refused or
    /// nobody waits.
    pub fn turn(
        &mut self,
        room: &mut Room,
        waiting: &[u8],
        counts: &[u64; Panels::COUNT],
    ) -> Result<Option<Turned>, Refusal> {
        let (table, values) = room.lend();
        let mut reply = Reply::empty();
        let mut told = [0; 6];
        Refusal::check(calls::turn(
            table,
            values,
            &mut self.row,
            self.last,
            waiting,
            counts,
            &mut reply.buffer,
            &mut told,
        ))?;
        let [served, number, consumed, length, cause, place] = told;
        if served == 0 {
            return Ok(None);
        }
        self.last = number;
        reply.length = length as usize;
        reply.fault = Fault::told(cause, place);
        Ok(Some(Turned {
            number: number as usize,
            consumed: consumed as usize,
            reply,
        }))
    }

    /// One turn over a queue for each connection, which are put together in
    /// one buffer. The caller takes the consumed bytes off the queue of the
    /// one served.
    pub fn turn_of<Queue: AsRef<[u8]>>(
        &mut self,
        room: &mut Room,
        queues: &[Queue; Panels::COUNT],
    ) -> Result<Option<Turned>, Refusal> {
        let queues = queues.each_ref().map(AsRef::as_ref);
        let counts = queues.map(|queue| queue.len() as u64);
        self.turn(room, &queues.concat(), &counts)
    }

    fn connection(&self, number: usize) -> &[u8; Panels::CONNECTION] {
        &self.row.as_chunks().0[number]
    }
}

impl Default for Panels {
    fn default() -> Panels {
        Panels::new()
    }
}

/// The open ones with their ports, and the last served.
impl fmt::Debug for Panels {
    fn fmt(&self, out: &mut fmt::Formatter) -> fmt::Result {
        let open = (0..Panels::COUNT).filter(|&number| self.is_open(number));
        let ports: Vec<(usize, Port)> = open.map(|number| (number, self.port(number))).collect();
        out.debug_struct("Panels")
            .field("open", &ports)
            .field("last_served", &self.last)
            .finish()
    }
}
