//! The one owner of table, values and row. It alone makes turns.

use std::array;
use std::io;
use std::net::TcpStream;
use std::sync::mpsc::Receiver;
use std::thread::{self, JoinHandle};
use std::time::{Duration, Instant};

use egrivundo::{Panels, Reply, Room};

use super::connection::{Connection, REPLIES};
use super::line_ends::LineEnds;
use super::log::Log;
use super::state::State;
use super::system;

/// How often the owner looks for a signal while nothing comes.
const LOOK: Duration = Duration::from_millis(100);
/// How long the replies of an ended server may take.
const FAREWELL: Duration = Duration::from_secs(1);

/// A connection, or why one could not be taken.
pub type Arrival = io::Result<TcpStream>;

pub struct Owner {
    room: Room,
    panels: Panels,
    places: [Place; Panels::COUNT],
    state: Option<State>,
    log: Log,
    /// The values before the turn that is being made.
    before: Vec<i64>,
    /// Whether a value differs from the state file.
    changed: bool,
    /// The replies of this round, which wait for the state file.
    replies: Vec<(usize, Reply)>,
    crlf: bool,
}

/// One of the 32 places.
enum Place {
    Free,
    Taken(Connection),
    /// Closed for the core; the last replies are on their way, for which the
    /// client may let the writer wait.
    Leaving(JoinHandle<()>),
}

impl Owner {
    pub fn new(room: Room, state: Option<State>, log: Log, crlf: bool) -> Owner {
        Owner {
            before: room.values().to_vec(),
            room,
            panels: Panels::new(),
            places: array::from_fn(|_| Place::Free),
            state,
            log,
            changed: false,
            replies: Vec::new(),
            crlf,
        }
    }

    /// Serves until a signal comes; fails where the core refuses a turn or the
    /// state cannot be written. Then the replies of the last round are not sent.
    pub fn serve(&mut self, arrivals: &Receiver<Arrival>) -> Result<(), String> {
        while system::caught().is_none() {
            let served = match self.round() {
                Ok(served) => served,
                Err(message) => {
                    let unsent = self.replies.len();
                    self.end(&format!("{message} (replies not sent: {unsent})"));
                    return Err(message);
                }
            };
            let arrived = self.welcome(arrivals);
            if !served && !arrived {
                thread::park_timeout(LOOK);
            }
        }
        self.end(system::caught().unwrap_or_default());
        Ok(())
    }

    /// Admits those who have arrived, at most as many as a round has turns, so
    /// that a flood of them holds up nobody; tells whether there were any.
    fn welcome(&mut self, arrivals: &Receiver<Arrival>) -> bool {
        let mut arrived = false;
        for arrival in arrivals.try_iter().take(Panels::COUNT) {
            arrived = true;
            match arrival {
                Ok(stream) => self.admit(stream),
                Err(error) => {
                    let what = format!("a connection could not be taken: {error}");
                    self.log.server(what);
                }
            }
        }
        arrived
    }

    /// At most 32 turns, then the state file, then the replies; tells whether a
    /// turn served anyone. The log goes its own way.
    fn round(&mut self) -> Result<bool, String> {
        let mut served = false;
        for _ in 0..Panels::COUNT {
            self.fetch();
            if !self.turn()? {
                break;
            }
            served = true;
        }
        if self.changed {
            if let Some(state) = &mut self.state {
                state.write(&self.room)?;
            }
            self.changed = false;
        }
        self.log.flush();
        for (number, reply) in self.replies.drain(..) {
            if let Place::Taken(connection) = &self.places[number] {
                connection.send(reply);
            }
        }
        self.retire();
        Ok(served)
    }

    fn fetch(&mut self) {
        for place in &mut self.places {
            if let Place::Taken(connection) = place {
                connection.fetch();
            }
        }
    }

    /// One turn of the core; tells whether it served one.
    fn turn(&mut self) -> Result<bool, String> {
        let waiting = self.places.each_ref().map(|place| match place {
            Place::Taken(connection) => connection.waiting(),
            _ => &[],
        });
        let turned = self.panels.turn_of(&mut self.room, &waiting);
        let turned = turned.map_err(|refusal| format!("the core refused a turn: {refusal}"))?;
        let Some(turned) = turned else {
            return Ok(false);
        };
        let Place::Taken(connection) = &mut self.places[turned.number] else {
            return Err(format!("the core served {}, which is free", turned.number));
        };
        let finished = !turned.reply.is_empty();
        let line = connection.consumed(turned.consumed, finished);
        if !finished {
            return Ok(true);
        }
        self.log
            .line(turned.number, line, &turned.reply, &self.before, &self.room);
        line.clear();
        if self.before != self.room.values() {
            self.before.copy_from_slice(self.room.values());
            self.changed = true;
        }
        self.replies.push((turned.number, turned.reply));
        Ok(true)
    }

    /// Closes those whose client does not read, and those whose client has
    /// ended, once all that they sent is served.
    fn retire(&mut self) {
        for number in 0..Panels::COUNT {
            match &mut self.places[number] {
                Place::Taken(connection) => {
                    if connection.is_stuck() {
                        let why = format!("closed: {REPLIES} replies have waited for a second");
                        self.close(number, &why, Connection::cut);
                    } else if let Some(how) = connection.has_ended() {
                        self.close(number, &how, Connection::leave);
                    }
                }
                Place::Leaving(writer) if writer.is_finished() => {
                    self.places[number] = Place::Free;
                }
                _ => {}
            }
        }
    }

    /// The place is free at once where nothing is left to be written.
    fn close(&mut self, number: usize, why: &str, how: fn(Connection) -> Option<JoinHandle<()>>) {
        if let Place::Taken(connection) = std::mem::replace(&mut self.places[number], Place::Free) {
            if let Some(writer) = how(connection) {
                self.places[number] = Place::Leaving(writer);
            }
            if let Err(refusal) = self.panels.close(number) {
                self.log.connection(number, refusal);
            }
            self.log.connection(number, why);
        }
    }

    /// Gives an arrival the first free place; where there is none it is closed.
    fn admit(&mut self, stream: TcpStream) {
        let peer = match stream.peer_addr() {
            Ok(address) => address.to_string(),
            Err(_) => "a client that is gone".to_string(),
        };
        // Judged after the ends that have been seen.
        self.fetch();
        self.retire();
        let free = |place: &Place| matches!(place, Place::Free);
        let Some(number) = self.places.iter().position(free) else {
            let all = Panels::COUNT;
            self.log
                .server(format!("{peer} is closed: all {all} connections are taken"));
            return;
        };
        let started = Connection::start(stream, LineEnds::new(self.crlf))
            .map_err(|error| error.to_string())
            .and_then(|connection| match self.panels.open(number) {
                Ok(()) => Ok(connection),
                Err(refusal) => Err(refusal.to_string()),
            });
        match started {
            Ok(connection) => {
                self.places[number] = Place::Taken(connection);
                self.log.connection(number, format!("opened by {peer}"));
            }
            Err(why) => self.log.server(format!("{peer} is closed: {why}")),
        }
    }

    /// Lets the replies that were queued go out, and says why it ends.
    fn end(&mut self, why: &str) {
        let places = std::mem::replace(&mut self.places, array::from_fn(|_| Place::Free));
        let writers = places.into_iter().filter_map(|place| match place {
            Place::Free => None,
            Place::Taken(connection) => connection.leave(),
            Place::Leaving(writer) => Some(writer),
        });
        let writers: Vec<JoinHandle<()>> = writers.collect();
        let start = Instant::now();
        while !writers.iter().all(JoinHandle::is_finished) && start.elapsed() < FAREWELL {
            thread::sleep(Duration::from_millis(5));
        }
        self.log.server(format!("ended: {why}"));
        self.log.flush();
    }
}
