//! A connection to a box: a line is sent, and its reply awaited.

use std::fmt;
use std::io::{self, ErrorKind, Read, Write};
use std::net::{Shutdown, TcpStream, ToSocketAddrs};
use std::time::{Duration, Instant};

use egrivundo::Index;

use super::{Address, Said};

/// No box says more than this in one line.
const LONGEST: usize = 4096;

/// Why there is no reply.
#[derive(Debug)]
pub enum Lost {
    /// None came within the time limit.
    Time(Duration),
    /// The connection broke, or could not be had.
    Broken(String),
}

impl fmt::Display for Lost {
    fn fmt(&self, out: &mut fmt::Formatter) -> fmt::Result {
        match self {
            Lost::Time(limit) => write!(out, "no reply within {} s", limit.as_secs_f64()),
            Lost::Broken(why) => out.write_str(why),
        }
    }
}

impl From<io::Error> for Lost {
    fn from(error: io::Error) -> Lost {
        Lost::Broken(error.to_string())
    }
}

pub struct Link {
    address: Address,
    limit: Duration,
    stream: TcpStream,
    /// What came, and is not yet read as a line.
    came: Vec<u8>,
}

impl Link {
    /// Connects; `limit` is the time for this and then for each reply.
    pub fn open(address: &Address, limit: Duration) -> Result<Link, Lost> {
        let failed = |error: io::Error| Lost::Broken(format!("{address}: {error}"));
        let found = (&address.host[..], address.port).to_socket_addrs();
        let mut last = Lost::Broken(format!("{address}: no such host"));
        for place in found.map_err(failed)? {
            match TcpStream::connect_timeout(&place, limit) {
                Ok(stream) => {
                    stream.set_nodelay(true)?;
                    stream.set_write_timeout(Some(limit))?;
                    return Ok(Link {
                        address: address.clone(),
                        limit,
                        stream,
                        came: Vec::new(),
                    });
                }
                Err(error) => last = failed(error),
            }
        }
        Err(last)
    }

    /// Connects anew, so that a late reply is never taken for another. The one
    /// before is ended first, as a box may take few.
    pub fn again(&mut self) -> Result<(), Lost> {
        let _ = self.stream.shutdown(Shutdown::Both);
        *self = Link::open(&self.address, self.limit)?;
        Ok(())
    }

    /// Another handle of the same connection, to send on.
    pub fn sender(&self) -> io::Result<TcpStream> {
        self.stream.try_clone()
    }

    /// Asks for a parameter: its text, or the code of a NAK.
    pub fn get(&mut self, label: &str, index: Index) -> Result<Result<String, String>, Lost> {
        self.send(format!("GA\"{label}\">{index}").as_bytes())?;
        let end = Instant::now() + self.limit;
        loop {
            match self.said(Some(end))? {
                Said::Nak(code) => return Ok(Err(code)),
                Said::Value {
                    label: of,
                    index: at,
                    text,
                } if of == label && at == index => return Ok(Ok(text)),
                // News of a knob, or nothing that answers a get line.
                _ => {}
            }
        }
    }

    /// Sends a set line, given without its end: nothing for an ACK, or the
    /// code of a NAK.
    pub fn set(&mut self, line: &[u8]) -> Result<Option<String>, Lost> {
        self.send(line)?;
        let end = Instant::now() + self.limit;
        loop {
            match self.said(Some(end))? {
                Said::Ack => return Ok(None),
                Said::Nak(code) => return Ok(Some(code)),
                _ => {}
            }
        }
    }

    fn send(&mut self, line: &[u8]) -> Result<(), Lost> {
        let whole = [line, b"\r"].concat();
        self.stream
            .write_all(&whole)
            .map_err(|error| self.lost(error))
    }

    /// The next line of the box, which has until `end` to be whole; without an
    /// end it may take any time.
    pub fn said(&mut self, end: Option<Instant>) -> Result<Said, Lost> {
        loop {
            let end_of_line = self.came.iter().position(|&byte| byte == b'\r');
            if end_of_line.unwrap_or(self.came.len()) > LONGEST {
                let why = format!("{LONGEST} bytes came without a carriage return: this is no box");
                return Err(Lost::Broken(why));
            }
            if let Some(length) = end_of_line {
                let line: Vec<u8> = self.came.drain(..=length).collect();
                return Ok(Said::read(&line[..length]));
            }
            self.more(end)?;
        }
    }

    fn more(&mut self, end: Option<Instant>) -> Result<(), Lost> {
        let late = || Lost::Time(self.limit);
        let left = match end {
            None => None,
            Some(end) => {
                let left = end.saturating_duration_since(Instant::now());
                Some(left)
                    .filter(|left| !left.is_zero())
                    .ok_or_else(late)?
                    .into()
            }
        };
        self.stream.set_read_timeout(left)?;
        let mut buffer = [0; 1024];
        match self.stream.read(&mut buffer) {
            Ok(0) => Err(Lost::Broken("the box closed the connection".to_string())),
            Ok(count) => {
                self.came.extend_from_slice(&buffer[..count]);
                Ok(())
            }
            Err(error) if error.kind() == ErrorKind::Interrupted => Ok(()),
            Err(error) => Err(self.lost(error)),
        }
    }

    fn lost(&self, error: io::Error) -> Lost {
        match error.kind() {
            ErrorKind::WouldBlock | ErrorKind::TimedOut => Lost::Time(self.limit),
            _ => error.into(),
        }
    }
}
