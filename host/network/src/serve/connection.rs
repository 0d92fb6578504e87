//! One connection: a thread that reads, a thread that writes, and the bounded
//! queues between them and the owner.

use std::io::{self, ErrorKind, Read, Write};
use std::net::{Shutdown, TcpStream};
use std::sync::atomic::{AtomicUsize, Ordering};
use std::sync::mpsc::{self, Receiver, SyncSender, TryRecvError};
use std::sync::{Arc, OnceLock};
use std::thread::{self, Builder, JoinHandle, Thread};
use std::time::{Duration, Instant};

use egrivundo::Reply;

use super::line::Line;
use super::line_ends::LineEnds;
use super::system;

/// The most bytes of a piece that is read at once.
const PIECE: usize = 16 * 1024;
/// How many pieces wait for the owner; behind them the reader waits.
const PIECES: usize = 4;
/// How many replies wait for the client; while there are so many, none of its
/// bytes go to the core.
pub const REPLIES: usize = 512;
/// A client for which so many wait for so long is closed.
const FULL: Duration = Duration::from_secs(1);
/// A client that takes no byte of the replies for so long is closed, also one
/// that has ended its side: its place and its writer are wanted.
const PATIENCE: Duration = Duration::from_secs(10);

pub struct Connection {
    stream: Arc<TcpStream>,
    pieces: Receiver<Vec<u8>>,
    /// The reader has ended, and all its pieces were fetched.
    ended: bool,
    /// Why reading or writing failed, if it did.
    fault: Arc<OnceLock<io::Error>>,
    /// The piece that is being served, and which part of it is next.
    piece: Vec<u8>,
    next: usize,
    end: usize,
    /// What was served of the unfinished line, for the log.
    line: Line,
    replies: SyncSender<Reply>,
    /// How many of them are not written yet.
    unwritten: Arc<AtomicUsize>,
    full_since: Option<Instant>,
    writer: JoinHandle<()>,
}

impl Connection {
    /// Starts both threads; they wake the thread that calls this.
    pub fn start(stream: TcpStream, ends: LineEnds) -> io::Result<Connection> {
        system::keep_alive(&stream)?;
        stream.set_nodelay(true)?;
        stream.set_write_timeout(Some(PATIENCE))?;
        let (replies, from_owner) = mpsc::sync_channel(REPLIES);
        let (to_owner, pieces) = mpsc::sync_channel(PIECES);
        let stream = Arc::new(stream);
        let (reading, writing) = (stream.clone(), stream.clone());
        let unwritten = Arc::new(AtomicUsize::new(0));
        let fault = Arc::<OnceLock<io::Error>>::default();
        let (count, noted, owner) = (unwritten.clone(), fault.clone(), thread::current());
        let writer = Builder::new().spawn(move || {
            if let Err(error) = write(&writing, &from_owner, &count, &owner) {
                let _ = noted.set(error);
            }
            let _ = writing.shutdown(Shutdown::Both);
        })?;
        let (noted, owner) = (fault.clone(), thread::current());
        Builder::new().spawn(move || {
            if let Err(error) = read(&reading, ends, &to_owner, &owner) {
                let _ = noted.set(error);
            }
            drop(to_owner);
            owner.unpark();
        })?;
        Ok(Connection {
            stream,
            pieces,
            ended: false,
            fault,
            piece: Vec::new(),
            next: 0,
            end: 0,
            line: Line::default(),
            replies,
            unwritten,
            full_since: None,
            writer,
        })
    }

    /// Fetches the next piece where the one before is served.
    pub fn fetch(&mut self) {
        if self.ended || self.next < self.piece.len() {
            return;
        }
        match self.pieces.try_recv() {
            Ok(piece) => {
                self.piece = piece;
                self.next = 0;
                self.mark();
            }
            Err(TryRecvError::Disconnected) => self.ended = true,
            Err(TryRecvError::Empty) => {}
        }
    }

    /// Where the client has ended and all that it sent is served: how.
    pub fn has_ended(&self) -> Option<String> {
        self.ended.then(|| match self.fault.get() {
            None => "closed by the client".to_string(),
            Some(error) if error.kind() == ErrorKind::WouldBlock => {
                format!("closed: it took no byte for {} s", PATIENCE.as_secs())
            }
            Some(error) => format!("closed: {error}"),
        })
    }

    /// What waits for the core: the piece up to its first carriage return, or
    /// all of it, as a call consumes no more in any case; nothing while the
    /// queue of replies is full.
    pub fn waiting(&self) -> &[u8] {
        match self.is_full() {
            true => &[],
            false => &self.piece[self.next..self.end],
        }
    }

    fn is_full(&self) -> bool {
        self.unwritten.load(Ordering::Acquire) >= REPLIES
    }

    /// Whether the client takes no replies: the queue is full, and was so at
    /// each question for a second.
    pub fn is_stuck(&mut self) -> bool {
        if !self.is_full() {
            self.full_since = None;
            return false;
        }
        self.full_since.get_or_insert_with(Instant::now).elapsed() > FULL
    }

    /// Takes off what a call consumed, and hands back the line to which it
    /// belongs. If it finished that line, a place for the reply is kept.
    pub fn consumed(&mut self, count: usize, finished: bool) -> &mut Line {
        self.unwritten
            .fetch_add(usize::from(finished), Ordering::AcqRel);
        self.line.add(&self.piece[self.next..self.next + count]);
        self.next += count;
        self.mark();
        &mut self.line
    }

    fn mark(&mut self) {
        let rest = &self.piece[self.next..];
        let cr = rest.iter().position(|&byte| byte == b'\r');
        self.end = cr.map_or(self.piece.len(), |place| self.next + place + 1);
    }

    /// Puts a reply into the queue, where a place was kept for it.
    pub fn send(&self, reply: Reply) {
        // The writer has ended where writing failed; the reader ends too then.
        let _ = self.replies.try_send(reply);
    }

    /// Lets the writer send what is in the queue, and end. It is handed back
    /// where there is something, and has ended where there is nothing.
    pub fn leave(self) -> Option<JoinHandle<()>> {
        if self.fault.get().is_some() {
            return self.cut();
        }
        if self.unwritten.load(Ordering::Acquire) > 0 {
            return Some(self.writer);
        }
        self.end()
    }

    /// Closes the connection at once: both threads end.
    pub fn cut(self) -> Option<JoinHandle<()>> {
        let _ = self.stream.shutdown(Shutdown::Both);
        self.end()
    }

    /// Waits for the end of the writer, which no client can put off any more.
    fn end(self) -> Option<JoinHandle<()>> {
        drop(self.replies);
        let _ = self.writer.join();
        None
    }
}

/// Fills the queue until the client has ended or the owner wants no more.
fn read(
    mut stream: &TcpStream,
    mut ends: LineEnds,
    pieces: &SyncSender<Vec<u8>>,
    owner: &Thread,
) -> io::Result<()> {
    let mut buffer = [0; PIECE];
    loop {
        match stream.read(&mut buffer) {
            Ok(0) => return Ok(()),
            Ok(count) => {
                let piece = ends.kept(&buffer[..count]);
                if piece.is_empty() {
                    continue;
                }
                if pieces.send(piece).is_err() {
                    return Ok(());
                }
                owner.unpark();
            }
            Err(error) if error.kind() == ErrorKind::Interrupted => {}
            Err(error) => return Err(error),
        }
    }
}

/// Drains the queue until the owner has left it, or the client takes nothing.
fn write(
    mut stream: &TcpStream,
    replies: &Receiver<Reply>,
    unwritten: &AtomicUsize,
    owner: &Thread,
) -> io::Result<()> {
    let mut bytes = Vec::new();
    while let Ok(first) = replies.recv() {
        bytes.extend_from_slice(first.bytes());
        let mut count = 1;
        for reply in replies.try_iter().take(REPLIES) {
            bytes.extend_from_slice(reply.bytes());
            count += 1;
        }
        stream.write_all(&bytes)?;
        bytes.clear();
        if unwritten.fetch_sub(count, Ordering::AcqRel) >= REPLIES {
            owner.unpark();
        }
    }
    Ok(())
}
