//! `egrivundo shell`: lines typed to a box, and its replies in words.

mod awaited;

use std::ffi::OsString;
use std::io::{self, BufRead, IsTerminal, Write};
use std::process;
use std::sync::mpsc::{channel, Receiver, RecvTimeoutError, Sender};
use std::sync::{Arc, Mutex, MutexGuard, PoisonError};
use std::thread;
use std::time::Duration;

use files::words::counted;

use crate::client::{self, nak, Address, Link, Lost, Said};
use crate::status::{End, NETWORK, REFUSED};
use crate::words::{print, warn, Words};
use awaited::Awaited;

pub const HELP: &str = include_str!("help.txt");

/// Told when a reply was shown, or when there will be none.
type Shown = Result<(), Lost>;

/// The reply that is waited for, if any; whoever shows what the box says takes
/// it.
type Waits = Arc<Mutex<Option<Awaited>>>;

#[derive(Debug, PartialEq, Eq)]
pub struct Options {
    address: Address,
    limit: Duration,
}

/// The options; nothing where help is asked for.
pub fn read(words: Vec<OsString>) -> Result<Option<Options>, String> {
    let Some(words) = Words::sort(words, &[], &["--timeout"])? else {
        return Ok(None);
    };
    let [host] = &words.plain[..] else {
        let given = counted(words.plain.len(), "word");
        return Err(format!("one host is needed ({given} given)"));
    };
    let (address, limit) = client::named(host, &words)?;
    Ok(Some(Options { address, limit }))
}

pub fn run(options: Options) -> Result<(), End> {
    let network = |lost: Lost| End(NETWORK, lost.to_string());
    let link = Link::open(&options.address, options.limit).map_err(network)?;
    let mut sender = link.sender().map_err(|error| network(error.into()))?;
    let (shown, replies) = channel();
    let waits = Waits::default();
    let waits_too = Arc::clone(&waits);
    thread::spawn(move || show(link, &waits_too, &shown));

    let typed = io::stdin().is_terminal();
    if typed {
        let address = &options.address;
        warn(format_args!(
            "Connected to {address}. Enter sends a line, Ctrl-D ends."
        ));
    }
    for line in io::stdin().lock().split(b'\n') {
        let unread = |error| End(REFUSED, format!("standard input: {error}"));
        let mut line = line.map_err(unread)?;
        if line.last() == Some(&b'\r') {
            line.pop();
        }
        *held(&waits) = Some(Awaited::of(&line));
        line.push(b'\r');
        let sent = sender.write_all(&line);
        sent.map_err(|error| network(error.into()))?;
        match answered(&replies, options.limit) {
            Err(late @ Lost::Time(_)) if typed => give_up(&waits, &replies, &late),
            shown => shown.map_err(network)?,
        }
    }
    Ok(())
}

/// Says that a line has no reply, and waits for it no more: what still comes is
/// news. In this very moment it may have come.
fn give_up(waits: &Waits, replies: &Receiver<Shown>, late: &Lost) {
    let waited = held(waits).take().is_some();
    match waited {
        true => warn(late),
        false => drop(replies.recv()),
    }
}

fn held(waits: &Waits) -> MutexGuard<'_, Option<Awaited>> {
    waits.lock().unwrap_or_else(PoisonError::into_inner)
}

/// Waits until the reply to a line is shown.
fn answered(replies: &Receiver<Shown>, limit: Duration) -> Shown {
    match replies.recv_timeout(limit) {
        Ok(shown) => shown,
        Err(RecvTimeoutError::Timeout) => Err(Lost::Time(limit)),
        Err(RecvTimeoutError::Disconnected) => {
            Err(Lost::Broken("the connection is closed".to_string()))
        }
    }
}

/// Shows what the box says, as long as it says something, and tells of each
/// reply.
fn show(mut link: Link, waits: &Waits, shown: &Sender<Shown>) {
    loop {
        match link.said(None) {
            Ok(said) => {
                let reply = held(waits).take_if(|awaited| awaited.is(&said)).is_some();
                let news = match reply {
                    true => "",
                    false => "news: ",
                };
                print(&format!("{news}{}\n", words(&said)));
                if reply {
                    let _ = shown.send(Ok(()));
                }
            }
            Err(lost) => {
                // Nobody may wait for it: the person is still typing.
                if io::stdin().is_terminal() {
                    warn(lost);
                    process::exit(NETWORK.into());
                }
                let _ = shown.send(Err(lost));
                return;
            }
        }
    }
}

/// A reply in words; no byte of it is left that a terminal would obey.
fn words(said: &Said) -> String {
    match said {
        Said::Ack => "ACK".to_string(),
        Said::Nak(code) => nak(code),
        Said::Value { label, index, text } => {
            let (label, text) = (label.escape_default(), text.escape_default());
            format!("GA\"{label}\">{index}={text}")
        }
        Said::Other(text) => text.escape_default().to_string(),
    }
}

#[cfg(test)]
mod tests {
    use super::*;

    #[test]
    fn replies_in_words() {
        for (line, text) in [
            (&b"\x06"[..], "ACK"),
            (b"\x1503", "NAK 03: the value is not permitted"),
            (b"GA\"T\">1=-4", "GA\"T\">1=-4"),
            (b"GA\"T\">1=\x1b[2J", "GA\"T\">1=\\u{1b}[2J"),
            (b"\x07GS 1", "\\u{7}GS 1"),
        ] {
            assert_eq!(words(&Said::read(line)), text);
        }
    }
}
