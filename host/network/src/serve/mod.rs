//! `egrivundo serve`: the box's control side on a port.
//!
//! Readers fill bounded queues, one owner makes the turns of the proved core,
//! and writers drain bounded queues.

mod connection;
mod line;
mod line_ends;
mod log;
mod named;
pub mod options;
mod outlet;
mod owner;
mod state;
mod state_text;
mod system;

use std::io;
use std::net::TcpListener;
use std::process::ExitCode;
use std::sync::mpsc::{self, SyncSender};
use std::thread::{self, Thread};
use std::time::Duration;

use egrivundo::Room;

use log::Log;
pub use options::Options;
use owner::{Arrival, Owner};
use state::{Found, State};

use crate::words::warn;

/// How many arrivals wait for the owner.
const ARRIVALS: usize = 32;

/// Serves until it is told to end.
pub fn run(options: Options) -> ExitCode {
    match serve(options) {
        Ok(()) => ExitCode::SUCCESS,
        Err(message) => {
            warn(message);
            ExitCode::FAILURE
        }
    }
}

fn serve(options: Options) -> Result<(), String> {
    let mut room = files::read_room(&options.room)?;
    let named = |error: io::Error| format!("{}: {error}", options.listen);
    let listener = TcpListener::bind(&options.listen).map_err(named)?;
    let address = listener.local_addr().map_err(named)?;
    let mut log = Log::of(&room);
    // A server that cannot listen leaves the state as it is.
    let state = match options.state {
        Some(path) => {
            let state = State::open(path, &options.room, options.sync)?;
            Some(start_state(state, &mut room, &mut log)?)
        }
        None => None,
    };
    system::catch_signals();
    let (sender, arrivals) = mpsc::sync_channel(ARRIVALS);
    let owner = thread::current();
    thread::spawn(move || accept(&listener, &sender, &owner));
    warn(format_args!(
        "Listening on {address}. The protocol has no password: \
         whoever reaches it can change the sound."
    ));
    if address.ip().is_loopback() {
        warn(format_args!(
            "Only this machine does; --listen ADDRESS:PORT lets others in."
        ));
    }
    log.server(format!("listening on {address}"));
    log.flush();
    Owner::new(room, state, log, options.crlf).serve(&arrivals)
}

/// Takes the values of the state file, and writes one in any case, so that a
/// file that cannot be written is told now.
fn start_state(mut state: State, room: &mut Room, log: &mut Log) -> Result<State, String> {
    let name = state.name();
    let found = state.read(room);
    match found.map_err(|error| format!("{name}: {error}"))? {
        Found::Values(kept) => *room = kept,
        Found::Nothing => {}
        Found::Bad(why) => {
            let aside = state.put_aside();
            let aside = aside.map_err(|error| format!("{name}: {error}"))?;
            let told = format!(
                "{name} is not used: {why}. It is kept as {}; \
                 the values are those of the room file.",
                aside.display()
            );
            warn(&told);
            log.server(told);
        }
    }
    state.write(room)?;
    Ok(state)
}

/// Hands each arrival to the owner, and of errors that follow each other the
/// first, for the log.
fn accept(listener: &TcpListener, arrivals: &SyncSender<Arrival>, owner: &Thread) {
    let mut failed = false;
    for arrival in listener.incoming() {
        let fails = arrival.is_err();
        if !(fails && failed) {
            if arrivals.send(arrival).is_err() {
                return;
            }
            owner.unpark();
        }
        failed = fails;
        if failed {
            // Out of file descriptors, say: it may pass.
            thread::sleep(Duration::from_millis(100));
        }
    }
}
