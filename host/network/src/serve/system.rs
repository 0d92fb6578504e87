//! What std has no call for: signals, and a question to peers that are silent.
//! This is the one place of the program with unsafe code.
#![allow(unsafe_code)]

use std::ffi::{c_int, c_uint, c_void};
use std::io;
use std::net::TcpStream;
use std::os::fd::AsRawFd;
use std::sync::atomic::{AtomicI32, Ordering};

// The numbers are those of Linux.
const SIGINT: c_int = 2;
const SIGTERM: c_int = 15;
/// What the system does with a signal by itself, and that it is ignored.
const DEFAULT: usize = 0;
const IGNORE: usize = 1;

/// Level, option and value: ask a peer that was silent for a minute, each ten
/// seconds, and give it up after six questions; and give up one whose system
/// confirms no byte of a reply for two minutes.
const KEEP_ALIVE: [[c_int; 3]; 5] = [
    [1, 9, 1],
    [6, 4, 60],
    [6, 5, 10],
    [6, 6, 6],
    [6, 18, 120_000],
];

static CAUGHT: AtomicI32 = AtomicI32::new(0);

extern "C" {
    fn signal(number: c_int, handler: usize) -> usize;
    fn setsockopt(
        socket: c_int,
        level: c_int,
        option: c_int,
        value: *const c_void,
        length: c_uint,
    ) -> c_int;
}

/// Notes the signal; a second one ends the program at once.
extern "C" fn note(number: c_int) {
    CAUGHT.store(number, Ordering::Relaxed);
    // Safety: `signal` may be called in a handler.
    unsafe { signal(number, DEFAULT) };
}

/// From now on SIGTERM and Ctrl-C are noted; Ctrl-C that was ignored stays so, as
/// of a server in the background of a script.
pub fn catch_signals() {
    let handler = note as extern "C" fn(c_int) as usize;
    // Safety: the handler only stores a number and calls `signal`.
    unsafe {
        if signal(SIGINT, IGNORE) != IGNORE {
            signal(SIGINT, handler);
        }
        signal(SIGTERM, handler);
    }
}

/// The signal that came.
pub fn caught() -> Option<&'static str> {
    match CAUGHT.load(Ordering::Relaxed) {
        0 => None,
        SIGINT => Some("Ctrl-C"),
        _ => Some("SIGTERM"),
    }
}

/// Lets the system find out where a peer is gone without a word.
pub fn keep_alive(stream: &TcpStream) -> io::Result<()> {
    for [level, option, value] in KEEP_ALIVE {
        let length = size_of::<c_int>() as c_uint;
        let value: *const c_int = &value;
        // Safety: the value is an int and lives through the call.
        let answer = unsafe { setsockopt(stream.as_raw_fd(), level, option, value.cast(), length) };
        if answer != 0 {
            return Err(io::Error::last_os_error());
        }
    }
    Ok(())
}

#[cfg(test)]
mod tests {
    use super::*;
    use std::net::TcpListener;

    extern "C" {
        fn getsockopt(
            socket: c_int,
            level: c_int,
            option: c_int,
            value: *mut c_void,
            length: *mut c_uint,
        ) -> c_int;
    }

    #[test]
    fn the_system_has_the_times() {
        let listener = TcpListener::bind("127.0.0.1:0").unwrap();
        let stream = TcpStream::connect(listener.local_addr().unwrap()).unwrap();
        keep_alive(&stream).unwrap();
        for [level, option, expected] in KEEP_ALIVE {
            let (mut value, mut length): (c_int, _) = (0, size_of::<c_int>() as c_uint);
            let place: *mut c_int = &mut value;
            let socket = stream.as_raw_fd();
            // Safety: the value is an int, and both live through the call.
            let answer = unsafe { getsockopt(socket, level, option, place.cast(), &mut length) };
            assert_eq!((answer, value), (0, expected), "option {option}");
        }
    }
}
