//! `kill -9` under traffic: every acknowledged set is there at the next start.

use std::io::{Read, Write};
use std::path::Path;
use std::sync::atomic::{AtomicUsize, Ordering};
use std::thread;
use std::time::{Duration, Instant};

use super::server::{Client, Folder, Server, PATIENCE};

const CLIENTS: usize = 4;
/// The levels of a Tone Control EQ.
const LEVELS: [usize; 3] = [1, 3, 5];

const ROOM: &str = "module tone-control-eq \"P0\"\nmodule tone-control-eq \"P1\"\n\
                    module tone-control-eq \"P2\"\nmodule tone-control-eq \"P3\"\n";

/// What a client knows of one level: the value acknowledged last, and the one
/// sent last.
#[derive(Clone, Copy, Default)]
struct Known {
    acknowledged: i64,
    sent: i64,
}

/// Sets one level after the other until the server is gone, and counts what
/// was acknowledged.
fn traffic(mut client: Client, number: usize, known: &mut [Known; 3], count: &AtomicUsize) {
    for level in (0..LEVELS.len()).cycle() {
        let value = (known[level].sent + 7) % 15;
        known[level].sent = value;
        let line = format!("SA\"P{number}\">{}=-{value}\r", LEVELS[level]);
        let mut reply = [0; 2];
        let asked = client.stream.write_all(line.as_bytes());
        if asked
            .and_then(|()| client.stream.read_exact(&mut reply))
            .is_err()
        {
            return;
        }
        assert_eq!(&reply, b"\x06\r");
        known[level].acknowledged = value;
        count.fetch_add(1, Ordering::Relaxed);
    }
}

/// Kills the server so many times, each time after some more sets.
fn killed(name: &str, options: &[&str], times: usize) {
    let folder = Folder::new(name);
    let room = folder.file("room", ROOM);
    let state = folder.path("state");
    let options = [&["--state", path(&state)], options].concat();
    let mut known = [[Known::default(); 3]; CLIENTS];
    let mut acknowledged = 0;
    for time in 0..times {
        let mut server = Server::start(&folder, &room, &options);
        assert_eq!(server.said, "");
        check(&server, &mut known);
        let clients: Vec<Client> = (0..CLIENTS).map(|_| server.connect()).collect();
        let (count, wanted) = (AtomicUsize::new(0), 30 + 13 * time);
        thread::scope(|scope| {
            for (client, (number, known)) in clients.into_iter().zip(known.iter_mut().enumerate()) {
                let count = &count;
                scope.spawn(move || traffic(client, number, known, count));
            }
            let start = Instant::now();
            while count.load(Ordering::Relaxed) < wanted && start.elapsed() < PATIENCE {
                thread::sleep(Duration::from_millis(1));
            }
            server.kill();
        });
        let count = count.into_inner();
        assert!(count >= wanted, "{count} of {wanted} sets");
        acknowledged += count;
    }
    let server = Server::start(&folder, &room, &options);
    check(&server, &mut known);
    println!("{name}: {acknowledged} sets acknowledged, {times} kills, none lost");
}

/// Each level is as acknowledged last, or as sent after it.
fn check(server: &Server, known: &mut [[Known; 3]; CLIENTS]) {
    let mut client = server.connect();
    for (number, levels) in known.iter_mut().enumerate() {
        for (index, level) in LEVELS.into_iter().zip(levels) {
            let reply = client.ask(&format!("GA\"P{number}\">{index}"));
            let (_, value) = reply.rsplit_once('=').expect("a value");
            let value = -value.parse::<i64>().expect("whole dB");
            let expected = [level.acknowledged, level.sent];
            assert!(expected.contains(&value), "{reply}, not {expected:?}");
            *level = Known {
                acknowledged: value,
                sent: value,
            };
        }
    }
}

fn path(path: &Path) -> &str {
    path.to_str().expect("a path in UTF-8")
}

#[test]
fn no_acknowledged_set_is_lost() {
    killed("killed", &[], 12);
}

#[test]
fn no_acknowledged_set_is_lost_with_sync() {
    killed("killed-sync", &["--sync"], 4);
}
