//! Random bytes for a minute.

use std::env;
use std::thread;
use std::time::{Duration, Instant};

use super::model::{room_file, Model};
use super::script::{line, Random};
use super::server::{Folder, Server};

const CLIENTS: usize = 4;

/// `EGRIVUNDO_SECONDS`, or a minute.
fn time() -> Duration {
    let seconds = env::var("EGRIVUNDO_SECONDS").ok();
    let seconds = seconds.map(|text| text.parse().expect("a number of seconds"));
    Duration::from_secs(seconds.unwrap_or(60))
}

/// Bytes of any kind, of the protocol's kind, or lines with some bytes changed.
/// No digit is put where it could make the label another client's.
fn bytes(random: &mut Random, client: usize) -> Vec<u8> {
    let count = random.below(100);
    match random.below(3) {
        0 => (0..count).map(|_| random.byte()).collect(),
        1 => {
            let letters = format!("SAG\"P{client}\r\r\n =>OF5T-9.(,)");
            (0..count).map(|_| *random.of(letters.as_bytes())).collect()
        }
        _ => {
            let mut lines = [line(random, client), line(random, client)].concat();
            for _ in 0..random.below(3) {
                let (place, byte) = (random.below(lines.len()), random.byte());
                if !byte.is_ascii_digit() {
                    lines[place] = byte;
                }
            }
            lines
        }
    }
}

#[test]
fn for_a_minute_are_answered_as_by_the_reference() {
    let folder = Folder::new("random");
    let room = folder.file("room", room_file(CLIENTS));
    let options = ["--state", &folder.path("state").display().to_string()];
    let server = Server::logging("/dev/null".into(), &room, &options);
    let start = Instant::now();
    let seed = u64::from(std::process::id());
    println!("seed {seed}");
    thread::scope(|scope| {
        for number in 0..CLIENTS {
            let (server, mut model) = (&server, Model::of(&room));
            scope.spawn(move || {
                let mut random = Random::new(seed + number as u64);
                let mut client = server.connect();
                let mut sent = 0;
                while start.elapsed() < time() {
                    let given = bytes(&mut random, number);
                    client.send(&given);
                    let expected = model.replies(&given);
                    let replies = client.read(expected.len());
                    assert_eq!(
                        replies,
                        expected,
                        "client {number}: {}",
                        given.escape_ascii()
                    );
                    sent += given.len();
                    // Now and then it leaves in the middle of a line.
                    if random.below(500) == 0 {
                        assert_eq!(client.rest(), b"");
                        client = server.connect();
                        model.reopen();
                    }
                }
                println!("client {number}: {sent} bytes");
            });
        }
    });
}
