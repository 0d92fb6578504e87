//! Lines a second and the wait for a reply, for 1 and 32 clients: the server,
//! with and without a state file, beside a server that sends back each line as
//! it is. All are in one run, on loopback.
//!
//!     cargo bench --offline -p network
//!
//! `EGRIVUNDO_SECONDS` is the time for each case, 3 if not given.

#[allow(dead_code)]
#[path = "../tests/serve/server.rs"]
mod server;

use std::io::{Read, Write};
use std::net::{SocketAddr, TcpListener, TcpStream};
use std::sync::Barrier;
use std::thread;
use std::time::{Duration, Instant};
use std::{array, env};

use server::{Folder, Server};

const MOST: usize = 32;

/// A module for each client, in a room of 32.
fn room_file() -> String {
    let module = |number| format!("module tone-control-eq \"Panel {number}\"\n");
    (0..MOST).map(module).collect()
}

/// What a client sends in turn.
type Lines = fn(usize) -> [String; 2];

fn gets(number: usize) -> [String; 2] {
    array::from_fn(|turn| format!("GA\"Panel {number}\">{}\r", turn + 1))
}

fn sets(number: usize) -> [String; 2] {
    array::from_fn(|turn| format!("SA\"Panel {number}\">1=-{turn}.5\r"))
}

/// The waits of clients that each send a line, read the reply, and go on.
fn waits(address: SocketAddr, clients: usize, lines: Lines, time: Duration) -> Vec<Duration> {
    let barrier = Barrier::new(clients);
    let client = |number| {
        let mut stream = TcpStream::connect(address).expect("it listens");
        stream.set_nodelay(true).expect("no delay");
        let lines = lines(number);
        let (mut waits, mut reply) = (Vec::new(), [0; 64]);
        barrier.wait();
        let start = Instant::now();
        while start.elapsed() < time {
            let line = lines[waits.len() % 2].as_bytes();
            let sent = Instant::now();
            stream.write_all(line).expect("it is sent");
            let mut count = 0;
            while count == 0 || reply[count - 1] != b'\r' {
                let more = stream.read(&mut reply[count..]).expect("a reply");
                assert!(more > 0, "it was closed");
                count += more;
            }
            waits.push(sent.elapsed());
        }
        waits
    };
    thread::scope(|scope| {
        let threads: Vec<_> = (0..clients)
            .map(|number| scope.spawn(move || client(number)))
            .collect();
        let all = threads
            .into_iter()
            .map(|thread| thread.join().expect("it ends"));
        all.flatten().collect()
    })
}

/// Sends back what comes, with a thread for each client.
fn echo() -> SocketAddr {
    let listener = TcpListener::bind("127.0.0.1:0").expect("a port");
    let address = listener.local_addr().expect("an address");
    thread::spawn(move || {
        for stream in listener.incoming() {
            let mut stream = stream.expect("a client");
            thread::spawn(move || {
                stream.set_nodelay(true).expect("no delay");
                let mut bytes = [0; 4096];
                while let Ok(count @ 1..) = stream.read(&mut bytes) {
                    if stream.write_all(&bytes[..count]).is_err() {
                        break;
                    }
                }
            });
        }
    });
    address
}

fn tell(name: &str, address: SocketAddr, lines: Lines, time: Duration) {
    for clients in [1, MOST] {
        // Those of the case before have left by then.
        thread::sleep(Duration::from_millis(300));
        let mut waits = waits(address, clients, lines, time);
        waits.sort();
        let percentile = |part: usize| waits[waits.len() * part / 100].as_nanos() as f64 / 1000.0;
        let rate = waits.len() as f64 / time.as_secs_f64();
        let (half, most) = (percentile(50), percentile(99));
        println!("| {name} | {clients} | {rate:.0} | {half:.0} | {most:.0} |");
    }
}

fn main() {
    let seconds = env::var("EGRIVUNDO_SECONDS").ok();
    let seconds = seconds.map_or(3, |text| text.parse().expect("a number of seconds"));
    let time = Duration::from_secs(seconds);
    let folder = Folder::new("bench");
    let room = folder.file("room", room_file());
    let state = folder.path("state").display().to_string();
    println!("| Server | Clients | Lines a second | Half wait at most, µs | 99 of 100, µs |");
    println!("|---|---|---|---|---|");
    tell("echo", echo(), gets, time);
    let cases: [(&str, &[&str], Lines); 4] = [
        ("`serve`, gets", &[], gets),
        ("`serve`, sets", &[], sets),
        ("`serve --state`, sets", &["--state", &state], sets),
        (
            "`serve --state --sync`, sets",
            &["--state", &state, "--sync"],
            sets,
        ),
    ];
    for (name, options, lines) in cases {
        let server = Server::logging("/dev/null".into(), &room, options);
        tell(name, server.address, lines, time);
    }
}
