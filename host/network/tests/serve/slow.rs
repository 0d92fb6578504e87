//! Clients that are slow, silent or never end their line, beside others.

use std::fs;
use std::io::Write;
use std::net::SocketAddr;
use std::thread;
use std::time::{Duration, Instant};

use super::model::room_file;
use super::server::{Client, Folder, Server, PATIENCE};

/// No reply beside another client's doings may take so long.
pub const WAIT: Duration = Duration::from_secs(10);
/// The most memory that a server may ever have, in KiB.
const MEMORY: usize = 64 << 10;

/// Asks once; tells how long it took.
fn ask_in_time(client: &mut Client) -> Duration {
    let start = Instant::now();
    assert_eq!(client.ask("GA\"P0\">1"), "GA\"P0\">1=0");
    let waited = start.elapsed();
    assert!(waited < WAIT, "waited {waited:?}");
    waited
}

/// Asks again and again until something is over; tells how often.
pub fn ask_beside(client: &mut Client, over: impl Fn() -> bool) -> usize {
    let mut asked = 0;
    let begin = Instant::now();
    let mut worst = Duration::ZERO;
    while !over() {
        worst = worst.max(ask_in_time(client));
        asked += 1;
    }
    let time = begin.elapsed();
    println!("{asked} lines asked beside in {time:?}, the longest wait {worst:?}");
    asked
}

fn small(server: &Server) {
    let peak = server.peak();
    assert!(peak < MEMORY, "{peak} KiB");
    println!("{peak} KiB of memory at most");
}

#[test]
fn a_client_that_never_reads_is_closed_and_holds_up_nobody() {
    let folder = Folder::new("unread");
    let room = folder.file("room", room_file(1));
    let server = Server::start(&folder, &room, &[]);
    let mut other = server.connect();
    assert_eq!(other.ask("GA\"P0\">1"), "GA\"P0\">1=0");
    let mut unread = server.connect();
    let sender = thread::spawn(move || {
        let lines = "GA\"P0\">1\r".repeat(100);
        let mut sent = 0;
        while unread.stream.write_all(lines.as_bytes()).is_ok() {
            sent += 100;
        }
        sent
    });
    let asked = ask_beside(&mut other, || sender.is_finished());
    let sent = sender.join().expect("it ends");
    assert!(asked > 10, "only {asked} asked beside");
    assert!(sent > 512, "only {sent} lines were sent");
    small(&server);
    server.await_log("1\tclosed: 512 replies have waited for a second");
    // Its place is free.
    let mut next = server.connect();
    assert_eq!(next.ask("GA\"P0\">1"), "GA\"P0\">1=0");
    server.await_times(2, "\t1\topened");
}

#[test]
fn silent_clients_and_half_lines_hold_up_nobody() {
    let folder = Folder::new("silent");
    let room = folder.file("room", room_file(1));
    let server = Server::start(&folder, &room, &[]);
    let mut silent: Vec<_> = (0..31).map(|_| server.connect()).collect();
    for client in silent.iter_mut().step_by(2) {
        client.send(b"GA\"P0\"");
    }
    let mut other = server.connect();
    for _ in 0..1000 {
        ask_in_time(&mut other);
    }
    for client in silent.iter_mut().step_by(2) {
        assert_eq!(client.ask(">1"), "GA\"P0\">1=0");
    }
}

#[test]
fn two_gigabytes_without_a_carriage_return_are_one_line_and_hold_up_nobody() {
    let folder = Folder::new("endless");
    let room = folder.file("room", room_file(1));
    let server = Server::start(&folder, &room, &[]);
    let mut other = server.connect();
    assert_eq!(other.ask("GA\"P0\">1"), "GA\"P0\">1=0");
    let mut endless = server.connect();
    let sender = thread::spawn(move || {
        let piece = vec![b'x'; 1 << 20];
        for _ in 0..2048 {
            endless.send(&piece);
        }
        // One reply, and then the port is fresh.
        assert_eq!(endless.ask(""), "\x1599");
        assert_eq!(endless.ask("GA\"P0\">1"), "GA\"P0\">1=0");
    });
    let asked = ask_beside(&mut other, || sender.is_finished());
    sender.join().expect("it is answered");
    assert!(asked > 10, "only {asked} asked beside");
    small(&server);
    server.await_log("xx.. (2147483648 bytes)\tNAK 99, overrun: byte 64 is one too many");
}

#[test]
fn a_client_that_sends_much_at_once_and_reads_is_never_closed() {
    let folder = Folder::new("much");
    let room = folder.file("room", room_file(1));
    let server = Server::start(&folder, &room, &[]);
    let mut client = server.connect();
    let mut sender = client.stream.try_clone().expect("a second handle");
    let (line, reply, count) = ("GA\"P0\">1\r", "GA\"P0\">1=0\r", 100_000);
    let sending = thread::spawn(move || sender.write_all(line.repeat(count).as_bytes()));
    assert!(client.read(count * reply.len()) == reply.repeat(count).as_bytes());
    sending.join().expect("it ends").expect("all is sent");
    assert_eq!(client.rest(), b"");
}

/// Who leaves with a reply unread resets the connection.
#[test]
fn a_connection_that_ended_by_an_error_is_logged_with_its_words() {
    let folder = Folder::new("reset");
    let room = folder.file("room", room_file(1));
    let server = Server::start(&folder, &room, &[]);
    let mut client = server.connect();
    client.send(b"GA\"P0\">1\r");
    client.stream.peek(&mut [0]).expect("a reply comes");
    drop(client);
    server.await_log("0\tclosed: Connection reset by peer");
    assert!(!server.log().contains("closed by the client"));
}

/// A peer that is gone without a word is found by the system, which asks it from
/// time to time: `/proc/net/tcp` has timer 2 for the server's side.
#[test]
fn silent_peers_are_asked_whether_they_are_there() {
    let folder = Folder::new("asked");
    let room = folder.file("room", room_file(1));
    let server = Server::start(&folder, &room, &[]);
    let mut client = server.connect();
    assert_eq!(client.ask("GA\"P0\">1"), "GA\"P0\">1=0");
    let port = |address: SocketAddr| format!("0100007F:{:04X}", address.port());
    let local = client.stream.local_addr().expect("an address");
    let (here, there) = (port(server.address), port(local));
    let timer = || {
        let sockets = fs::read_to_string("/proc/net/tcp").expect("a table");
        let mut rows = sockets
            .lines()
            .map(|line| line.split_whitespace().collect::<Vec<_>>());
        let row = rows.find(|columns| columns[1] == here && columns[2] == there);
        row.expect("the connection")[5].to_string()
    };
    // Until the client's system has confirmed the reply, another timer runs.
    let start = Instant::now();
    while !timer().starts_with("02:") {
        assert!(start.elapsed() < PATIENCE, "timer {}", timer());
        thread::sleep(Duration::from_millis(10));
    }
}
