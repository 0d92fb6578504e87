//! More that arrive than can be taken.

use std::collections::VecDeque;
use std::fs;
use std::io::Read;
use std::net::{Shutdown, SocketAddr, TcpStream};
use std::sync::atomic::{AtomicUsize, Ordering};
use std::thread;
use std::time::{Duration, Instant};

use super::model::room_file;
use super::server::{Folder, Server, PATIENCE};
use super::slow::WAIT;

const FLOODS: usize = 4;
/// How many of a flood's connections wait at once; all of them are fewer than
/// the system lets wait.
const WAITING: usize = 24;
/// How many lines a client sends together.
const LINES: usize = 100;

/// Connects and leaves until the server is gone, and counts what it has closed.
fn flood(address: SocketAddr, count: &AtomicUsize) {
    let mut open = VecDeque::new();
    let start = Instant::now();
    while start.elapsed() < 3 * PATIENCE {
        let Ok(stream) = TcpStream::connect_timeout(&address, PATIENCE) else {
            return;
        };
        stream.set_read_timeout(Some(PATIENCE)).expect("a time");
        let _ = stream.shutdown(Shutdown::Write);
        open.push_back(stream);
        if open.len() == WAITING {
            let _ = open.pop_front().expect("the first").read(&mut [0]);
            count.fetch_add(1, Ordering::Relaxed);
        }
    }
}

/// The most arrivals in a log between two lines that came together.
fn most_between(log: &str) -> usize {
    let (mut lines, mut arrivals, mut most) = (0, 0, 0);
    for line in log.lines() {
        if line.contains("\topened by ") || line.contains(" connections are taken") {
            arrivals += 1;
        } else if line.split('\t').count() == 7 {
            if lines % LINES > 0 {
                most = most.max(arrivals);
            }
            (lines, arrivals) = (lines + 1, 0);
        }
    }
    most
}

#[test]
fn a_flood_of_connections_holds_up_neither_a_client_nor_the_end() {
    let folder = Folder::new("flood");
    let room = folder.file("room", room_file(1));
    let server = Server::start(&folder, &room, &[]);
    let mut client = server.connect();
    let lines = "GA\"P0\">1\r".repeat(LINES);
    let replies = "GA\"P0\">1=0\r".repeat(LINES);
    let (address, count) = (server.address, AtomicUsize::new(0));
    thread::scope(|scope| {
        for _ in 0..FLOODS {
            scope.spawn(|| flood(address, &count));
        }
        let begin = Instant::now();
        while count.load(Ordering::Relaxed) < 4000 && begin.elapsed() < PATIENCE {
            let start = Instant::now();
            client.send(lines.as_bytes());
            assert!(client.read(replies.len()) == replies.as_bytes());
            assert!(start.elapsed() < WAIT, "waited {:?}", start.elapsed());
        }
        let start = Instant::now();
        server.signal("-TERM");
        assert_eq!(server.ended().0, Some(0));
        assert!(start.elapsed() < WAIT, "ended after {:?}", start.elapsed());
    });
    let log = fs::read_to_string(folder.path("log")).expect("the log is text");
    let most = most_between(&log);
    println!("{count:?} closed, at most {most} arrivals between two lines");
    assert!(most <= 32, "{most} arrivals between two lines");
}

/// A server with few descriptors beside those that it is started with; each
/// connection takes one.
#[test]
fn connections_that_cannot_be_taken_are_told_once_and_taken_later() {
    let folder = Folder::new("descriptors");
    let room = folder.file("room", room_file(1));
    let limit = "ulimit -n $(($(ls /proc/$$/fd | wc -l) + 20)); exec \"$0\" \"$@\"";
    let few = ["sh", "-c", limit];
    let server = Server::started_by(&few, folder.path("log"), &room, &[]);
    let mut clients: Vec<_> = (0..30).map(|_| server.connect()).collect();
    let told = "-\ta connection could not be taken: Too many open files";
    server.await_log(told);
    thread::sleep(Duration::from_millis(500));
    let log = server.log();
    assert_eq!(log.matches(told).count(), 1, "{log}");
    let opened = log.matches("\topened by ").count();
    assert!(opened > 10, "{opened} connections");
    assert_eq!(clients[0].ask("GA\"P0\">1"), "GA\"P0\">1=0");
    clients.drain(..20);
    for mut client in clients {
        assert_eq!(client.ask("GA\"P0\">1"), "GA\"P0\">1=0");
    }
}
