//! Thirty-two clients at once, and one more.

use std::io::Read;
use std::thread;

use super::model::{room_file, Model};
use super::script::{line, Random};
use super::server::{Folder, Server};

const ALL: usize = 32;

/// The connection of each finished line in a log, in order.
fn served(log: &str) -> Vec<usize> {
    let columns = log.lines().map(|line| line.split('\t'));
    let lines = columns.filter(|columns| columns.clone().count() == 7);
    lines
        .map(|mut columns| columns.nth(1).unwrap().parse().unwrap())
        .collect()
}

#[test]
fn each_line_of_32_clients_is_answered_once_and_in_order() {
    let folder = Folder::new("all");
    let room = folder.file("room", room_file(ALL));
    let server = Server::start(&folder, &room, &[]);
    let mut clients: Vec<_> = (0..ALL).map(|_| server.connect()).collect();
    server.await_log("31\topened");
    thread::scope(|scope| {
        for (number, client) in clients.iter_mut().enumerate() {
            let mut model = Model::of(&room);
            scope.spawn(move || {
                let mut random = Random::new(number as u64 + 100);
                for round in 0..20 {
                    let lines: Vec<u8> = (0..30).flat_map(|_| line(&mut random, number)).collect();
                    client.send(&lines);
                    let expected = model.replies(&lines);
                    let replies = client.read(expected.len());
                    assert_eq!(replies, expected, "client {number}, round {round}");
                }
            });
        }
    });
    for client in clients {
        assert_eq!(client.rest(), b"", "a reply too many");
    }
}

/// Whom a server serves that was stopped while each client sent its lines, so
/// that those of all wait when it goes on.
fn served_together(lines: usize) -> Vec<usize> {
    let folder = Folder::new("rounds");
    let room = folder.file("room", room_file(ALL));
    let server = Server::start(&folder, &room, &[]);
    let mut clients: Vec<_> = (0..ALL).map(|_| server.connect()).collect();
    server.await_log("31\topened");
    server.signal("-STOP");
    for (number, client) in clients.iter_mut().enumerate() {
        client.send(format!("GA\"P{number}\">1>1\r").repeat(lines).as_bytes());
    }
    server.signal("-CONT");
    for client in clients {
        let replies = client.rest();
        let ends = replies.iter().filter(|&&byte| byte == b'\r');
        assert_eq!(ends.count(), lines);
    }
    server.await_times(ALL, "\tclosed by the client");
    let served = served(&server.log());
    assert_eq!(served.len(), ALL * lines);
    served
}

/// The turns at which lines of every client wait: from the first turn of the
/// client that is served last on, to the last turn of the one that ends first.
/// No queue of replies is full meanwhile, and the lines of each came at once.
fn together(served: &[usize]) -> &[usize] {
    let first = |number| served.iter().position(|&one| one == number);
    let last = |number| served.iter().rposition(|&one| one == number);
    let start = (0..ALL).filter_map(first).max().expect("turns");
    let end = (0..ALL).filter_map(last).min().expect("turns");
    served.get(start..=end).unwrap_or_default()
}

/// It depends on the system how long the lines of all wait beside each other.
#[test]
fn of_lines_that_came_together_none_waits_more_than_a_round() {
    for attempt in 1..=50 {
        let served = served_together(500);
        let together = together(&served);
        for round in together.windows(ALL) {
            for number in 0..ALL {
                let turns = round.iter().filter(|&&one| one == number).count();
                assert_eq!(turns, 1, "client {number} in {round:?}");
            }
        }
        if together.len() >= 10 * ALL {
            println!("{} turns together, attempt {attempt}", together.len());
            return;
        }
    }
    panic!("the lines of all clients never waited beside each other");
}

#[test]
fn a_33rd_is_closed_at_once_and_logged_and_a_place_that_is_left_is_taken_again() {
    let folder = Folder::new("more");
    let room = folder.file("room", room_file(1));
    let server = Server::start(&folder, &room, &[]);
    let mut clients: Vec<_> = (0..ALL).map(|_| server.connect()).collect();
    server.await_log("31\topened");
    for times in 1..=3 {
        let mut more = server.connect();
        assert_eq!(more.stream.read(&mut [0]).expect("it is closed"), 0);
        let told = "is closed: all 32 connections are taken";
        server.await_times(times, told);
        assert_eq!(server.log().matches(told).count(), times);
    }
    assert!(clients
        .iter_mut()
        .all(|client| client.ask("GA\"P0\">1") == "GA\"P0\">1=0"));
    clients.swap_remove(7).send(b"half a line");
    server.await_log("7\tclosed by the client");
    let mut again = server.connect();
    assert_eq!(again.ask("GA\"P0\">1"), "GA\"P0\">1=0");
    server.await_times(2, "\t7\topened");
    // Once it is told that a client left, the next has its place.
    for times in 1..=30 {
        drop(again);
        server.await_times(times + 1, "\t7\tclosed by the client");
        again = server.connect();
        assert_eq!(again.ask("GA\"P0\">1"), "GA\"P0\">1=0");
    }
}
