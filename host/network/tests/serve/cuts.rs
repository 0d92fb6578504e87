//! Packets cut at every byte, and line ends.

use std::thread;
use std::time::Duration;

use super::model::{room_file, Model};
use super::script::{line, Random};
use super::server::{Folder, Server};

/// Lines of three clients' modules, with an overrun among them.
fn lines() -> Vec<u8> {
    let mut random = Random::new(1);
    let mut bytes: Vec<u8> = (0..12)
        .flat_map(|number| line(&mut random, number % 4))
        .collect();
    bytes.extend(b"GA\"P0\">1\n\r\rSA\"P0\">1=5\r");
    bytes.extend([b'x'; 65]);
    bytes.extend(b"\rGA\"P0\">1\r");
    bytes
}

/// Before the first part goes a whole line, in the same packet: its reply shows
/// that the server has read that part when the second is sent.
#[test]
fn a_packet_cut_at_every_byte_is_answered_as_a_whole_one() {
    let folder = Folder::new("cuts");
    let room = folder.file("room", room_file(4));
    let server = Server::start(&folder, &room, &[]);
    let mut model = Model::of(&room);
    let lines = lines();
    for cut in 1..lines.len() {
        let mut client = server.connect();
        let (first, second) = lines.split_at(cut);
        for part in [[b"GA\"P0\">1\r", first].concat(), second.to_vec()] {
            client.send(&part);
            let expected = model.replies(&part);
            let replies = client.read(expected.len());
            assert_eq!(replies, expected, "cut at {cut}");
        }
        assert_eq!(client.rest(), b"", "cut at {cut}");
    }
}

#[test]
fn single_bytes_are_answered_as_a_whole_packet() {
    let folder = Folder::new("single");
    let room = folder.file("room", room_file(4));
    let server = Server::start(&folder, &room, &[]);
    let mut client = server.connect();
    let lines = lines();
    for byte in &lines {
        client.send(&[*byte]);
        thread::sleep(Duration::from_micros(200));
    }
    assert_eq!(client.rest(), Model::of(&room).replies(&lines));
}

#[test]
fn a_client_that_ends_at_once_gets_its_replies_and_no_unfinished_line_counts() {
    let folder = Folder::new("half");
    let room = folder.file("room", room_file(1));
    let server = Server::start(&folder, &room, &[]);
    let mut first = server.connect();
    first.send(b"SA\"P0\">1=3\rSA\"P0\">1=4");
    assert_eq!(first.rest(), b"\x06\r");
    // The place is fresh for the next.
    let mut second = server.connect();
    assert_eq!(second.ask("GA\"P0\">1"), "GA\"P0\">1=3");
}

#[test]
fn a_line_feed_is_dropped_only_behind_a_carriage_return_and_only_if_asked() {
    let folder = Folder::new("ends");
    let room = folder.file("room", room_file(1));
    let given = b"SA\"P0\">1=3\r\nGA\"P0\">1\r\n\nGA\"P0\">1\r\n";
    for (options, kept) in [
        (
            &["--line-ends", "crlf"][..],
            &b"SA\"P0\">1=3\rGA\"P0\">1\r\nGA\"P0\">1\r"[..],
        ),
        (&["--line-ends", "cr"], given),
        (&[], given),
    ] {
        let server = Server::start(&folder, &room, options);
        let mut client = server.connect();
        for piece in given.chunks(7) {
            client.send(piece);
            thread::sleep(Duration::from_millis(2));
        }
        assert_eq!(client.rest(), Model::of(&room).replies(kept), "{options:?}");
    }
}
