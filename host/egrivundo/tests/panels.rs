//! Thirty-two connections, over the archive.

use std::collections::VecDeque;

use egrivundo::{Cause, Panels, Refusal, Room, Type, Wish};

const NONE: [&[u8]; 32] = [b""; 32];

fn room() -> Room {
    Room::new(&[(Type::ToneControlEq, "T"), (Type::SmartBass, "S")]).unwrap()
}

fn with(open: impl IntoIterator<Item = usize>) -> Panels {
    let mut panels = Panels::new();
    for number in open {
        panels.open(number).unwrap();
    }
    panels
}

#[test]
fn opening_and_closing() {
    let mut panels = Panels::new();
    for number in 0..32 {
        assert_eq!(panels.close(number), Err(Refusal::Connections));
        panels.open(number).unwrap();
        assert_eq!(panels.open(number), Err(Refusal::Connections));
        assert!((0..32).all(|other| panels.is_open(other) == (other <= number)));
    }
    for number in [32, 33, 256, 1 << 32, usize::MAX] {
        assert_eq!(panels.open(number), Err(Refusal::Connections));
        assert_eq!(panels.close(number), Err(Refusal::Connections));
    }
    // The unfinished line goes with the connection, and with no other.
    let mut room = room();
    let mut queues = NONE;
    queues[6] = b"GA\"T";
    queues[9] = b"GA\"S";
    for number in [6, 9] {
        let turned = panels.turn_of(&mut room, &queues).unwrap().unwrap();
        assert_eq!((turned.number, turned.consumed), (number, 4));
        assert!(turned.reply.is_empty());
        queues[number] = b"";
    }
    assert_eq!(panels.held(6), b"GA\"T");
    panels.close(6).unwrap();
    panels.open(6).unwrap();
    assert!(panels.port(6).is_fresh());
    assert_eq!(panels.held(9), b"GA\"S");
    assert_eq!(panels.last_served(), 9);
}

#[test]
fn whose_turn_it_is() {
    let mut room = room();
    let mut panels = with([0, 5, 31]);
    let queues: [&[u8]; 32] = [b"\r"; 32];
    for expected in [0, 5, 31, 0, 5, 31] {
        let turned = panels.turn_of(&mut room, &queues).unwrap().unwrap();
        assert_eq!(turned.number, expected);
        assert_eq!(turned.reply.nak(), Some("99"));
        assert_eq!(turned.reply.fault().unwrap().cause, Cause::NoVerb);
        assert_eq!(panels.last_served(), expected);
    }
    // Nobody waits: the last served stays, and the next is the one after it.
    panels.close(0).unwrap();
    assert_eq!(panels.turn_of(&mut room, &NONE), Ok(None));
    assert_eq!(panels.last_served(), 31);
    let turned = panels.turn_of(&mut room, &queues).unwrap().unwrap();
    assert_eq!(turned.number, 5);
}

#[test]
fn refusals() {
    let mut room = room();
    let mut panels = with([3]);
    let mut counts = [0; 32];
    counts[3] = 5;
    for bytes in [&b"\r\r\r\r"[..], b"\r\r\r\r\r\r", b""] {
        let turned = panels.turn(&mut room, bytes, &counts);
        assert_eq!(turned, Err(Refusal::Connections));
    }
    // These wrap to the right sum.
    counts[0] = u64::MAX;
    counts[1] = 1;
    let turned = panels.turn(&mut room, b"\r\r\r\r\r", &counts);
    assert_eq!(turned, Err(Refusal::Connections));
    assert_eq!(panels.last_served(), 31);
    assert!(Refusal::Connections
        .to_string()
        .starts_with("refused with 10: "));
}

#[test]
fn a_list_over_one_connection() {
    let mut room = room();
    let wish = Wish::from_present(&room).set("T", "1", -40).unwrap();
    let list = wish.set("S", 1, 1).unwrap().list().unwrap();
    let mut panels = with([12, 20]);
    let mut queues = NONE;
    queues[2] = b"SA\"T\">3=1\r";
    queues[12] = list.bytes();
    let mut acks = 0;
    while let Some(turned) = panels.turn_of(&mut room, &queues).unwrap() {
        assert!(turned.number == 12 && turned.reply.is_ack());
        queues[12] = &queues[12][turned.consumed..];
        acks += 1;
    }
    assert_eq!(acks, 2);
    assert_eq!(room.values(), [-40, 0, 0, 0, 0, 0, 1]);
    assert!(panels.port(12).is_fresh());
}

#[test]
fn queues_as_a_server_keeps_them() {
    // Each line is answered once, and in order; a round has each once.
    let mut room = room();
    let mut panels = with(0..32);
    let line = |number: usize, round: usize| format!("SA\"T\">1={}\r", (number + round) % 15);
    let mut queues: [VecDeque<u8>; 32] = std::array::from_fn(|number| {
        (0..3)
            .flat_map(|round| line(number, round).into_bytes())
            .collect()
    });
    for (round, number) in (0..3).flat_map(|round| (0..32).map(move |number| (round, number))) {
        let waiting = queues.each_mut().map(|queue| &*queue.make_contiguous());
        let turned = panels.turn_of(&mut room, &waiting).unwrap().unwrap();
        assert_eq!(turned.number, number);
        assert!(turned.reply.is_ack());
        assert_eq!(room.values()[0], ((number + round) % 15 * 10) as i64);
        queues[number].drain(..turned.consumed);
    }
    assert!(queues.iter().all(VecDeque::is_empty));
}
