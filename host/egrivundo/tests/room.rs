//! The safe interface over the archive.

use egrivundo::{Cause, Fault, Port, Refusal, Room, Type};

fn room() -> Room {
    Room::new(&[
        (Type::ToneControlEq, "Tone"),
        (Type::ConferenceRouter, "Desk"),
        (Type::SmartBass, "Twin"),
        (Type::DynamicEq, "Twin"),
    ])
    .unwrap()
}

#[test]
fn modules_and_values() {
    let room = room();
    let starts: Vec<usize> = room.modules().map(|module| module.start).collect();
    assert_eq!(starts, [0, 6, 39, 40]);
    assert_eq!(room.values().len(), 41);
    assert_eq!(room.modules().last().unwrap().label, b"Twin");
}

#[test]
fn unsound_rooms() {
    let long = "x".repeat(33);
    for label in ["", "a\"b", "a\0b", "tab\t", "\u{e9}", &long] {
        let refused = Room::new(&[(Type::SmartBass, label)]);
        assert_eq!(refused, Err(Refusal::Table), "{label:?}");
    }
    assert!(Room::new(&[(Type::SmartBass, &long[1..])]).is_ok());
    assert!(Room::new(&[(Type::SmartBass, "S"); 64]).is_ok());
    assert_eq!(
        Room::new(&[(Type::SmartBass, "S"); 65]),
        Err(Refusal::Table)
    );
}

#[test]
fn the_longest_list_fits() {
    let label = "x".repeat(32);
    let mut modules = vec![(Type::ConferenceRouter, String::new()); 64];
    for (number, module) in modules.iter_mut().enumerate() {
        module.1 = format!("{number:02}{}", &label[2..]);
    }
    let lent: Vec<(Type, &str)> = modules
        .iter()
        .map(|(kind, label)| (*kind, &label[..]))
        .collect();
    let mut room = Room::new(&lent).unwrap();
    assert_eq!(room.values().len(), 2112);
    let mut wanted = room.values().to_vec();
    for module in wanted.chunks_exact_mut(33) {
        for (row, value) in module.iter_mut().enumerate().skip(6) {
            let switch = if row < 14 { row % 2 == 1 } else { row % 2 == 0 };
            *value = if row == 14 {
                6
            } else if switch {
                1
            } else {
                -605
            };
        }
    }
    let list = room.put_back(&[1; 64], &wanted).unwrap();
    assert_eq!(list.lines(), 64 * 27);
    let mut port = Port::new();
    let replies = room.feed_all(&mut port, list.bytes()).unwrap();
    assert_eq!(replies.len(), list.lines());
    assert!(replies.iter().all(|reply| reply.is_ack()));
    assert!(port.is_fresh());
    assert_eq!(room.values(), wanted);
}

#[test]
fn overrun_ports_are_equal() {
    let mut room = room();
    let mut port = Port::new();
    assert!(room.feed(&mut port, &[b'x'; 65]).unwrap().reply.is_empty());
    assert!(port.overrun());
    for overrun in [1, 2, 7, 255] {
        let mut bytes = [0; 66];
        bytes[1] = overrun;
        assert_eq!(port, Port::from_bytes(bytes).unwrap());
    }
    assert_ne!(port, Port::new());
    let reply = room.feed(&mut port, b"\r").unwrap().reply;
    assert_eq!(reply.nak(), Some("99"));
    assert_eq!(
        reply.to_string(),
        "NAK 99, overrun: byte 64 is one too many"
    );
    assert!(port.is_fresh());
}

#[test]
fn faults() {
    let mut room = room();
    for (line, cause, place, words) in [
        (
            &b"S"[..],
            Cause::NoVerb,
            0,
            "no verb: no SA or GA at byte 0",
        ),
        (
            b"SA",
            Cause::NoOpeningQuote,
            2,
            "no opening quote at byte 2",
        ),
        (
            b"SA  \"Tone\">1=1",
            Cause::NoOpeningQuote,
            3,
            "no opening quote at byte 3",
        ),
        (
            b"GA\"Tone",
            Cause::NoClosingQuote,
            7,
            "no closing quote: the line ends at byte 7",
        ),
        (
            b"SA\"Tone\">1",
            Cause::NoEquals,
            10,
            "no `=`: the line ends at byte 10",
        ),
    ] {
        let reply = room.line(line).unwrap();
        assert_eq!(reply.nak(), Some("99"));
        assert_eq!(reply.fault(), Some(Fault { cause, place }));
        assert_eq!(reply.fault().unwrap().to_string(), words);
    }
    for line in [
        &b"SA\"Tone\">1=1"[..],
        b"SA\"Tone\">1=x",
        b"GA\"Q\">1",
        b"GA\"Tone\"",
    ] {
        assert_eq!(room.line(line).unwrap().fault(), None);
    }
    // A call that finishes no line tells no fault.
    let mut port = Port::new();
    for piece in [&[b'x'; 64][..], b"x", b""] {
        assert_eq!(room.feed(&mut port, piece).unwrap().reply.fault(), None);
    }
}
