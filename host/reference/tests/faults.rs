//! Why a line was answered with 99, and the byte of the line where it shows.

mod common;
use common::{nak, Room};

const OVERRUN: u64 = 1;
const NO_VERB: u64 = 2;
const NO_OPENING_QUOTE: u64 = 3;
const NO_CLOSING_QUOTE: u64 = 4;
const NO_EQUALS: u64 = 5;

#[test]
fn causes() {
    for (line, cause, place) in [
        (&b""[..], NO_VERB, 0),
        (b"S", NO_VERB, 0),
        (b"XY", NO_VERB, 0),
        (b"sa\"T\">1=1", NO_VERB, 0),
        (b" SA\"T\">1=1", NO_VERB, 0),
        (b"SA", NO_OPENING_QUOTE, 2),
        (b"GA", NO_OPENING_QUOTE, 2),
        (b"SA ", NO_OPENING_QUOTE, 3),
        (b"GA ", NO_OPENING_QUOTE, 3),
        (b"SA  \"T\">1=1", NO_OPENING_QUOTE, 3),
        (b"SAT\">1=1", NO_OPENING_QUOTE, 2),
        (b"SA T\">1=1", NO_OPENING_QUOTE, 3),
        (b"SA\"", NO_CLOSING_QUOTE, 3),
        (b"SA \"", NO_CLOSING_QUOTE, 4),
        (b"SA\"T", NO_CLOSING_QUOTE, 4),
        (b"GA\"T>1", NO_CLOSING_QUOTE, 6),
        (b"SA\"T>1=1", NO_CLOSING_QUOTE, 8),
        (b"SA\"T\"", NO_EQUALS, 5),
        (b"SA\"T\">1", NO_EQUALS, 7),
        (b"SA\"=\">1", NO_EQUALS, 7),
        (b"SA\"Hall EQ\">6>O", NO_EQUALS, 15),
    ] {
        let mut room = Room::a();
        assert_eq!(room.line(line), nak("99"), "{}", line.escape_ascii());
        assert_eq!(room.fault, [cause, place], "{}", line.escape_ascii());
    }
}

#[test]
fn overruns() {
    // 64 bytes are looked at, and 65 are an overrun whatever they begin with.
    let mut room = Room::a();
    room.line(&[b'x'; 64]);
    assert_eq!(room.fault, [NO_VERB, 0]);
    for length in [65, 66, 300] {
        room.line(&vec![b'x'; length]);
        assert_eq!(room.fault, [OVERRUN, 64]);
        room.line(&[b"SA\"T\">1=1", &vec![b' '; length][..]].concat());
        assert_eq!(room.fault, [OVERRUN, 64]);
    }
    let long = [b"SA\"".to_vec(), vec![b'x'; 61]].concat();
    room.line(&long);
    assert_eq!(room.fault, [NO_CLOSING_QUOTE, 64]);
    // A port that is overrun by hand tells the same, whatever it claims.
    for held in [0, 1, 64] {
        room.port[..2].copy_from_slice(&[held, 1]);
        assert_eq!(room.feed(b"\r"), Ok((1, nak("99"))));
        assert_eq!(room.fault, [OVERRUN, 64]);
    }
}

#[test]
fn in_several_calls() {
    // Places count in the line, and only the call that finishes it tells.
    let mut room = Room::a();
    for piece in [&b"SA\"T"[..], b"", b"\">"] {
        room.feed(piece).unwrap();
        assert_eq!(room.fault, [0, 0]);
    }
    assert_eq!(room.feed(b"1\rSA"), Ok((2, nak("99"))));
    assert_eq!(room.fault, [NO_EQUALS, 7]);
    // The 65th byte by itself tells nothing.
    room.feed(&[b'x'; 64]).unwrap();
    room.feed(b"x").unwrap();
    assert_eq!(room.fault, [0, 0]);
    assert_eq!(room.feed(b"\r"), Ok((1, nak("99"))));
    assert_eq!(room.fault, [OVERRUN, 64]);
}

#[test]
fn other_answers() {
    let mut room = Room::new(&[(1, b"T"), (5, b"R")]);
    for line in [
        &b"SA\"T\">1=1"[..],
        b"GA\"T\">1",
        b"SA\"Q\">9=x",
        b"GA\"\"",
        b"SA\"T\">9=x",
        b"GA\"T\"",
        b"SA\"T\">1=x",
        b"SA\"R\">0>1=1",
    ] {
        assert_ne!(room.line(line), nak("99"));
        assert_eq!(room.fault, [0, 0], "{}", line.escape_ascii());
    }
}
