//! Places of the paper that are easy to misread: lines and labels.

mod common;
use common::{nak, Room, ACK};

fn naks(room: &mut Room, code: &str, lines: &[&[u8]]) {
    for line in lines {
        let before = room.values.clone();
        assert_eq!(room.line(line), nak(code), "{}", line.escape_ascii());
        assert_eq!(room.values, before);
    }
}

fn acks(room: &mut Room, lines: &[&[u8]]) {
    for line in lines {
        assert_eq!(room.line(line), ACK, "{}", line.escape_ascii());
    }
}

#[test]
fn forms() {
    let mut room = Room::new(&[(1, b"T"), (2, b"S"), (2, b"=")]);
    naks(
        &mut room,
        "99",
        &[
            b"",
            b"S",
            b"SA",
            b"SA ",
            b"SA\"",
            b"SA\"T",
            b"SA\"T\"",
            b"sa\"T\">1=1",
            b"ga\"T\">1",
            b" SA\"T\">1=1",
            b"SA  \"T\">1=1",
            b"SA\t\"T\">1=1",
            b"SA\n\"T\">1=1",
            b"\nSA\"T\">1=1",
            b"SA @ \"D\" \"T\">1=1",
            b"SA\"SmartBass 1\">1>O",
            b"SA\"=\">1",
            b"SA\"Q\">1",
            b"XA\"T\">1=1",
        ],
    );
    naks(
        &mut room,
        "01",
        &[
            b"SA\"\">1=1",
            b"GA\"\"",
            b"GA\"t\">1",
            b"GA\"T \">1",
            b"GA\" T\">1",
            b"GA\"T\0\">1",
            b"GA\"\0\">1",
            b"GA\"T\0\0\">1",
            b"GA\"Q\">1=1",
        ],
    );
    naks(&mut room, "99", &[b"GA\"Q"]);
    acks(&mut room, &[b"SA\"=\">1=O", b"SA \"=\">001=T"]);
}

#[test]
fn indices() {
    let mut room = Room::new(&[(1, b"T"), (4, b"C"), (5, b"R")]);
    naks(
        &mut room,
        "02",
        &[
            b"SA\"T\"\">1=1",
            b"SA\"T\"=1",
            b"GA\"T\"",
            b"GA\"T\">",
            b"SA\"T\">=1",
            b"SA\"T\">1>=1",
            b"SA\"T\">>1=1",
            b"SA\"T\">1>1>1=1",
            b"SA\"C\">1>2>3=1",
            b"SA\"C\">1>2>=1",
            b"SA\"T\">0001=1",
            b"SA\"T\">257=1",
            b"SA\"T\">1>0=1",
            b"SA\"T\">0=x",
            b"SA\"T\">7=x",
            b"SA\"C\">1=1",
            b"SA\"C\">1>0=1",
            b"SA\"C\">1>8=1",
            b"SA\"C\">1>258=1",
            b"SA\"C\">257>2=1",
            b"SA\"C\">1>-2=1",
            b"GA\"T\">1=1",
            b"GA\"T\">1=",
            b"GA\"T\">1\n",
            b"GA\"T\">1 ",
            b"GA\"T\">1;GA\"S\">1",
            b"SA\"T\">1 =1",
            b"SA\"R\">0>6=1",
            b"SA\"R\">0>7=1",
            b"SA\"R\">0>9=1",
            b"SA\"R\">2>19=O",
            b"SA\"R\">1>10=O",
            b"SA\"R\">0>x=1",
        ],
    );
    acks(
        &mut room,
        &[
            b"SA\"T\">001=1",
            b"SA\"C\">001>002=1",
            b"SA\"R\">2>18=O",
            b"SA\"R\">2>018=O",
        ],
    );
    assert_eq!(room.line(b"GA \"C\">01>002"), b"GA\"C\">1>2=1\r");
}

#[test]
fn texts() {
    let mut room = Room::new(&[(1, b"T"), (4, b"C"), (5, b"R"), (6, b"P")]);
    naks(
        &mut room,
        "03",
        &[
            b"SA\"T\">1=",
            b"SA\"T\">1=-",
            b"SA\"T\">1=1=1",
            b"SA\"T\">1=\"1\"",
            b"SA\"T\">1=1\n",
            b"SA\"T\">1=1;SA\"T\">1=2",
            b"SA\"T\">1=-.5",
            b"SA\"T\">1=3.00",
            b"SA\"T\">1=001",
            b"SA\"T\">1=--1",
            b"SA\"T\">1= 1",
            b"SA\"T\">1=T",
            b"SA\"T\">1=1.x",
            b"SA\"T\">1=1..0",
            b"SA\"T\">2=1",
            b"SA\"T\">2=0",
            b"SA\"T\">2=o",
            b"SA\"T\">2=OO",
            b"SA\"T\">2=",
            b"SA\"C\">1>1=T",
            b"SA\"C\">1>1=-0",
            b"SA\"C\">1>1=+1",
            b"SA\"C\">1>1=10",
            b"SA\"C\">1>1=000001",
            b"SA\"P\">1>1=65537",
            b"SA\"P\">1>1=99999",
            b"SA\"R\">0>4=T",
            b"SA\"R\">0>4=O",
            b"SA\"R\">0>8=-6",
            b"SA\"R\">1>9=0",
            b"SA\"R\">1>9=7",
        ],
    );
    acks(
        &mut room,
        &[
            b"SA\"T\">1=-15.0",
            b"SA\"T\">3=-00",
            b"SA\"T\">3=-0.0",
            b"SA\"T\">3=-00.0",
            b"SA\"C\">1>1=00003",
            b"SA\"C\">1>2=-0.5",
            b"SA\"R\">1>9=06",
        ],
    );
    assert_eq!(room.line(b"GA\"T\">3"), b"GA\"T\">3=0\r");
    assert_eq!(room.line(b"GA\"T\">1"), b"GA\"T\">1=-15\r");
    assert_eq!(room.line(b"GA\"C\">1>1"), b"GA\"C\">1>1=3\r");
    assert_eq!(room.line(b"GA\"C\">1>2"), b"GA\"C\">1>2=-0.5\r");
    assert_eq!(room.line(b"GA\"R\">0>4"), b"GA\"R\">0>4=F\r");
    // A toggle goes both ways.
    acks(&mut room, &[b"SA\"T\">2=T"]);
    assert_eq!(room.line(b"GA\"T\">2"), b"GA\"T\">2=O\r");
    acks(&mut room, &[b"SA\"T\">2=T"]);
    assert_eq!(room.line(b"GA\"T\">2"), b"GA\"T\">2=F\r");
}

#[test]
fn labels() {
    let long = [b'x'; 32];
    let mut room = Room::new(&[
        (1, b"T"),
        (2, b"T"),
        (2, b"T "),
        (2, b" "),
        (2, b">1=O"),
        (2, &long),
        (3, &long[..31]),
    ]);
    naks(
        &mut room,
        "01",
        &[b"SA\"T\">1=1", b"GA\"T\">1", b"SA\"T\">9=x"],
    );
    acks(
        &mut room,
        &[b"SA\"T \">1=O", b"SA\" \">1=O", b"SA\">1=O\">1=O"],
    );
    let text = String::from_utf8(long.to_vec()).unwrap();
    assert_eq!(room.line(format!("SA\"{text}\">1=O").as_bytes()), ACK);
    assert_eq!(
        room.line(format!("SA\"{text}x\">1=O").as_bytes()),
        nak("01")
    );
    assert_eq!(
        room.line(format!("SA\"{}\">1=O", &text[1..]).as_bytes()),
        ACK
    );
    assert_eq!(
        room.line(format!("GA\"{text}\">1").as_bytes()),
        format!("GA\"{text}\">1=O\r").as_bytes()
    );
    // Three bearers are as unreachable as two.
    let mut room = Room::new(&[(2, b"T"), (3, b"T"), (1, b"T")]);
    naks(&mut room, "01", &[b"SA\"T\">1=O"]);
}
