//! Every worked line of the paper.

mod common;
use common::{nak, Room, ACK};

/// A line on a room of table A with zeros.
fn on_a(line: &[u8]) -> (Vec<u8>, Vec<i64>) {
    let mut room = Room::a();
    let reply = room.line(line);
    (reply, room.values)
}

fn acked(line: &[u8], place: usize, value: i64) {
    let (reply, values) = on_a(line);
    assert_eq!(reply, ACK, "{}", line.escape_ascii());
    let mut expected = vec![0; 7];
    expected[place] = value;
    assert_eq!(values, expected, "{}", line.escape_ascii());
}

fn naked(line: &[u8], code: &str) {
    let (reply, values) = on_a(line);
    assert_eq!(reply, nak(code), "{}", line.escape_ascii());
    assert_eq!(values, [0; 7]);
}

#[test]
fn table_a() {
    acked(br#"SA"T">1=15"#, 0, 150);
    naked(br#"SA"T">1=15.1"#, "03");
    acked(br#"SA "T">01=-04"#, 0, -40);
    acked(br#"SA"T">1=-0"#, 0, 0);
    for text in [".5", "3.", "+3"] {
        naked(format!("SA\"T\">1={text}").as_bytes(), "03");
    }
    acked(br#"SA"T">2=T"#, 1, 1);
    assert_eq!(on_a(br#"GA"S">1"#).0, b"GA\"S\">1=F\r");
    naked(br#"SA"Q">9=x"#, "01");
    naked(br#"SA"T">9=x"#, "02");
    naked(br#"SA"T">1>0=1"#, "02");
    naked(br#"SA"T">1"#, "99");
    naked(br#"SA"Hall EQ">6>O"#, "99");
}

#[test]
fn combiner() {
    let mut room = Room::new(&[(4, b"C")]);
    for (text, reply, value) in [
        ("-60.5", ACK.to_vec(), -605),
        ("12", ACK.to_vec(), 120),
        ("-61", nak("03"), 120),
        ("12.5", nak("03"), 120),
        ("-3.2", nak("03"), 120),
    ] {
        assert_eq!(room.line(format!("SA\"C\">1>2={text}").as_bytes()), reply);
        assert_eq!(room.values, [0, value, 0, 0, 0, 0, 0]);
    }
}

#[test]
fn whole_decibels_have_no_point() {
    let mut room = Room::new(&[(4, b"StRC 1")]);
    for (value, text) in [
        (-30, "-3"),
        (-40, "-4"),
        (0, "0"),
        (-5, "-0.5"),
        (120, "12"),
        (-605, "-60.5"),
    ] {
        room.values[1] = value;
        let reply = format!("GA\"StRC 1\">1>2={text}\r");
        assert_eq!(room.line(br#"GA"StRC 1">1>2"#), reply.as_bytes());
    }
}

#[test]
fn suppressor() {
    let mut room = Room::new(&[(6, b"P")]);
    assert_eq!(room.values, [0, 1]);
    for (text, reply, value) in [
        ("43200", ACK.to_vec(), 43200),
        ("43201", nak("03"), 43200),
        ("00001", ACK.to_vec(), 1),
        ("0", nak("03"), 1),
        ("000001", nak("03"), 1),
    ] {
        assert_eq!(room.line(format!("SA\"P\">1>1={text}").as_bytes()), reply);
        assert_eq!(room.values[1], value);
    }
}

#[test]
fn router() {
    let mut room = Room::new(&[(5, b"R")]);
    room.values[0] = 8;
    assert_eq!(room.line(br#"GA"R">0>1"#), b"GA\"R\">0>1=8\r");
    for text in ["8", "1", "O", "x", ""] {
        assert_eq!(
            room.line(format!("SA\"R\">0>1={text}").as_bytes()),
            nak("03")
        );
    }
    assert_eq!(room.values[0], 8);
    assert_eq!(room.line(br#"GA"R">0>8"#), b"GA\"R\">0>8=-6\r");
}

#[test]
fn overrun() {
    let mut room = Room::a();
    let mut given = vec![b'x'; 65];
    given.extend(b"\rGA\"S\">1\r");
    assert_eq!(room.feed(&given), Ok((66, nak("99"))));
    assert_eq!(room.feed(&given[66..]), Ok((8, b"GA\"S\">1=F\r".to_vec())));
}

#[test]
fn restore() {
    let room = Room::a();
    let wanted = [-40, 1, 5, 0, 0, 0, 1];
    let list = b"SA\"T\">1=-4\rSA\"T\">2=O\rSA\"T\">3=0.5\rSA\"S\">1=O\r".to_vec();
    assert_eq!(list.len(), 43);
    assert_eq!(room.restore_size(&[1, 1], &wanted), Ok((43, 4)));
    assert_eq!(
        room.restore_write(&[1, 1], &wanted, 43),
        Ok((list.clone(), 4))
    );
    assert_eq!(room.restore_write(&[1, 1], &wanted, 100), Ok((list, 4)));
    assert_eq!(room.restore_write(&[1, 1], &wanted, 42), Err(8));
    let alone = b"SA\"S\">1=O\r".to_vec();
    assert_eq!(room.restore_write(&[0, 1], &wanted, 43), Ok((alone, 1)));
}

#[test]
fn the_program() {
    let mut room = Room::a();
    assert_eq!(room.line(br#"SA"T">1=-4"#), ACK);
    assert_eq!(room.line(br#"GA"T">1"#), b"GA\"T\">1=-4\r");
    assert_eq!(room.line(br#"SA"T">1=99"#), nak("03"));
}
