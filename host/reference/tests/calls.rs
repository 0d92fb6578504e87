//! Places of the paper that are easy to misread: tables, values, the port,
//! the log and the restore list.

mod common;
use common::{nak, record, table, Room, ACK};
use reference::catalogue::rows;

#[test]
fn catalogue() {
    let counts: Vec<usize> = (1..=6).map(|kind| rows(kind).len()).collect();
    assert_eq!(counts, [6, 1, 1, 7, 33, 2]);
    for kind in 1..=6 {
        for row in rows(kind) {
            assert!(row.low < row.high);
            assert_eq!((row.high - row.low) % i64::from(row.step), 0);
        }
        let rising = rows(kind)
            .windows(2)
            .all(|pair| pair[0].index < pair[1].index);
        assert!(rising);
    }
    let starts: Vec<i64> = (1..=6).flat_map(rows).map(|row| row.start()).collect();
    assert_eq!(starts.iter().filter(|&&start| start != 0).count(), 3);
    assert_eq!(starts[15 + 5], -60);
    assert_eq!(starts[15 + 14], 1);
    assert_eq!(starts[49], 1);
    assert!(!rows(5)[5].permits(-55));
}

#[test]
fn tables() {
    let sound = |bytes: &[u8]| reference::table(bytes) == 0;
    assert!(sound(b""));
    for kind in 0..=255 {
        assert_eq!(sound(&record(kind, b"T")), (1..=6).contains(&kind));
    }
    for byte in 0..=255u8 {
        let fine = (0x20..=0x7E).contains(&byte) && byte != b'"';
        assert_eq!(sound(&record(1, &[byte])), fine);
        assert_eq!(sound(&record(1, &[b'T', byte])), fine || byte == 0);
        assert_eq!(sound(&record(1, &[b'T', 0, byte])), byte == 0);
    }
    assert!(sound(&record(1, &[b'T'; 32])));
    let many = |count| table(&vec![(5, &b"R"[..]); count]);
    assert!(sound(&many(64)));
    assert!(!sound(&many(65)));
    for cut in 1..33 {
        assert!(!sound(&many(2)[..66 - cut]));
    }
}

#[test]
fn port_refusals() {
    let ask = |table: &[u8], values: &[i64], port: &mut [u8; 66], reply: usize| {
        let before = *port;
        let mut values = values.to_vec();
        let kept = values.clone();
        let mut reply = vec![7; reply];
        let mut told = [9; 4];
        let answer = reference::port(table, &mut values, port, b"", &mut reply, &mut told);
        assert_eq!(*port, before);
        assert_eq!(values, kept);
        assert!(reply.iter().all(|&byte| byte == 7));
        assert_eq!(told, [0; 4]);
        answer
    };
    let room = Room::a();
    let zeros = [0; 7];
    let mut fresh = [0; 66];
    let mut over = [0; 66];
    over[0] = 65;
    over[1] = 1;
    assert_eq!(ask(&room.table, &zeros, &mut fresh, 64), 0);
    assert_eq!(ask(&room.table[1..], &[], &mut over, 0), 1);
    assert_eq!(ask(&room.table, &[], &mut over, 0), 2);
    assert_eq!(ask(&room.table, &[0; 8], &mut over, 0), 2);
    for bad in [-151, 151, i64::MIN, i64::MAX, 1 << 32, 1 << 16, -(1 << 32)] {
        let mut values = zeros;
        values[0] = bad;
        assert_eq!(ask(&room.table, &values, &mut over, 0), 2, "{bad}");
    }
    assert_eq!(ask(&room.table, &zeros, &mut over, 63), 3);
    assert_eq!(ask(&room.table, &zeros, &mut over, 64), 4);
    over[0] = 64;
    assert_eq!(ask(&room.table, &zeros, &mut over, 64), 0);
    over[1] = 7;
    assert_eq!(ask(&room.table, &zeros, &mut over, 64), 0);
    // A read-only value is judged as well.
    let mut room = Room::new(&[(5, b"R")]);
    room.values[5] = -55;
    assert_eq!(room.feed(b""), Err(2));
}

#[test]
fn port_lines() {
    // One call serves one line; cuts do not matter.
    let mut room = Room::a();
    assert_eq!(
        room.feed(b"SA\"T\">1=1\rGA\"T\">1\r"),
        Ok((10, ACK.to_vec()))
    );
    assert_eq!(room.feed(b"GA\"T"), Ok((4, vec![])));
    assert_eq!(room.feed(b""), Ok((0, vec![])));
    assert_eq!(room.feed(b"\">1"), Ok((3, vec![])));
    assert_eq!(room.port[..9], *b"\x07\0GA\"T\">1");
    assert_eq!(room.feed(b"\r\r"), Ok((1, b"GA\"T\">1=1\r".to_vec())));
    assert_eq!(room.feed(b"\r"), Ok((1, nak("99"))));
    // 64 bytes are a line, 65 are not; both are answered once.
    let line = [b"GA\"Q\"".to_vec(), vec![b'x'; 59]].concat();
    assert_eq!(room.feed(&line), Ok((64, vec![])));
    assert_eq!(room.port[..2], [64, 0]);
    assert_eq!(room.feed(b"\r"), Ok((1, nak("01"))));
    room.feed(&line).unwrap();
    assert_eq!(room.feed(b"x"), Ok((1, vec![])));
    assert_eq!(room.port[1], 1);
    assert!(room.port[0] <= 64);
    assert_eq!(room.feed(&[b'y'; 300]), Ok((300, vec![])));
    assert_eq!(room.feed(b"z\rGA\"S\">1\r"), Ok((2, nak("99"))));
    assert_eq!(room.line(b"GA\"S\">1"), b"GA\"S\">1=F\r");
    // A held 0D is an ordinary byte.
    room.port[..12].copy_from_slice(b"\x0A\0SA\"T\">2=O\r");
    assert_eq!(room.feed(b"\r"), Ok((1, nak("03"))));
    // A hand-made overrun port with nothing held stays overrun.
    room.port[..2].copy_from_slice(&[0, 1]);
    assert_eq!(room.feed(b"GA\"S\">1\r"), Ok((8, nak("99"))));
    // Any byte but 0 says overrun; it is stored as 1 once bytes are given.
    room.port[..2].copy_from_slice(&[0, 7]);
    assert_eq!(room.feed(b""), Ok((0, vec![])));
    assert_eq!(room.port[1], 7);
    assert_eq!(room.feed(b"GA"), Ok((2, vec![])));
    assert_eq!(room.port[1], 1);
    room.port[1] = 2;
    assert_eq!(room.feed(b"\"S\">1\r"), Ok((6, nak("99"))));
    assert_eq!(room.port[..2], [0, 0]);
}

#[test]
fn logs() {
    let room = Room::new(&[(1, b"T"), (2, b"D"), (3, b"D")]);
    let ask = |table: &[u8], line: &[u8]| {
        let mut told = [9; 3];
        reference::log(table, line, &mut told);
        told
    };
    assert_eq!(ask(&room.table, b"xx\"T\""), [1, 1, 1]);
    assert_eq!(ask(&room.table, b"\"D\""), [0, 1, 1]);
    assert_eq!(ask(&room.table, b"GA\"Q q\"zz"), [0, 3, 3]);
    assert_eq!(ask(&room.table, b"GA\"Q"), [0, 0, 0]);
    assert_eq!(ask(&room.table, b""), [0, 0, 0]);
    assert_eq!(ask(&room.table, b"GA\"\""), [0, 3, 0]);
    assert_eq!(ask(&room.table, b"\"T\0\""), [0, 1, 2]);
    assert_eq!(ask(&room.table[1..], b"xx\"T\""), [0, 0, 0]);
    let far = [vec![b'x'; 200], b"\"T\"".to_vec()].concat();
    assert_eq!(ask(&room.table, &far), [1, 1, 1]);
    let second = table(&[(1, b"U"), (2, b"Two")]);
    assert_eq!(ask(&second, b"\"Two\""), [1, 34, 3]);
}

#[test]
fn restores() {
    let mut room = Room::new(&[(1, b"T"), (5, b"R"), (2, b"D"), (3, b"D")]);
    let none = room.values.clone();
    let all = [1; 4];
    assert_eq!(room.restore_write(&all, &none, 0), Ok((vec![], 0)));
    // 5: length, then a byte over 1.
    assert_eq!(room.restore_write(&all[1..], &[], 0), Err(5));
    assert_eq!(room.restore_write(&[1, 2, 1, 1], &[], 0), Err(5));
    // 6: length, then chosen entries.
    assert_eq!(room.restore_write(&all, &none[1..], 0), Err(6));
    let mut wanted = none.clone();
    wanted[0] = 151;
    wanted[6] = -55;
    assert_eq!(room.restore_write(&all, &wanted, 0), Err(6));
    wanted[0] = i64::MIN;
    wanted[6] = none[6];
    wanted[6 + 7] = 1;
    assert_eq!(
        room.restore_write(&[0, 1, 0, 0], &wanted, 100).unwrap().1,
        1
    );
    // 7: read-only, or a shared label, and before 8.
    wanted = none.clone();
    wanted[6] = 1;
    assert_eq!(room.restore_write(&all, &wanted, 0), Err(7));
    assert_eq!(
        room.restore_write(&[1, 0, 1, 1], &wanted, 0),
        Ok((vec![], 0))
    );
    wanted = none.clone();
    wanted[39] = 1;
    assert_eq!(room.restore_write(&[0, 0, 1, 0], &wanted, 0), Err(7));
    assert_eq!(
        room.restore_write(&[1, 1, 0, 1], &wanted, 0),
        Ok((vec![], 0))
    );
    // Texts: shortest levels, O and F.
    room.values[1] = 1;
    room.values[2] = 100;
    wanted = none.clone();
    wanted[0] = -5;
    wanted[4] = 120;
    let list = b"SA\"T\">1=-0.5\rSA\"T\">2=F\rSA\"T\">3=0\rSA\"T\">5=12\r".to_vec();
    assert_eq!(
        room.restore_write(&all, &wanted, list.len()),
        Ok((list.clone(), 4))
    );
    assert_eq!(room.restore_write(&all, &wanted, list.len() - 1), Err(8));
    // The empty table has an empty wish.
    let empty = Room::new(&[]);
    assert_eq!(empty.restore_write(&[], &[], 0), Ok((vec![], 0)));
    assert_eq!(empty.restore_write(&[0], &[], 0), Err(5));
    assert_eq!(empty.restore_write(&[], &[0], 0), Err(6));
}
