//! Changes at a wall panel.

mod common;
use common::{mixer, nak, record, Room, Turned, ACK};
use reference::layout::Layout;

const SILENT: Turned = Ok(Vec::new());

fn told(notice: &str) -> Turned {
    Ok(notice.as_bytes().to_vec())
}

/// A plain module, two that bear one label with `#`, and a router.
fn wall() -> Room {
    Room::new(&[(1, b"T"), (1, b"#Hall"), (2, b"#Hall"), (5, b"#Desk")])
}

#[test]
fn one_value_is_set() {
    let mut room = wall();
    let mut expected = room.values.clone();
    for (owner, row, value, place) in [
        (0, 0, -40, 0),
        (0, 5, 1, 5),
        (1, 0, 150, 6),
        (1, 5, 1, 11),
        (2, 0, 1, 12),
        (3, 6, -605, 13 + 6),
        (3, 14, 6, 13 + 14),
        (3, 32, 1, 13 + 32),
    ] {
        room.panel(owner, row, value).unwrap();
        expected[place] = value;
        assert_eq!(room.values, expected, "{owner} {row}");
    }
}

#[test]
fn notices() {
    // As GA would write it, with the `#`; of a label borne twice as well.
    let mut room = wall();
    assert_eq!(room.panel(0, 0, -40), SILENT);
    assert_eq!(room.panel(1, 0, -40), told("GA\"#Hall\">1=-4\r"));
    assert_eq!(room.panel(1, 0, -5), told("GA\"#Hall\">1=-0.5\r"));
    assert_eq!(room.panel(1, 0, 0), told("GA\"#Hall\">1=0\r"));
    assert_eq!(room.panel(1, 1, 1), told("GA\"#Hall\">2=O\r"));
    assert_eq!(room.panel(2, 0, 1), told("GA\"#Hall\">1=O\r"));
    assert_eq!(room.panel(2, 0, 0), told("GA\"#Hall\">1=F\r"));
    assert_eq!(room.panel(3, 14, 6), told("GA\"#Desk\">1>9=6\r"));
    assert_eq!(room.panel(3, 31, -605), told("GA\"#Desk\">2>17=-60.5\r"));
    // A get line of the one says the same, and reaches neither of the two.
    assert_eq!(room.line(b"GA\"#Desk\">2>17"), b"GA\"#Desk\">2>17=-60.5\r");
    assert_eq!(room.line(b"GA\"#Hall\">1"), nak("01"));
    // A set line is acknowledged, and nothing else is sent.
    assert_eq!(room.line(b"SA\"#Desk\">2>17=-3"), ACK);
    assert_eq!(room.panel(3, 31, -30), SILENT);
}

#[test]
fn labels() {
    let longest = [&b"#"[..], &[b'x'; 31]].concat();
    for (label, notified) in [
        (&b"#"[..], true),
        (b"##", true),
        (b"# ", true),
        (b"#Hall", true),
        (&longest, true),
        (b"Hall#", false),
        (b" #Hall", false),
        (b"H", false),
        (b"$", false),
    ] {
        let mut room = Room::new(&[(2, b"#Other"), (2, label), (2, b"#Next")]);
        let notice = [b"GA\"", label, b"\">1=O\r"].concat();
        let expected = if notified { Ok(notice) } else { SILENT };
        assert_eq!(room.panel(1, 0, 1), expected, "{}", label.escape_ascii());
        assert_eq!(room.values, [0, 1, 0]);
    }
}

#[test]
fn the_present_value_is_silent() {
    let mut room = wall();
    let before = room.values.clone();
    for row in 0..6 {
        assert_eq!(room.panel(1, row, 0), SILENT);
    }
    assert_eq!(room.values, before);
    room.panel(1, 0, 5).unwrap();
    assert_eq!(room.panel(1, 0, 5), SILENT);
    assert_eq!(room.panel(1, 0, 6), told("GA\"#Hall\">1=0.6\r"));
}

#[test]
fn words_are_told_whole() {
    let mut room = Room::mixers(&[(1, 1, b"M"), (2, 3, b"#M")]);
    let (first, start) = (5, 10);
    for (row, word, notice) in [
        (start, 0x8000_0000, "GA\"#M\">3>1=80000000\r"),
        (start, 0xA000_0000, "GA\"#M\">3>1=A0000000\r"),
        (start, 0, "GA\"#M\">3>1=00000000\r"),
        (start + 1, 0xE000_0000, "GA\"#M\">3>2=E0000000\r"),
        (start + 1, 0xC000_0000, "GA\"#M\">3>2=C0000000\r"),
    ] {
        assert_eq!(room.panel(1, row, word), told(notice));
        assert_eq!(room.values[first + row as usize], word);
    }
    for wrong in [1, 0x1000_0000, 0xF000_0000, -0x8000_0000, 1 << 32, -1] {
        assert_eq!(room.panel(1, start, wrong), Err(9), "{wrong}");
    }
    assert_eq!(room.panel(1, 2, -605), told("GA\"#M\">1>3=-60.5\r"));
    assert_eq!(room.panel(1, 9, 1), told("GA\"#M\">2>6=O\r"));
    assert_eq!(room.panel(0, 4, 0x8000_0000), SILENT);
    assert_eq!(room.panel(1, 12, 0), Err(9));
    // The longest notice there is.
    let label = [&b"#"[..], &[b'x'; 31]].concat();
    let mut room = Room::mixers(&[(32, 32, &label)]);
    assert_eq!(room.panel(0, 159, 0xFFFF_FFFF).unwrap().len(), 51);
}

#[test]
fn what_is_not_there() {
    let mut room = wall();
    let starts = room.values.clone();
    // One past the last row is not the next module's first.
    for (owner, first, count) in [(0, 0, 6), (1, 6, 6), (2, 12, 1), (3, 13, 33)] {
        for row in 0..70 {
            let settable = row < count && (owner != 3 || row >= 6);
            let present = starts.get(first + row as usize).copied();
            let answer = room.panel(owner, row, present.unwrap_or(0));
            assert_eq!(answer, if settable { SILENT } else { Err(9) }, "{row}");
        }
    }
    // Far numbers are not cut to a width in which they would be there.
    let far = (6..64).map(|place| 1u64 << place);
    for number in far.flat_map(|n| [n, n + 1, n + 3, u64::MAX - n, u64::MAX]) {
        assert_eq!(room.panel(number, 0, 0), Err(9), "{number}");
        assert_eq!(room.panel(1, number, 0), Err(9), "{number}");
        assert_eq!(room.panel(number, number, 0), Err(9), "{number}");
    }
    assert_eq!(room.panel(4, 0, 0), Err(9));
    assert_eq!(Room::new(&[]).panel(0, 0, 0), Err(9));
}

#[test]
fn read_only_rows() {
    // Refused with every value, the present one too.
    let mut room = wall();
    for row in 0..6 {
        let present = room.values[13 + row as usize];
        for value in [present, 0, 1, -60, -50, 99] {
            assert_eq!(room.panel(3, row, value), Err(9), "{row} {value}");
        }
    }
    assert!(room.panel(3, 6, 0).is_ok());
}

#[test]
fn values_that_are_not_permitted() {
    let mut room = Room::new(&[(1, b"#T"), (4, b"#C"), (6, b"#P")]);
    for (owner, row, value, right) in [
        (0, 0, 150, true),
        (0, 0, 151, false),
        (0, 0, -150, true),
        (0, 0, -151, false),
        (0, 1, 2, false),
        (0, 1, -1, false),
        (1, 0, 9, true),
        (1, 0, 10, false),
        (1, 1, -605, true),
        (1, 1, -610, false),
        (1, 1, -32, false),
        (1, 1, 120, true),
        (1, 1, 125, false),
        (2, 1, 43_200, true),
        (2, 1, 43_201, false),
        (2, 1, 0, false),
        (0, 0, i64::MIN, false),
        (0, 0, i64::MAX, false),
        (0, 0, 1 << 32, false),
        (0, 1, (1 << 32) + 1, false),
        (0, 0, -(1 << 32), false),
    ] {
        let answer = room.panel(owner, row, value);
        assert_eq!(answer.is_ok(), right, "{owner} {row} {value}");
        assert!(right || answer == Err(9));
    }
}

#[test]
fn the_order_of_refusals() {
    // 1, 2, 3, then 9; none of them asks whether there is something to tell.
    let mut wrong = wall();
    wrong.table[0] = 0;
    wrong.values.pop();
    assert_eq!(wrong.panel_into(63, 9, 9, 999), Err(1));
    wrong.table[0] = 1;
    assert_eq!(wrong.panel_into(63, 9, 9, 999), Err(2));
    wrong.values.push(2);
    assert_eq!(wrong.panel_into(63, 9, 9, 999), Err(2));
    wrong.values[45] = 0;
    for room in [0, 1, 63] {
        assert_eq!(wrong.panel_into(room, 9, 9, 999), Err(3));
        assert_eq!(wrong.panel_into(room, 0, 0, 1), Err(3));
        assert_eq!(wrong.panel_into(room, 0, 0, 0), Err(3));
        assert_eq!(wrong.panel_into(room, 1, 0, 1), Err(3));
    }
    assert_eq!(wrong.panel_into(64, 9, 9, 999), Err(9));
    assert_eq!(wrong.panel_into(65, 0, 0, 1), SILENT);
    assert!(wrong.panel_into(200, 1, 0, 1).is_ok());
    // A read-only value is judged as well, though no panel sets it.
    wrong.values[13 + 5] = -55;
    assert_eq!(wrong.panel(0, 0, 0), Err(2));
}

#[test]
fn between_the_pieces_of_a_line() {
    // A panel change knows no port, and a line finds what it has set.
    let mut room = wall();
    room.feed(b"GA\"#De").unwrap();
    let held = room.port;
    room.panel(3, 6, -125).unwrap();
    assert_eq!(room.port, held);
    let reply = room.feed(b"sk\">1>1\r").unwrap().1;
    assert_eq!(reply, b"GA\"#Desk\">1>1=-12.5\r");
    room.port = [0; 66];
    room.port[0] = 65;
    assert_eq!(room.panel(0, 0, 1), SILENT);
}

#[test]
fn records_of_both_lengths() {
    let table = [mixer(1, 1, b"#M"), record(2, b"#S"), mixer(1, 2, b"N")].concat();
    let layouts = vec![Layout::mixer(1, 1), Layout::of(2), Layout::mixer(1, 2)];
    let mut room = Room::of(table, layouts);
    assert_eq!(room.panel(1, 0, 1), told("GA\"#S\">1=O\r"));
    assert_eq!(room.panel(2, 6, 0xC000_0000), SILENT);
    assert_eq!(
        room.panel(0, 4, 0x8000_0000),
        told("GA\"#M\">3>1=80000000\r")
    );
    let words = 0x8000_0000;
    let expected = [0, 0, 0, 0, words, 1, 0, 0, 0, 0, 0, 0, 0xC000_0000];
    assert_eq!(room.values, expected);
}
