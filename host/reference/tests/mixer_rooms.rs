//! Rooms with Standard Mixers: tables, values, the log and restore lists.

mod common;
use common::{mixer, record, Room, ACK};
use reference::catalogue::Kind;
use reference::layout::Layout;

#[test]
fn rows() {
    let sizes = (1..=32).flat_map(|m| (1..=32).map(move |n| (m, n)));
    for (inputs, outputs) in sizes {
        let layout = Layout::mixer(inputs, outputs);
        let rows: Vec<_> = layout.rows().collect();
        assert_eq!(
            rows.len(),
            3 * usize::from(inputs) + 2 * usize::from(outputs)
        );
        assert_eq!(rows.len(), layout.count());
        for row in &rows {
            assert!(row.settable && row.low < row.high);
            assert_eq!((row.high - row.low) % i64::from(row.step), 0);
        }
        assert!(rows.windows(2).all(|pair| pair[0].index < pair[1].index));
        let last = rows[rows.len() - 1];
        assert_eq!(last.index, (3, Some(inputs.into())));
        assert_eq!(last.kind, Kind::Word);
    }
    assert_eq!(Layout::mixer(32, 32).count(), 160);
    let three = Layout::mixer(1, 3).rows().last().unwrap();
    assert_eq!((three.high, three.step), (0xE000_0000, 0x2000_0000));
    for output in 1..=32 {
        assert_eq!(three.permits(1 << (32 - output)), output <= 3);
    }
    assert!(!three.permits(1 << 32) && !three.permits(-0x8000_0000));
}

#[test]
fn tables() {
    let sound = |bytes: &[u8]| reference::table(bytes) == 0;
    for size in 0..=255 {
        let right = (1..=32).contains(&size);
        assert_eq!(sound(&mixer(size, 1, b"M")), right);
        assert_eq!(sound(&mixer(1, size, b"M")), right);
    }
    // The sizes are no part of the label's field, and belong to kind 7 alone.
    assert!(sound(&mixer(13, 32, &[b'M'; 32])));
    assert!(!sound(&mixer(1, 1, b"")) && !sound(&mixer(1, 1, b"a\0b")));
    assert!(!sound(&record(7, b"M")));
    for kind in [1, 6, 8] {
        let mut other = mixer(1, 1, b"M");
        other[0] = kind;
        assert!(!sound(&other));
    }
    // Records of both lengths, in any order, cut at any byte.
    let (desk, bass) = (mixer(1, 2, b"M"), record(2, b"S"));
    let both = [&desk[..], &bass, &desk, &desk, &bass].concat();
    let ends = [0, 35, 68, 103, 138, 171];
    for cut in 0..=both.len() {
        assert_eq!(sound(&both[..cut]), ends.contains(&cut), "{cut}");
    }
    assert!(sound(&mixer(32, 32, b"M").repeat(64)));
    assert_eq!(mixer(32, 32, b"M").repeat(64).len(), 2240);
    assert!(!sound(&mixer(32, 32, b"M").repeat(65)));
}

#[test]
fn values() {
    let mut room = Room::mixers(&[(2, 3, b"M"), (1, 32, b"N")]);
    assert_eq!(room.values, vec![0; 12 + 67]);
    assert_eq!(room.feed(b""), Ok((0, vec![])));
    for (place, value, right) in [
        (10, 0xE000_0000, true),
        (10, 0x1000_0000, false),
        (11, 0x8000_0001, false),
        (11, 0x1_0000_0000, false),
        (11, -0x8000_0000, false),
        (11, -1, false),
        (0, -605, true),
        (4, -605, true),
        (1, 2, false),
        (78, 0xFFFF_FFFF, true),
        (78, 0x1_0000_0000, false),
        (78, -1, false),
    ] {
        let before = room.values[place];
        room.values[place] = value;
        let expected = if right { Ok((0, vec![])) } else { Err(2) };
        assert_eq!(room.feed(b""), expected, "{place} {value}");
        room.values[place] = before;
    }
    room.values.pop();
    assert_eq!(room.feed(b""), Err(2));
    // The largest room.
    let names: Vec<String> = (0..64).map(|number| format!("{number:032}")).collect();
    let mixers: Vec<_> = names.iter().map(|name| (32, 32, name.as_bytes())).collect();
    let mut room = Room::mixers(&mixers);
    assert_eq!((room.table.len(), room.values.len()), (2240, 10_240));
    let line = format!("SA\"{}\">4>(32,32)=O", names[63]);
    assert_eq!(room.line(line.as_bytes()), ACK);
    assert_eq!(room.values[10_239], 1);
}

#[test]
fn logs() {
    let table = [mixer(1, 1, b"M"), record(1, b"T"), mixer(1, 1, b"N")].concat();
    for (line, told) in [
        (&b"\"M\""[..], [1, 1, 1]),
        (b"\"T\"", [1, 36, 1]),
        (b"GA\"N\">4>(1,1)", [1, 69, 1]),
    ] {
        let mut found = [9; 3];
        reference::log(&table, line, &mut found);
        assert_eq!(found, told);
    }
}

/// The list for one mixer of two inputs and ten outputs, whose words are given.
fn list(present: [i64; 2], wanted: [i64; 2]) -> Result<(String, u64), u8> {
    let mut room = Room::mixers(&[(2, 10, b"M")]);
    let mut wish = room.values.clone();
    room.values[24..].copy_from_slice(&present);
    wish[24..].copy_from_slice(&wanted);
    let (list, lines) = room.restore_write(&[1], &wish, 1000)?;
    assert_eq!(room.restore_write(&[1], &wish, list.len()).unwrap().0, list);
    if !list.is_empty() {
        assert_eq!(room.restore_write(&[1], &wish, list.len() - 1), Err(8));
    }
    for line in list.split_inclusive(|&byte| byte == b'\r') {
        assert_eq!(room.line(&line[..line.len() - 1]), ACK);
    }
    assert_eq!(room.values, wish);
    Ok((String::from_utf8(list).unwrap(), lines))
}

#[test]
fn restores() {
    let one = |from, to| list([from, 0], [to, 0]).unwrap().0;
    assert_eq!(list([0, 0], [0, 0]), Ok((String::new(), 0)));
    // A single output, on and off, at every place.
    for output in 1..=10 {
        let bit = 1 << (32 - output);
        let rest = 0xAA80_0000 & !bit;
        let line = format!("SA\"M\">4>(1,{output})=");
        assert_eq!(one(rest, rest | bit), format!("{line}O\r"));
        assert_eq!(one(rest | bit, rest), format!("{line}F\r"));
    }
    // Two, and all.
    assert_eq!(one(0, 0xC000_0000), "SA\"M\">3>1=C0000000\r");
    assert_eq!(one(0x8000_0000, 0x0040_0000), "SA\"M\">3>1=00400000\r");
    assert_eq!(one(0xFFC0_0000, 0), "SA\"M\">3>1=00000000\r");
    // Each word is one line, by its own difference.
    let both = "SA\"M\">4>(1,1)=O\rSA\"M\">3>2=80400000\r".to_string();
    let answer = list([0, 0], [0x8000_0000, 0x8040_0000]);
    assert_eq!(answer, Ok((both, 2)));
    assert_eq!(list([0, 0], [1, 0]), Err(6));
    assert_eq!(list([0, 0], [0x1_0000_0000, 0]), Err(6));
}

#[test]
fn levels_before_words() {
    let mut room = Room::of(
        [record(2, b"S"), mixer(1, 1, b"M"), record(2, b"M")].concat(),
        vec![Layout::of(2), Layout::mixer(1, 1), Layout::of(2)],
    );
    let wanted = [1, -5, 1, 120, 1, 0x8000_0000, 0];
    assert_eq!(room.restore_write(&[1; 3], &wanted, 999), Err(7));
    room.table[69] = b'N';
    let list = b"SA\"S\">1=O\rSA\"M\">1>1=-0.5\rSA\"M\">1>2=O\rSA\"M\">2>1=12\r\
                 SA\"M\">2>2=O\rSA\"M\">4>(1,1)=O\r";
    let answer = room.restore_write(&[1; 3], &wanted, 999);
    assert_eq!(answer, Ok((list.to_vec(), 6)));
    // A word that is not chosen is not judged.
    let wanted = [1, 0, 0, 0, 0, 1, 0];
    let alone = Ok((b"SA\"S\">1=O\r".to_vec(), 1));
    assert_eq!(room.restore_write(&[1, 0, 0], &wanted, 999), alone);
    assert_eq!(room.restore_write(&[1, 1, 0], &wanted, 999), Err(6));
}
