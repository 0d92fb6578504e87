//! The size of a restore list, asked for before there is a buffer.

mod common;
use common::{mixer, record, Room};
use reference::layout::Layout;

/// The bytes and lines that the size call tells are those of the list, and a
/// buffer of fewer bytes is refused with 8, whatever its length.
#[test]
fn every_length() {
    let room = Room::a();
    let wanted = [-40, 1, 5, 0, 0, 0, 1];
    for (selection, size) in [
        ([0, 0], (0, 0)),
        ([0, 1], (10, 1)),
        ([1, 0], (33, 3)),
        ([1, 1], (43, 4)),
    ] {
        assert_eq!(room.restore_size(&selection, &wanted), Ok(size));
        for length in 0..100 {
            let written = room.restore_write(&selection, &wanted, length);
            let counts = written.map(|(list, lines)| (list.len(), lines));
            let expected = if length < size.0 { Err(8) } else { Ok(size) };
            assert_eq!(counts, expected, "{length}");
        }
    }
}

/// What one call is given: room, selection, wanted values.
type Given = (Room, Vec<u8>, Vec<i64>);

/// The refusals that both calls have, in their order, and what earns them.
const WRONGS: [(u8, fn(&mut Given)); 8] = [
    (1, |given| given.0.table[0] = 8),
    (2, |given| given.0.values[11] = -55),
    (5, |given| given.1[3] = 2),
    (5, |given| given.1.push(0)),
    (6, |given| given.2[1] = 2),
    (6, |given| given.2.push(0)),
    (7, |given| given.2[6] = 1),
    (7, |given| given.2[39] = 1),
];

/// Whatever is wrong, and however much, both calls refuse with the first
/// number, before the buffer is looked at.
#[test]
fn refused_alike() {
    for wrong in 0..1 << WRONGS.len() {
        let room = Room::new(&[(1, b"T"), (5, b"R"), (2, b"D"), (3, b"D")]);
        let mut wanted = room.values.clone();
        wanted[0] = -40;
        let mut given = (room, vec![1; 4], wanted);
        let mut expected = Ok((11, 1));
        for (place, (number, spoil)) in WRONGS.iter().enumerate() {
            if wrong >> place & 1 == 1 {
                spoil(&mut given);
                expected = expected.and(Err(*number));
            }
        }
        let (room, selection, wanted) = given;
        assert_eq!(
            room.restore_size(&selection, &wanted),
            expected,
            "{wrong:b}"
        );
        for length in [0, 10, 11, 12, 1000] {
            let written = room.restore_write(&selection, &wanted, length);
            let counts = written.map(|(list, lines)| (list.len(), lines));
            let expected = match length {
                0..11 => expected.and(Err(8)),
                _ => expected,
            };
            assert_eq!(counts, expected, "{wrong:b}, {length}");
        }
    }
}

/// All values of the largest room.
#[test]
fn the_longest_list() {
    let labels = (0..64).map(|number| format!("{number:032}").into_bytes());
    let table = labels.flat_map(|label| mixer(32, 32, &label)).collect();
    let room = Room::of(table, vec![Layout::mixer(32, 32); 64]);
    let wanted: Vec<i64> = (0..10_240)
        .map(|place| match place % 160 {
            128.. => 0xFFFF_FFFF,
            row if row % 2 == 0 => -605,
            _ => 1,
        })
        .collect();
    assert_eq!(room.restore_size(&[1; 64], &wanted), Ok((479_552, 10_240)));
    assert_eq!(room.restore_write(&[1; 64], &wanted, 479_551), Err(8));
    assert!(room.restore_write(&[1; 64], &wanted, 479_552).is_ok());
}

/// Words are measured as they are said, and modules that are not chosen are
/// not measured.
#[test]
fn words_and_chosen_modules() {
    let room = Room::of(
        [mixer(1, 10, b"M"), record(2, b"S")].concat(),
        vec![Layout::mixer(1, 10), Layout::of(2)],
    );
    let size = |selection: [u8; 2], word: i64| {
        let mut wanted = room.values.clone();
        let place = wanted.len() - 2;
        wanted[place] = word;
        wanted[place + 1] = 1;
        room.restore_size(&selection, &wanted)
    };
    assert_eq!(size([1, 0], 0x8000_0000), Ok((16, 1)));
    assert_eq!(size([1, 0], 0x0040_0000), Ok((17, 1)));
    assert_eq!(size([1, 0], 0x8040_0000), Ok((19, 1)));
    assert_eq!(size([1, 1], 0x8040_0000), Ok((29, 2)));
    assert_eq!(size([0, 1], 0x8040_0000), Ok((10, 1)));
    assert_eq!(size([0, 1], 1), Ok((10, 1)));
    assert_eq!(size([1, 1], 1), Err(6));
}
