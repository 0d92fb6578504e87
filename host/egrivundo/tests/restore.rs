//! The size of a restore list, and the list, over the archive.

use egrivundo::{Refusal, Room, Size, Type, Wish};

fn room() -> Room {
    Room::new(&[
        (Type::ToneControlEq, "Tone"),
        (Type::ConferenceRouter, "Desk"),
        (Type::SmartBass, "Twin"),
        (Type::DynamicEq, "Twin"),
    ])
    .unwrap()
}

/// The same refusal by the size call, by the writing call whatever its buffer,
/// and by what stands over both.
fn refused(room: &Room, selection: &[u8], wanted: &[i64]) -> Refusal {
    let refusal = room.restore_size(selection, wanted).unwrap_err();
    for length in [0, 1, 1000] {
        let mut list = vec![7; length];
        let written = room.restore_write(selection, wanted, &mut list);
        assert_eq!(written, Err(refusal));
        assert!(list.iter().all(|&byte| byte == 7));
    }
    assert_eq!(room.put_back(selection, wanted), Err(refusal));
    refusal
}

#[test]
fn refusals() {
    let room = room();
    let same = room.values().to_vec();
    assert_eq!(refused(&room, &[1; 3], &same), Refusal::Selection);
    assert_eq!(refused(&room, &[2; 4], &same), Refusal::Selection);
    assert_eq!(refused(&room, &[1; 4], &same[1..]), Refusal::Wanted);
    let mut wanted = same.clone();
    wanted[0] = 151;
    assert_eq!(refused(&room, &[1; 4], &wanted), Refusal::Wanted);
    assert!(room.put_back(&[0, 1, 1, 1], &wanted).unwrap().is_empty());
    let mut wanted = same.clone();
    wanted[40] = 1;
    assert_eq!(refused(&room, &[1; 4], &wanted), Refusal::Reach);
    let mut wanted = same;
    wanted[6] = 1;
    assert_eq!(refused(&room, &[1; 4], &wanted), Refusal::Reach);
}

#[test]
fn nothing_to_put_back() {
    let room = room();
    let none = Size { bytes: 0, lines: 0 };
    for selection in [[0; 4], [1; 4]] {
        assert_eq!(room.restore_size(&selection, room.values()), Ok(none));
        let written = room.restore_write(&selection, room.values(), &mut []);
        assert_eq!(written, Ok(none));
        let list = room.put_back(&selection, room.values()).unwrap();
        assert!(list.is_empty() && list.size() == none);
    }
    assert_eq!(none.to_string(), "0 bytes, 0 lines");
}

/// The writing call is refused in every buffer that is shorter than what was
/// told, and writes the same into every other.
#[test]
fn every_buffer() {
    let room = room();
    let mut wanted = room.values().to_vec();
    wanted[..3].copy_from_slice(&[-40, 1, 5]);
    wanted[12] = -5;
    let size = room.restore_size(&[1; 4], &wanted).unwrap();
    assert_eq!((size.bytes, size.lines), (60, 4));
    let list = room.put_back(&[1; 4], &wanted).unwrap();
    assert_eq!(list.size(), size);
    for length in 0..100 {
        let mut buffer = vec![7; length];
        let written = room.restore_write(&[1; 4], &wanted, &mut buffer);
        let (mine, rest) = match length {
            0..60 => (0, &buffer[..]),
            _ => (60, &buffer[60..]),
        };
        assert_eq!(written.ok(), (mine == 60).then_some(size), "{length}");
        assert_eq!(buffer[..mine], list.bytes()[..mine]);
        assert!(rest.iter().all(|&byte| byte == 7), "{length}");
    }
    let short = room.restore_write(&[1; 4], &wanted, &mut [0; 59]);
    assert_eq!(short, Err(Refusal::List));
}

#[test]
fn the_size_of_a_wish() {
    let room = room();
    let wish = Wish::from_present(&room).set("Tone", 1, -40).unwrap();
    let size = wish.size().unwrap();
    assert_eq!(size.to_string(), "14 bytes, 1 line");
    assert_eq!(wish.list().unwrap().size(), size);
    let wish = wish.set("Desk", (0, 1), 3).unwrap();
    assert_eq!(wish.size(), Err(Refusal::Reach));
    assert_eq!(wish.list(), Err(Refusal::Reach));
}
