//! Rooms with Standard Mixers, over the archive.

use egrivundo::{Port, Refusal, Room, Type};

fn mixer(inputs: u8, outputs: u8) -> Type {
    Type::StandardMixer { inputs, outputs }
}

#[test]
fn rooms_with_mixers() {
    let modules = [
        (mixer(2, 3), "Desk"),
        (Type::SmartBass, "Bass"),
        (mixer(1, 1), "Monitor"),
    ];
    let room = Room::new(&modules).unwrap();
    assert_eq!(room.table().len(), 35 + 33 + 35);
    let found: Vec<_> = room.modules().map(|m| (m.kind, m.label, m.start)).collect();
    let expected = [
        (modules[0].0, &b"Desk"[..], 0),
        (modules[1].0, b"Bass", 12),
        (modules[2].0, b"Monitor", 13),
    ];
    assert_eq!(found, expected);
    assert_eq!(room.values(), [0; 18]);
    for size in [0, 33, 255] {
        for kind in [mixer(size, 1), mixer(1, size)] {
            assert_eq!(Room::new(&[(kind, "Desk")]), Err(Refusal::Table));
        }
    }
}

#[test]
fn words_and_crosspoints() {
    let mut room = Room::new(&[(mixer(2, 3), "Desk")]).unwrap();
    let mut ask = |line: &str| room.line(line.as_bytes()).unwrap().to_string();
    assert_eq!(ask(r#"SA"Desk">3>2=A0000000"#), "ACK");
    assert_eq!(ask(r#"GA"Desk">4>(2,2)"#), r#"GA"Desk">4>(2,2)=F"#);
    assert_eq!(ask(r#"SA"Desk">4>(2,2)=T"#), "ACK");
    assert_eq!(ask(r#"GA"Desk">4>(2,2)"#), r#"GA"Desk">4>(2,2)=O"#);
    assert_eq!(ask(r#"GA"Desk">3>2"#), r#"GA"Desk">3>2=E0000000"#);
    assert_eq!(ask(r#"SA"Desk">3>2=10000000"#), "NAK 03");
    assert_eq!(ask(r#"SA"Desk">4>(2,4)=O"#), "NAK 02");
    assert_eq!(room.values()[10..], [0, 0xE000_0000]);
}

#[test]
fn the_largest_room() {
    let names: Vec<String> = (0..64).map(|number| format!("{number:032}")).collect();
    let modules: Vec<(Type, &str)> = names.iter().map(|n| (mixer(32, 32), &n[..])).collect();
    let room = Room::new(&modules).unwrap();
    assert_eq!(room.table().len(), Room::TABLE);
    assert_eq!(room.values().len(), Room::VALUES);
    // Levels at their lowest, mutes on, every output of every input.
    let wanted: Vec<i64> = (0..room.values().len())
        .map(|place| match place % 160 {
            128.. => 0xFFFF_FFFF,
            row if row % 2 == 0 => -605,
            _ => 1,
        })
        .collect();
    let size = room.restore_size(&[1; 64], &wanted).unwrap();
    assert_eq!(size.to_string(), "479552 bytes, 10240 lines");
    let list = room.put_back(&[1; 64], &wanted).unwrap();
    assert_eq!((list.bytes().len(), list.lines()), (479_552, 10_240));
    let mut after = room.clone();
    let first = list.bytes().len() / 64;
    let mut port = Port::new();
    let replies = after.feed_all(&mut port, &list.bytes()[..first]).unwrap();
    assert!(replies.len() == 160 && replies.iter().all(|reply| reply.is_ack()));
    assert!(port.is_fresh());
    assert_eq!(after.values()[..160], wanted[..160]);
    assert_eq!(after.values()[160..], room.values()[160..]);
}
