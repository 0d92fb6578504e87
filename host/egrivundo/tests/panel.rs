//! Changes at a wall panel, over the archive.

use egrivundo::{bit, calls, Index, Port, Refusal, Room, Type, Wish};

const DESK: Type = Type::StandardMixer {
    inputs: 2,
    outputs: 3,
};

fn room() -> Room {
    Room::new(&[
        (Type::ToneControlEq, "Tone"),
        (DESK, "#Desk"),
        (Type::ConferenceRouter, "#Router"),
        (Type::SmartBass, "#Twin"),
        (Type::DynamicEq, "#Twin"),
    ])
    .unwrap()
}

#[test]
fn every_settable_row_and_no_other() {
    let room = room();
    for (number, module) in room.modules().enumerate() {
        let told = module.label.starts_with(b"#");
        let rows = module.kind.rows();
        for (place, row) in rows.iter().enumerate() {
            for value in [row.low, row.high] {
                let mut after = room.clone();
                let changed = module.values[place] != value;
                let turned = after.panel(number, place, value);
                if !row.settable {
                    assert_eq!(turned, Err(Refusal::Row));
                    assert_eq!(after, room);
                    continue;
                }
                assert_eq!(turned.unwrap().is_empty(), !(told && changed));
                let mut expected = room.values().to_vec();
                expected[module.start + place] = value;
                assert_eq!(after.values(), expected);
            }
            for wrong in [row.low - 1, row.high + 1, i64::MIN, i64::MAX] {
                let refused = room.clone().panel(number, place, wrong);
                assert_eq!(refused, Err(Refusal::Row), "{} {wrong}", row.index);
            }
        }
        for wrong in [rows.len(), rows.len() + 1, 256, 1 << 32, usize::MAX] {
            assert_eq!(room.clone().panel(number, wrong, 0), Err(Refusal::Row));
        }
    }
    for wrong in [5, 256, 1 << 32, usize::MAX] {
        assert_eq!(room.clone().panel(wrong, 0, 0), Err(Refusal::Row));
    }
}

#[test]
fn told_as_a_get_line_is_answered() {
    let mut room = room();
    let (word, _) = DESK.find(Index::Two(3, 2)).unwrap();
    let notice = room.panel(1, word, bit(3)).unwrap();
    assert_eq!(notice.to_string(), r##"GA"#Desk">3>2=20000000"##);
    assert_eq!(notice, room.line(br##"GA"#Desk">3>2"##).unwrap());
    assert_eq!(notice.fault(), None);
    let notice = room.panel(2, 31, -125).unwrap();
    assert_eq!(notice, room.line(br##"GA"#Router">2>17"##).unwrap());
    // Two bear this label: told, and out of reach of lines.
    let notice = room.panel(4, 0, 1).unwrap();
    assert_eq!(notice.to_string(), r##"GA"#Twin">1=O"##);
    assert_eq!(room.line(br##"GA"#Twin">1"##).unwrap().nak(), Some("01"));
    // A line that sets a value tells nothing of it.
    assert!(room.line(br##"SA"#Router">2>17=-3"##).unwrap().is_ack());
    assert!(room.panel(2, 31, -30).unwrap().is_empty());
}

#[test]
fn between_the_pieces_of_a_line() {
    let mut room = room();
    let mut port = Port::new();
    assert!(room.feed(&mut port, b"GA\"To").unwrap().reply.is_empty());
    assert!(room.panel(0, 0, -40).unwrap().is_empty());
    assert_eq!(port.held(), b"GA\"To");
    let fed = room.feed(&mut port, b"ne\">1\r").unwrap();
    assert_eq!(fed.reply.bytes(), b"GA\"Tone\">1=-4\r");
}

#[test]
fn a_list_is_for_a_room_where_no_knob_turns() {
    let mut room = room();
    let list = Wish::from_present(&room).set("Tone", 1, -40).unwrap();
    let list = list.set("Tone", 3, 5).unwrap().list().unwrap();
    assert!(room.panel(0, 2, 60).unwrap().is_empty());
    assert!(room.panel(0, 4, 70).unwrap().is_empty());
    room.feed_all(&mut Port::new(), list.bytes()).unwrap();
    // What the list says is so; what it does not say is as the knob left it.
    assert_eq!(room.values()[..6], [-40, 0, 5, 0, 70, 0]);
}

#[test]
fn the_bare_call() {
    let room = room();
    let mut values = room.values().to_vec();
    let call = |values: &mut [i64], table: &[u8], length: usize| {
        let mut reply = vec![0xEE; length];
        let mut told = [9];
        let answer = calls::panel(table, values, 9, 9, 9, &mut reply, &mut told);
        assert_eq!(told, [0]);
        assert!(reply.iter().all(|&byte| byte == 0xEE));
        answer
    };
    assert_eq!(call(&mut values[1..], &room.table()[1..], 63), 1);
    assert_eq!(call(&mut values[1..], room.table(), 63), 2);
    assert_eq!(call(&mut values, room.table(), 63), 3);
    assert_eq!(call(&mut values, room.table(), 64), 9);
    assert_eq!(values, room.values());
    let words = Refusal::Row.to_string();
    assert!(words.starts_with("refused with 9: "), "{words}");
}
