//! Wishes by label and index.

use egrivundo::{Index, Refusal, Room, Type, Why, Wish, WishError};

fn room() -> Room {
    let desk = Type::StandardMixer {
        inputs: 2,
        outputs: 3,
    };
    Room::new(&[
        (Type::ToneControlEq, "Tone"),
        (desk, "Desk"),
        (Type::ConferenceRouter, "Router"),
        (Type::SmartBass, "Twin"),
        (Type::DynamicEq, "Twin"),
    ])
    .unwrap()
}

#[test]
fn by_label_and_index() {
    let room = room();
    let wish = Wish::from_present(&room)
        .set("Tone", "1", -40)
        .and_then(|wish| wish.set("Tone", 2, 1))
        .and_then(|wish| wish.set("Desk", (1, 3), -30))
        .and_then(|wish| wish.set("Desk", ">4>(2,3)", 1))
        .and_then(|wish| wish.set("Desk", "4>(2,1)", 1))
        .and_then(|wish| wish.set("Desk", Index::Two(3, 1), 0x4000_0000))
        .unwrap();
    assert_eq!(wish.selection(), [1, 1, 0, 0, 0]);
    assert_eq!(wish.wanted()[..2], [-40, 1]);
    assert_eq!(wish.wanted()[6 + 2], -30);
    assert_eq!(wish.wanted()[6 + 10..6 + 12], [0x4000_0000, 0xA000_0000]);
    let list = wish.list().unwrap();
    let texts: Vec<_> = list.texts().map(String::from_utf8_lossy).collect();
    let expected = [
        "SA\"Tone\">1=-4",
        "SA\"Tone\">2=O",
        "SA\"Desk\">1>3=-3",
        "SA\"Desk\">4>(1,2)=O",
        "SA\"Desk\">3>2=A0000000",
    ];
    assert_eq!(texts, expected);
    // An output can be turned off again, and a choice alone moves nothing.
    let off = Wish::from_present(&room).set("Desk", "4>(1,1)", 1).unwrap();
    let off = off.set("Desk", "4>(1,1)", 0).unwrap();
    assert!(off.list().unwrap().is_empty());
    let chosen = Wish::from_present(&room).choose("Tone").unwrap();
    assert_eq!(chosen.selection(), [1, 0, 0, 0, 0]);
    assert!(chosen.list().unwrap().is_empty());
}

#[test]
fn what_is_wrong() {
    let room = room();
    for (label, index, value, words) in [
        ("Q", "1", 0, "no module of the room bears the label \"Q\""),
        (
            "Twin",
            "1",
            1,
            "2 modules of the room bear the label \"Twin\"",
        ),
        ("Tone", "x", 1, "no index: x"),
        ("Tone", "1>1", 1, "\"Tone\" has no index 1>1"),
        ("Desk", "4>(3,1)", 1, "\"Desk\" has no index 4>(3,1)"),
        (
            "Tone",
            "1",
            -151,
            "1 of \"Tone\" cannot be -151: it is from -150 to 150",
        ),
        ("Tone", "2", 2, "2 of \"Tone\" cannot be 2: it is 0 or 1"),
        (
            "Desk",
            "1>1",
            3,
            "1>1 of \"Desk\" cannot be 3: it is from -605 to 120 in steps of 5",
        ),
        (
            "Desk",
            "3>1",
            0x1000_0000,
            "3>1 of \"Desk\" cannot be 268435456: it is a word with bits of E0000000 alone",
        ),
        (
            "Desk",
            "4>(1,1)",
            -536_870_912,
            "4>(1,1) of \"Desk\" cannot be -536870912: it is 0 or 1",
        ),
    ] {
        let error = Wish::from_present(&room).set(label, index, value);
        assert_eq!(error.unwrap_err().to_string(), words);
    }
    let error = Wish::from_present(&room).set_at(5, 1, 1).unwrap_err();
    let words = "no module 5: the room has 5, counted from 0";
    assert_eq!(error.to_string(), words);
}

#[test]
fn beyond_reach() {
    let room = room();
    let wish = Wish::from_present(&room)
        .set("Router", "0>1", 3)
        .and_then(|wish| wish.set("Router", "1>1", -10))
        .and_then(|wish| wish.set_at(4, 1, 1))
        .unwrap();
    assert_eq!(wish.list(), Err(Refusal::Reach));
    let found: Vec<_> = wish
        .beyond_reach()
        .iter()
        .map(|beyond| {
            (
                beyond.module,
                beyond.place,
                beyond.index.to_string(),
                beyond.why,
            )
        })
        .collect();
    let expected = [
        (2, 18, "0>1".to_string(), Why::ReadOnly),
        (4, 52, "1".to_string(), Why::SharedLabel),
    ];
    assert_eq!(found, expected);
    // A read-only parameter that is wanted as it is stands in no one's way.
    let same = Wish::from_present(&room).set("Router", "0>1", 0).unwrap();
    assert!(same.beyond_reach().is_empty() && same.list().is_ok());
}

#[test]
fn from_a_saved_room() {
    let mut then = room();
    for line in [
        "SA\"Tone\">3=1.5",
        "SA\"Desk\">4>(1,1)=O",
        "SA\"Desk\">1>2=O",
    ] {
        assert!(then.line(line.as_bytes()).unwrap().is_ack());
    }
    let room = room();
    let wish = Wish::from_present(&room).as_in(&then, "Desk").unwrap();
    assert_eq!(wish.wanted()[..6], room.values()[..6]);
    assert_eq!(wish.wanted()[6..18], then.values()[6..18]);
    assert_eq!(wish.list().unwrap().lines(), 2);
    for (label, words) in [
        ("Q", "no module of the room bears the label \"Q\""),
        ("Twin", "2 modules of the room bear the label \"Twin\""),
    ] {
        let error = Wish::from_present(&room).as_in(&then, label).unwrap_err();
        assert_eq!(error.to_string(), words);
    }
    let other = |kind| Room::new(&[(kind, "Tone"), (kind, "Desk"), (kind, "Desk")]).unwrap();
    let bass = other(Type::SmartBass);
    for (label, words) in [
        (
            "Router",
            "no module of the saved room bears the label \"Router\"",
        ),
        (
            "Desk",
            "2 modules of the saved room bear the label \"Desk\"",
        ),
        (
            "Tone",
            "\"Tone\" is a Tone Control EQ in the room and a SmartBass in the saved room",
        ),
    ] {
        let error = Wish::from_present(&room).as_in(&bass, label).unwrap_err();
        assert_eq!(error.to_string(), words);
    }
    let larger = Type::StandardMixer {
        inputs: 2,
        outputs: 4,
    };
    let larger = Room::new(&[(larger, "Desk")]).unwrap();
    let error = Wish::from_present(&room).as_in(&larger, "Desk");
    assert!(matches!(error, Err(WishError::OtherType { .. })));
}
