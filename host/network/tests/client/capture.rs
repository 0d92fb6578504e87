//! `egrivundo capture` against boxes that answer as they like.

use std::fs;
use std::path::Path;
use std::time::{Duration, Instant};

use egrivundo::Room;
use files::room_file;

use crate::fake::{Act, Fake};
use crate::program::{egrivundo, example, Folder, Told, LIMIT, LONG};

/// Captures the viewing room from a box with this script, which answers.
fn capture(
    test: &str,
    script: impl FnMut(&mut Room, &str) -> Act + Send + 'static,
) -> (Told, Option<String>) {
    capture_within(LONG, test, script)
}

/// The same, with a time limit for each reply.
fn capture_within(
    limit: &str,
    test: &str,
    script: impl FnMut(&mut Room, &str) -> Act + Send + 'static,
) -> (Told, Option<String>) {
    let (modules, room) = example("viewing-room.room");
    let fake = Fake::new(room, script);
    let folder = Folder::new(test);
    let out = folder.path("then.room");
    let told = egrivundo(&[
        "capture",
        &fake.address,
        &modules,
        "-o",
        &out,
        "--timeout",
        limit,
    ]);
    (told, fs::read_to_string(out).ok())
}

fn captured(text: &Option<String>) -> Room {
    room_file::parse(text.as_ref().expect("a room file")).expect("values everywhere")
}

#[test]
fn a_whole_room() {
    let (modules, room) = example("outside-broadcast.room");
    let fake = Fake::plain(room.clone());
    let (status, text, errors) = egrivundo(&["capture", &fake.address, &modules]);
    assert_eq!(status, Some(0), "{errors}");
    let first = text.lines().next().unwrap();
    let all = room.values().len();
    assert!(
        first.starts_with(&format!("# Captured from {}, 20", fake.address)),
        "{first}"
    );
    assert!(
        first.ends_with(&format!(": {all} of {all} parameters.")),
        "{first}"
    );
    assert_eq!(captured(&Some(text)), room);
    assert_eq!(
        errors,
        format!("Reading {all} parameters from {}\n", fake.address)
    );
}

#[test]
fn what_real_boxes_send() {
    let (_, room) = example("viewing-room.room");
    // A decimal for each level, spaces, a `>` before `=`, a line feed, news of a knob.
    let (told, text) = capture("real", |room, line| {
        let reply = room.line(line.as_bytes()).unwrap().to_string();
        let (left, value) = reply.split_once('=').expect("a value");
        let level =
            value.parse::<i64>().is_ok() && !line.ends_with(">1>1") && !line.contains(">0>");
        let value = if level && !line.contains(">1>9") {
            format!("{value}.0")
        } else {
            value.to_string()
        };
        let left = left.replacen("GA", "GA ", 1);
        Act::Say(format!("\nGA\"#Hall\">1=-3\r\n{left}>={value} \r\n").into_bytes())
    });
    assert_eq!(told.0, Some(0), "{}", told.2);
    assert_eq!(captured(&text), room);
}

#[test]
fn no_value() {
    // NAK without its space, with it, and a value that the row does not permit.
    let (told, text) = capture("nak", |_, line| match line {
        "GA\"Screen\">1" => Act::Say(b"\x1501\r".to_vec()),
        "GA\"Screen\">2" => Act::Say(b"\x15 02\r".to_vec()),
        "GA\"Screen\">3" => Act::Say(b"GA\"Screen\">3=15.5\r".to_vec()),
        // It shall not write lines of its own into the room file.
        "GA\"Screen\">4" => Act::Say(b"GA\"Screen\">4=x\nmodule 2 \"X\"\r".to_vec()),
        _ => Act::Answer,
    });
    assert_eq!(told.0, Some(1), "{}", told.2);
    for line in [
        "no value of 1 of Screen: NAK 01: no module bears this label, or more than one does",
        "no value of 2 of Screen: NAK 02: the module has no such index",
        "no value of 3 of Screen: the box says 15.5, which is not permitted",
        "no value of 4 of Screen: the box says x\\nmodule 2 \\\"X\\\", which is not permitted",
        "4 parameters gave no value, and stand as ? in the room file",
    ] {
        assert!(told.2.lines().any(|said| said == line), "{}", told.2);
    }
    let text = text.unwrap();
    assert!(text.contains(": 52 of 56 parameters.\n"));
    assert!(text.contains("    2 = ?    # NAK 02: the module has no such index\n"));
    // The file is not taken for a whole one.
    let folder = Folder::new("nak-again");
    let then = folder.file("then.room", &text);
    let words = [
        "putback",
        "127.0.0.1:1",
        "--from",
        &then,
        "--module",
        "Screen",
    ];
    let (status, _, errors) = egrivundo(&words);
    assert_eq!(status, Some(1));
    assert!(errors.contains("then.room:12: 1 takes a level"), "{errors}");
}

#[test]
fn a_reply_that_does_not_come() {
    let start = Instant::now();
    let (told, text) = capture_within(LIMIT, "silent", |_, line| match line {
        "GA\"Loudness\">1" => Act::Late(b"\x1502\r".to_vec()),
        _ => Act::Answer,
    });
    assert_eq!(told.0, Some(3), "{}", told.2);
    assert!(told
        .2
        .contains("no value of 1 of Loudness: no reply within 1 s\n"));
    assert!(text.unwrap().contains(": 55 of 56 parameters.\n"));
    let one = "\n1 parameter gave no value, and stands as ? in the room file\n";
    assert!(told.2.ends_with(one), "{}", told.2);
    assert!(start.elapsed() < Duration::from_secs(20));
}

#[test]
fn a_box_that_falls_silent() {
    let mut count = 0;
    let (told, text) = capture_within(LIMIT, "dead", move |_, _| {
        count += 1;
        if count > 10 {
            Act::Swallow
        } else {
            Act::Answer
        }
    });
    assert_eq!((told.0, text), (Some(3), None));
    let (_, words) = told.2.split_once('\n').unwrap();
    let expected = "no value of 5 to 6 of Screen: no reply within 1 s\n\
                    no value of 1 of Subwoofer: no reply within 1 s\n\
                    no value of 1 of Loudness: not asked for\n\
                    no value of 1>1 to 1>7 of Viewing room: not asked for\n\
                    no value of 0>1 to 2>18 of Desk: not asked for\n\
                    no value of 0>2 to 1>1 of Microphones: not asked for\n\
                    no reply within 1 s. No room file is written.\n";
    assert_eq!(words, expected);
}

/// The time limit is that of a reply, whatever else the box says.
#[test]
fn a_box_that_chatters() {
    let start = Instant::now();
    let (told, text) = capture_within(LIMIT, "chatter", |_, _| Act::Chatter);
    assert_eq!((told.0, text), (Some(3), None), "{}", told.2);
    assert!(start.elapsed() < Duration::from_secs(20));
}

#[test]
fn a_connection_that_breaks() {
    let (_, room) = example("viewing-room.room");
    let mut count = 0;
    let (told, text) = capture("breaks", move |_, _| {
        count += 1;
        if count % 20 == 0 {
            Act::Close
        } else {
            Act::Answer
        }
    });
    assert_eq!(told.0, Some(0), "{}", told.2);
    assert_eq!(captured(&text), room);
    let (told, text) = capture("gone", |_, line| match line {
        "GA\"Screen\">3" => Act::Die,
        _ => Act::Answer,
    });
    assert_eq!((told.0, text), (Some(3), None), "{}", told.2);
    assert!(
        told.2
            .contains("no value of 4 to 6 of Screen: not asked for\n"),
        "{}",
        told.2
    );
}

#[test]
fn no_box() {
    // A line of 4,096 bytes is passed over, and one more is too much, with or
    // without its end.
    for (noise, status) in [
        ([b"x".repeat(5000), Vec::new()], Some(3)),
        ([b"x".repeat(4097), b"\r".to_vec()], Some(3)),
        ([b"x".repeat(4096), b"\r".to_vec()], Some(0)),
    ] {
        let (told, text) = capture("noise", move |room, line| {
            let reply = room.line(line.as_bytes()).unwrap().bytes().to_vec();
            Act::Say([&noise.concat()[..], &reply].concat())
        });
        assert_eq!((told.0, text.is_some()), (status, status == Some(0)));
        let message = "4096 bytes came without a carriage return: this is no box";
        assert_eq!(told.2.contains(message), status == Some(3), "{}", told.2);
    }
    let (modules, _) = example("viewing-room.room");
    let (status, text, errors) = egrivundo(&["capture", "127.0.0.1:1", &modules]);
    assert_eq!((status, &text[..]), (Some(3), ""));
    assert!(errors.starts_with("127.0.0.1:1: "), "{errors}");
    assert_eq!(egrivundo(&["capture", "127.0.0.1"]).0, Some(2));
    assert_eq!(egrivundo(&["capture", "127.0.0.1", "no.room"]).0, Some(1));
    assert!(!Path::new("no.room").exists());
}
