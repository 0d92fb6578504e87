//! `egrivundo putback` where another one writes, or the box does not do as it
//! says.

use egrivundo::Room;

use crate::fake::{Act, Fake};
use crate::program::{egrivundo, example, with_input, Folder};
use crate::trouble::{putback, FIRST, FOURTH, SECOND, THIRD};

fn write(room: &mut Room, line: &str) {
    assert!(room.line(line.as_bytes()).unwrap().is_ack());
}

#[test]
fn a_second_writer() {
    // After the live values were read, and before the list is sent.
    let (told, fake) = putback(|room, line| {
        if line == FIRST {
            write(room, "SA\"Screen\">1=9.5");
            write(room, "SA\"Desk\">2>2=F");
        }
        Act::Answer
    });
    assert!(
        told.1
            .ends_with("\n4 moved as wished, 2 moved otherwise, 50 unchanged.\n"),
        "{}",
        told.1
    );
    let message =
        "Something else moved:\n  1 of Screen: 1.5 \u{2192} 9.5\n  2>2 of Desk: on \u{2192} off\n";
    assert!(told.2.ends_with(message), "{}", told.2);
    assert_eq!((told.0, fake.sets().len()), (Some(4), 4));
}

#[test]
fn a_second_writer_of_the_same_module() {
    let (told, _) = putback(|room, line| {
        if line == FOURTH {
            write(room, "SA\"Commentary\">1=7");
            write(room, "SA\"Commentary\">3=2");
        }
        Act::Answer
    });
    let counts = "\n2 moved as wished, 1 not moved as wished, 1 moved otherwise, 52 unchanged.\n";
    assert!(told.1.ends_with(counts), "{}", told.1);
    let message = "Acknowledged, and not there:\n  3 of Commentary: it is 2.0, and not 0.5\n\
                   Something else moved:\n  1 of Commentary: -6.5 \u{2192} 7.0, and not to -4.0\n";
    assert!(told.2.ends_with(message), "{}", told.2);
    assert_eq!(told.0, Some(4));
    // A value that went back is no success either.
    let (told, _) = putback(|room, line| {
        if line == FOURTH {
            write(room, "SA\"Commentary\">3=2");
        }
        Act::Answer
    });
    assert!(told
        .1
        .ends_with("\n3 moved as wished, 1 not moved as wished, 52 unchanged.\n"));
    let message = "\nAcknowledged, and not there:\n  3 of Commentary: it is 2.0, and not 0.5\n";
    assert!(told.2.ends_with(message), "{}", told.2);
    assert_eq!(told.0, Some(4));
}

#[test]
fn a_box_that_acknowledges_and_does_nothing() {
    let nothing = |line: &str| match line.starts_with("SA") {
        true => Act::Say(b"\x06\r".to_vec()),
        false => Act::Answer,
    };
    let not_there = "Acknowledged, and not there:\n  1 of Commentary: it is -6.5, and not -4.0\n  \
                     3 of Commentary: it is 2.0, and not 0.5\n";
    let (told, _) = putback(move |_, line| nothing(line));
    assert!(told
        .1
        .ends_with("\n0 moved as wished, 4 not moved as wished, 52 unchanged.\n"));
    let all = format!(
        "{not_there}  4 of Commentary: it is on, and not off\n  \
         5 of Commentary: it is -1.5, and not -0.5\n"
    );
    assert!(told.2.ends_with(&all), "{}", told.2);
    assert_eq!(told.0, Some(4));
    // With a NAK at the third line, it is the first two that are not there.
    let (told, _) = putback(move |_, line| match line == THIRD {
        true => Act::Say(b"\x15 03\r".to_vec()),
        false => nothing(line),
    });
    assert!(told.1.contains(&format!(
        "  {SECOND}    does not stand, and was acknowledged\n"
    )));
    let message = format!("\nNot everything was put back.\n{not_there}");
    assert!(told.2.ends_with(&message), "{}", told.2);
    assert_eq!(told.0, Some(4));
}

#[test]
fn a_second_writer_between_capture_and_putback() {
    let (modules, now) = example("viewing-room.room");
    let fake = Fake::plain(now);
    let folder = Folder::new("between");
    let then = folder.path("then.room");
    assert_eq!(
        egrivundo(&["capture", &fake.address, &modules, "-o", &then]).0,
        Some(0)
    );
    // What moves before the live values are read is put back, or named and left.
    fake.write("SA\"Commentary\">1=7");
    fake.write("SA\"Screen\">1=9.5");
    fake.write("SA\"Desk\">2>2=F");
    let words = [
        "putback",
        &fake.address,
        "--from",
        &then,
        "--module",
        "Commentary",
    ];
    let named = "Moved since the capture, and left as it is:\n  \
                 1 of Screen: it was 1.5, and is 9.5\n  2>2 of Desk: it was on, and is off\n";
    let reminder = "Something else moved since the capture: 2 parameters, named above\n";
    let (status, text, _) = egrivundo(&[&words[..], &["--dry-run"]].concat());
    assert!(text.ends_with(&format!("{named}Nothing was sent.\n")));
    assert_eq!((status, fake.sets().len()), (Some(0), 0));
    // Done, and then with nothing left to be done.
    for (answer, moved) in [
        ("y\n", "1 moved as wished, 55"),
        ("", "0 moved as wished, 56"),
    ] {
        let (status, text, errors) = with_input(&words, answer);
        assert!(text.contains(named), "{text}");
        assert!(text.ends_with(&format!("{moved} unchanged.\n")), "{text}");
        assert!(errors.ends_with(reminder), "{errors}");
        assert_eq!((status, fake.sets().len()), (Some(4), 1));
    }
}

#[test]
fn a_second_writer_and_a_nak() {
    let (told, _) = putback(|room, line| {
        if line != THIRD {
            return Act::Answer;
        }
        write(room, "SA\"Loudness\">1=O");
        Act::Say(b"\x1503\r".to_vec())
    });
    assert!(
        told.1.contains("\nStopped at line 3 of 4: NAK 03"),
        "{}",
        told.1
    );
    assert!(
        told.2
            .ends_with("Something else moved:\n  1 of Loudness: off \u{2192} on\n"),
        "{}",
        told.2
    );
    assert_eq!(told.0, Some(4));
}

/// What moved since the capture counts more than a line that was refused, or a
/// box that is gone.
#[test]
fn a_second_writer_before_a_nak() {
    let (modules, now) = example("viewing-room.room");
    for (act, message) in [
        (
            || Act::Say(b"\x1503\r".to_vec()),
            "\nNot everything was put back.\n",
        ),
        (|| Act::Die, "\n"),
    ] as [(fn() -> Act, &str); 2]
    {
        let fake = Fake::new(now.clone(), move |_, line| match line.starts_with("SA") {
            true => act(),
            false => Act::Answer,
        });
        let folder = Folder::new(&fake.address.replace(':', "-"));
        let then = folder.path("then.room");
        let capture = egrivundo(&["capture", &fake.address, &modules, "-o", &then]);
        assert_eq!(capture.0, Some(0));
        fake.write("SA\"Commentary\">1=7");
        fake.write("SA\"Screen\">1=9.5");
        let words = ["--from", &then, "--module", "Commentary", "--yes"];
        let told = egrivundo(&[&["putback", &fake.address], &words[..]].concat());
        let reminder = "Something else moved since the capture: 1 parameter, named above\n";
        assert!(
            told.2.ends_with(&format!("{message}{reminder}")),
            "{}",
            told.2
        );
        assert_eq!(told.0, Some(4));
    }
}
