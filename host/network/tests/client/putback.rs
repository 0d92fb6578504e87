//! `egrivundo putback` where the box is alone with it.

use egrivundo::Wish;

use crate::fake::Fake;
use crate::program::{egrivundo, example, with_input, Folder};

const LINES: [&str; 4] = [
    "SA\"Commentary\">1=-4",
    "SA\"Commentary\">3=0.5",
    "SA\"Commentary\">4=F",
    "SA\"Commentary\">5=-0.5",
];

/// The list as it is shown, and what it leaves.
const SHOWN: &str = "\
This takes 82 bytes, 4 lines.
  SA\"Commentary\">1=-4     -6.5 \u{2192} -4.0
  SA\"Commentary\">3=0.5    2.0 \u{2192} 0.5
  SA\"Commentary\">4=F      on \u{2192} off
  SA\"Commentary\">5=-0.5   -1.5 \u{2192} -0.5
";

/// What is other than at the first viewing.
const LEFT: &str = "\
Moved since the capture, and left as it is:
  1 of Screen: it was 2.5, and is 1.5
  6 of Screen: it was off, and is on
  1 of Loudness: it was on, and is off
  1>1 of Viewing room: it was 2, and is 3
  1>2 of Viewing room: it was -15.0, and is -12.5
  1>1 of Desk: it was -6.0, and is -10.5
  1>9 of Desk: it was 1, and is 2
  2>1 of Desk: it was 0.0, and is -0.5
";

#[test]
fn done() {
    let (_, now) = example("viewing-room.room");
    let folder = Folder::new("done");
    let then = folder.commentary_then();
    let wanted = files::read_room(then.as_ref()).unwrap();
    let fake = Fake::plain(now);
    let words = [
        "putback",
        &fake.address,
        "--from",
        &then,
        "--module",
        "Commentary",
        "--yes",
    ];
    let (status, text, errors) = egrivundo(&words);
    assert_eq!(text, format!("{SHOWN}4 moved as wished, 52 unchanged.\n"));
    let (from, all) = (&fake.address, "Reading 56 parameters");
    assert_eq!(
        errors,
        format!("{all} from {from}\n{all} again from {from}\n")
    );
    assert_eq!(status, Some(0));
    assert_eq!(fake.sets(), LINES);
    assert_eq!(fake.room(), wanted);
    // It is so already, and nobody is asked.
    let (status, text, _) = egrivundo(&words[..6]);
    assert_eq!(
        text,
        "This takes 0 bytes, 0 lines.\n0 moved as wished, 56 unchanged.\n"
    );
    assert_eq!((status, fake.sets().len()), (Some(0), 4));
}

/// A room that moved on since: all of it is named, and none of it is moved.
#[test]
fn a_room_that_moved_on() {
    let (_, now) = example("viewing-room.room");
    let (first, saved) = example("first-viewing.room");
    let wish = Wish::from_present(&now).as_in(&saved, "Commentary");
    let wanted = wish.unwrap().wanted().to_vec();
    let folder = Folder::new("moved-on");
    let then = folder.captured(&saved);
    let fake = Fake::plain(now);
    let putback = |then: &str, label: &str| {
        let words = ["--from", then, "--module", label, "--yes"];
        egrivundo(&[&["putback", &fake.address], &words[..]].concat())
    };
    let (status, text, errors) = putback(&then, "Commentary");
    assert_eq!(
        text,
        format!("{SHOWN}{LEFT}4 moved as wished, 52 unchanged.\n")
    );
    let reminder = "\nSomething else moved since the capture: 8 parameters, named above\n";
    assert!(errors.ends_with(reminder), "{errors}");
    assert_eq!((status, fake.room().values()), (Some(4), &wanted[..]));
    // What a file does not give is not compared: here 6 of Screen and 2>1 of Desk.
    let (_, text, errors) = putback(&first, "Loudness");
    assert!(text.contains("\n  1 of Screen: it was 2.5, and is 1.5\n"));
    assert!(!text.contains("6 of Screen") && !text.contains("2>1 of Desk"));
    assert!(errors.contains(": 5 parameters, named above\n"), "{errors}");
}

/// What a file does not give of a chosen module is not put to its start value.
#[test]
fn a_file_that_lacks_a_value() {
    let (_, now) = example("viewing-room.room");
    let (then, _) = example("first-viewing.room");
    let fake = Fake::plain(now);
    let words = ["--from", &then, "--module", "Commentary", "--yes"];
    let (status, text, errors) = egrivundo(&[&["putback", &fake.address], &words[..]].concat());
    let told = format!(
        "{then}: no value of 4 of Commentary\n{then}: no value of 6 of Commentary\n\
         Nothing was sent: a chosen module needs all of its values.\n"
    );
    // The box is not asked for anything.
    assert_eq!((status, text, errors), (Some(1), String::new(), told));
    assert_eq!(fake.sets().len(), 0);
}

#[test]
fn a_wish_file() {
    let (modules, now) = example("viewing-room.room");
    let wish = modules.replace("viewing-room.room", "commentary.wish");
    let fake = Fake::plain(now);
    let (status, text, _) = egrivundo(&["putback", &fake.address, &modules, &wish, "--yes"]);
    assert_eq!(text, format!("{SHOWN}4 moved as wished, 52 unchanged.\n"));
    assert_eq!(
        (status, &fake.sets()[..]),
        (Some(0), &LINES.map(String::from)[..])
    );
}

#[test]
fn several_modules() {
    let (_, now) = example("viewing-room.room");
    let (_, saved) = example("first-viewing.room");
    let folder = Folder::new("several");
    let then = folder.captured(&saved);
    let fake = Fake::plain(now);
    let mut words = vec!["putback", &fake.address, "--from", &then, "--yes"];
    for label in [
        "Commentary",
        "Screen",
        "Subwoofer",
        "Loudness",
        "Viewing room",
        "Desk",
    ] {
        words.extend(["--module", label]);
    }
    let (status, text, _) = egrivundo(&words);
    assert!(
        text.ends_with("\n12 moved as wished, 44 unchanged.\n"),
        "{text}"
    );
    assert_eq!((status, fake.room().values()), (Some(0), saved.values()));
}

#[test]
fn asked_first() {
    let (_, now) = example("viewing-room.room");
    let fake = Fake::plain(now.clone());
    let folder = Folder::new("asked");
    let then = folder.commentary_then();
    let list = folder.path("list");
    let words = [
        "putback",
        &fake.address,
        "--from",
        &then,
        "--module",
        "Commentary",
    ];
    for answer in ["", "\n", "n\n", "maybe\n", "yesterday\n"] {
        let (status, text, errors) = with_input(&words, answer);
        assert_eq!(text, format!("{SHOWN}Send it? [y/N] "));
        assert!(errors.ends_with("\nNothing was sent.\n"), "{errors}");
        assert_eq!(status, Some(1), "{answer:?}");
    }
    let dry = [&words[..], &["--dry-run", "--yes", "--list", &list]].concat();
    let (status, text, _) = egrivundo(&dry);
    assert_eq!(status, Some(0));
    assert!(text.ends_with(&format!(
        "\nThe list, 82 bytes, 4 lines: {list}\nNothing was sent.\n"
    )));
    let bytes = std::fs::read(&list).unwrap();
    assert_eq!(bytes, (LINES.join("\r") + "\r").into_bytes());
    assert_eq!((fake.sets().len(), fake.room()), (0, now));
    let nowhere = folder.path("nowhere/list");
    let (status, _, errors) = egrivundo(&[&words[..], &["--yes", "--list", &nowhere]].concat());
    assert_eq!((status, fake.sets().len()), (Some(1), 0));
    assert!(errors.ends_with("\nNothing was sent.\n"), "{errors}");
    // After the question, it is sent over another connection.
    let taken = fake.taken();
    let (status, text, _) = with_input(&words, "Y\n");
    assert!(text.ends_with("Send it? [y/N] 4 moved as wished, 52 unchanged.\n"));
    assert_eq!((status, fake.sets().len()), (Some(0), 4));
    assert_eq!(fake.taken() - taken, 2);
}

#[test]
fn refused_before_anything_is_sent() {
    let (_, now) = example("viewing-room.room");
    let (first, saved) = example("first-viewing.room");
    let folder = Folder::new("refused");
    let then = folder.captured(&saved);
    let fake = Fake::plain(now.clone());
    let refused = |words: &[&str], message: &str| {
        let (status, _, errors) =
            egrivundo(&[&["putback", &fake.address], words, &["--yes"]].concat());
        assert_eq!(status, Some(1), "{errors}");
        assert!(errors.contains(message), "{errors}");
    };
    refused(
        &["--from", &then, "--module", "Balcony"],
        "no module of the room bears the label \"Balcony\"",
    );
    let text = std::fs::read_to_string(&then).unwrap();
    let built = folder.file("built.room", text.replace("0>1 = 4", "0>1 = 5"));
    let message = "built.room: 0>1 of Desk is 4, not 5: it is read-only\nrefused with 7";
    refused(&["--from", &built, "--module", "Desk"], message);
    // The box has other modules than the file.
    let other = folder.file("other.room", text.replace("\"Screen\"", "\"Canvas\""));
    let message = "no value of 1 to 6 of Canvas: NAK 01: no module bears this label";
    refused(&["--from", &other, "--module", "Commentary"], message);
    let (modules, _) = example("viewing-room.room");
    refused(
        &[&modules, &first],
        "first-viewing.room:5: this is a room, where a wish is expected",
    );
    assert_eq!((fake.sets().len(), fake.room()), (0, now));
    let words = [
        "putback",
        "127.0.0.1:1",
        "--from",
        &then,
        "--module",
        "Commentary",
    ];
    assert_eq!(egrivundo(&words).0, Some(3));
    assert_eq!(egrivundo(&words[..4]).0, Some(2));
    // Files and labels are looked at before a box.
    let label = [&words[..5], &["Balcony"]].concat();
    assert_eq!(egrivundo(&label).0, Some(1));
    let wish = ["putback", "127.0.0.1:1", &modules, "no.wish"];
    let (status, _, errors) = egrivundo(&wish);
    assert_eq!(status, Some(1));
    assert!(errors.starts_with("no.wish: "), "{errors}");
}
