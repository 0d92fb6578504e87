//! The program's answers.

mod common;

use std::fs;

use common::{example, story, Folder};

#[test]
fn the_example() {
    let files = [example("viewing-room.room"), example("commentary.wish")];
    let (status, text, errors) = story(&[&files[0], &files[1]]);
    assert_eq!((status, &errors[..]), (Some(0), ""));
    let expected = "\
This takes 82 bytes, 4 lines.
Yes: 4 parameters of Commentary moved, 52 others did not.

The list, with the replies
  SA\"Commentary\">1=-4     ACK
  SA\"Commentary\">3=0.5    ACK
  SA\"Commentary\">4=F      ACK
  SA\"Commentary\">5=-0.5   ACK
  (each line ends with a carriage return, 0D)

What changed (levels in dB)
  Commentary    Tone Control EQ
        1      -6.5 \u{2192} -4.0
        3       2.0 \u{2192} 0.5
        4        on \u{2192} off
        5      -1.5 \u{2192} -0.5
    2 others as before
  Screen        Tone Control EQ, 6 parameters as before
  Subwoofer     SmartBass, 1 parameter as before
  Loudness      Dynamic EQ, 1 parameter as before
  Viewing room  Standard Room Combiner, 7 parameters as before
  Desk          Conference Room Router, 33 parameters as before
  Microphones   Predictive Feedback Suppression, 2 parameters as before
";
    assert_eq!(text, expected);
}

#[test]
fn a_desk() {
    let files = [example("outside-broadcast.room"), example("desk.wish")];
    let (status, text, _) = story(&[&files[0], &files[1]]);
    assert_eq!(status, Some(0));
    let first = "This takes 107 bytes, 6 lines.\n\
                 Yes: 6 parameters of Desk moved, 102 others did not.\n";
    assert!(text.starts_with(first), "{text}");
    // Two words of which one output is turned, and one of which three are.
    for line in ["4>(2,1)=O", "4>(3,3)=F", "3>5=C0000000"] {
        assert!(text.contains(&format!("SA\"Desk\">{line} ")), "{line}");
    }
    for row in [
        "      3>2  50000000 \u{2192} D0000000   output 1 on\n",
        "      3>5  10000000 \u{2192} C0000000   outputs 1-2 on, output 4 off\n",
        "    26 others as before\n",
        "  Lines out   Standard Mixer 2x32, 70 parameters as before\n",
    ] {
        assert!(text.contains(row), "{row}");
    }
}

#[test]
fn every_row() {
    let files = [example("viewing-room.room"), example("commentary.wish")];
    let (status, text, _) = story(&["--all", &files[0], &files[1]]);
    assert_eq!(status, Some(0));
    let (_, rows) = text.split_once("Every parameter (levels in dB)\n").unwrap();
    assert_eq!(rows.lines().count(), 7 + 56);
    assert_eq!(rows.matches('\u{2192}').count(), 4);
    assert!(rows.contains("    2>17     -60.5\n"), "{rows}");
    assert!(!rows.contains("as before"));
}

#[test]
fn a_saved_room() {
    let files = [example("viewing-room.room"), example("commentary.wish")];
    let (_, by_wish, _) = story(&[&files[0], &files[1]]);
    let then = example("first-viewing.room");
    let (status, text, errors) = story(&[&files[0], "--from", &then, "--module", "Commentary"]);
    assert_eq!((status, &errors[..]), (Some(0), ""));
    assert_eq!(text, by_wish);
    let two = ["--module", "Commentary", "--module", "Screen"];
    let (status, text, _) = story(&[&[&files[0][..], "--from", &then], &two[..]].concat());
    let answer = "\nYes: 6 parameters of Commentary and Screen moved, 50 others did not.\n";
    assert!(status == Some(0) && text.contains(answer), "{text}");
}

#[test]
fn wrong_saved_rooms() {
    let folder = Folder::new("saved");
    let room = folder.file(
        "now.room",
        "module 1 \"T\"\nmodule 2 \"S\"\nmodule 2 \"S\"\n",
    );
    let then = folder.file(
        "then.room",
        "module 2 \"T\"\nmodule 3 \"S\"\nmodule 3 \"U\"\n",
    );
    for (label, message) in [
        (
            "Q",
            "no module of the room bears the label \"Q\" (there are \"T\", \"S\", \"S\")",
        ),
        ("S", "then.room: 2 modules of the room bear the label \"S\""),
        (
            "T",
            "then.room: \"T\" is a Tone Control EQ in the room and a SmartBass in the saved room",
        ),
    ] {
        let (status, _, errors) = story(&[&room, "--from", &then, "--module", label]);
        assert_eq!(status, Some(1));
        assert!(errors.ends_with(&format!("{message}\n")), "{errors}");
    }
    let (status, _, errors) = story(&[&then, "--from", &room, "--module", "U"]);
    let message = "now.room: no module bears the label \"U\" (there are \"T\", \"S\", \"S\")\n";
    assert!(status == Some(1) && errors.ends_with(message), "{errors}");
    let (status, _, errors) = story(&[&room, "--from", &example("desk.wish"), "--module", "T"]);
    assert!(
        status == Some(1) && errors.contains("this is a wish"),
        "{errors}"
    );
}

#[test]
fn no() {
    let folder = Folder::new("no");
    let room = "module 1 \"T\"\nmodule 5 \"R\"\nmodule 2 \"S\"\nmodule 2 \"S\"\n";
    let room = folder.file("a.room", room);
    let list = folder.path("list");
    for (wish, first, then) in [
        (
            "module \"R\"\n1>1 = -3\n0>1 = 3\n",
            "No: 0>1 of R cannot be reached: it is read-only. Nothing was sent, and nothing moved.",
            "a.wish:3: 0>1 of R is 0, not 3: it is read-only",
        ),
        (
            "module 4\n1 = on\n",
            "No: 1 of S cannot be reached: modules 3 and 4 bear the same label, and lines reach \
             none of them. Nothing was sent, and nothing moved.",
            "a.wish:2: 1 of S is off, not on: modules 3 and 4 bear the same label",
        ),
        (
            "module \"R\"\n0>2 = 5\nmodule 4\n1 = on\n",
            "No: 2 parameters cannot be reached. The first is 0>2 of R: it is read-only. Nothing \
             was sent, and nothing moved.",
            "a.wish:4: 1 of S is off, not on",
        ),
    ] {
        let wish = folder.file("a.wish", wish);
        let (status, text, errors) = story(&[&room, &wish, "--list", &list]);
        assert_eq!((status, &errors[..]), (Some(1), ""));
        // No size is told of what cannot be.
        assert_eq!(text.lines().next(), Some(first));
        assert!(!text.contains("This takes"));
        assert!(text.contains(then), "{text}");
        assert!(text.contains("The core refuses with 7"));
        assert!(fs::metadata(&list).is_err(), "no list is written");
    }
}

#[test]
fn one_and_many() {
    let folder = Folder::new("count");
    for (room, wish, size, answer) in [
        (
            "module 2 \"S\"\nmodule 2 \"B\"\n",
            "module \"S\"\n1 = on\n",
            "This takes 10 bytes, 1 line.",
            "Yes: 1 parameter of S moved, 1 other did not.",
        ),
        (
            "module 2 \"S\"\n",
            "module \"S\"\n1 = on\n",
            "This takes 10 bytes, 1 line.",
            "Yes: 1 parameter of S moved, there are no others.",
        ),
        (
            "module 2 \"S\"\n",
            "module \"S\"\n1 = off\n",
            "This takes 0 bytes, 0 lines.",
            "Yes: it is so already, and the 1 parameter did not move.",
        ),
        (
            "module 1 \"T\"\n",
            "# nothing\n",
            "This takes 0 bytes, 0 lines.",
            "Yes: it is so already, and none of 6 parameters moved.",
        ),
        (
            "",
            "",
            "This takes 0 bytes, 0 lines.",
            "Yes: the room is empty, and nothing moved.",
        ),
    ] {
        let (room, wish) = (folder.file("a.room", room), folder.file("a.wish", wish));
        let (status, text, _) = story(&[&room, &wish]);
        let first: Vec<&str> = text.lines().take(2).collect();
        assert_eq!((status, &first[..]), (Some(0), &[size, answer][..]));
        assert_eq!(
            text.contains("The list"),
            answer.contains(" moved, "),
            "{text}"
        );
    }
}

#[test]
fn the_list_as_bytes() {
    let folder = Folder::new("list");
    let files = [example("viewing-room.room"), example("commentary.wish")];
    let list = folder.path("list.bin");
    let (status, text, _) = story(&[&files[0], &files[1], "--list", &list]);
    assert_eq!(status, Some(0));
    assert!(
        text.ends_with(&format!("\nThe list, 82 bytes: {list}\n")),
        "{text}"
    );
    let expected = "SA\"Commentary\">1=-4\rSA\"Commentary\">3=0.5\rSA\"Commentary\">4=F\r\
                    SA\"Commentary\">5=-0.5\r";
    assert_eq!(fs::read(&list).unwrap(), expected.as_bytes());
    let nowhere = folder.path("no/such/folder");
    let (status, text, errors) = story(&[&files[0], &files[1], "--list", &nowhere]);
    assert!(
        status == Some(1) && errors.starts_with(&nowhere),
        "{errors}"
    );
    // What it takes was told before.
    assert!(
        text.starts_with("This takes 82 bytes, 4 lines.\n"),
        "{text}"
    );
}

#[test]
fn help_and_other_options() {
    let (status, text, errors) = story(&["--help"]);
    assert_eq!((status, &errors[..]), (Some(0), ""));
    assert!(text.contains("./run [OPTIONS] [ROOM WISH]"));
    for (arguments, message) in [
        (&["a", "b", "--what"][..], "unknown option: --what"),
        (&["a"], "a room and a wish are needed (1 file given)"),
    ] {
        let (status, text, errors) = story(arguments);
        let expected = format!("{message} (./run --help tells the options)\n");
        assert_eq!((status, &text[..], errors), (Some(2), "", expected));
    }
    let (status, _, errors) = story(&["no-such.room", "no-such.wish"]);
    assert!(
        status == Some(1) && errors.starts_with("no-such.room: "),
        "{errors}"
    );
}
