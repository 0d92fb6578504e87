//! Room and wish files: the forms that are taken, and what is said of others.

mod common;

use common::{example, story, Folder};

/// What a room and a wish give.
fn play(test: &str, room: &[u8], wish: &[u8]) -> common::Told {
    let folder = Folder::new(test);
    let (room, wish) = (folder.file("a.room", room), folder.file("a.wish", wish));
    story(&[&room, &wish])
}

/// One message on standard error, with status 1.
fn fails(room: &str, wish: &str, expected: &str) {
    let (status, text, errors) = play("fails", room.as_bytes(), wish.as_bytes());
    assert_eq!((status, &text[..]), (Some(1), ""), "{errors}");
    assert_eq!(errors.lines().count(), 1, "{errors}");
    assert!(errors.contains(expected), "{errors}");
}

#[test]
fn forms_that_are_taken() {
    let plain = play(
        "plain",
        b"module 1 \"T #1\"\n1 = -6.5\n2 = on\nmodule standard-mixer \"M\" 2x2\n3>1 = 80000000\n",
        b"module \"T #1\"\n1 = -4\n2 = off\n4 = on\nmodule \"M\"\n4>(1,2) = on\n",
    );
    assert_eq!(plain.0, Some(0), "{}", plain.2);
    assert!(plain
        .1
        .contains("\nYes: 4 parameters of T #1 and M moved, 12 others did not.\n"));
    let loose = play(
        "loose",
        b"\xEF\xBB\xBFmodule\t1\t\"T #1\"  # the first\r\n\t>1\t=\t-6.5 # it was -4\r\n>2=O\r\n\
          module\tstandard-mixer\t\"M\"\t2x2\r\n>3>1 = 80000000# output 1\r\n",
        b"\xEF\xBB\xBF# as it was\r\nmodule\t\"T #1\"#!\r\n\t>1 = -4\t# dB\r\n2 =\tF\r\n>4=O\r\n\
          module \"M\"\r\n>4>(1,2) = O # and output 2\r\n",
    );
    assert_eq!(loose, plain);
}

#[test]
fn swapped_files() {
    let (room, wish) = (example("viewing-room.room"), example("commentary.wish"));
    let (status, _, errors) = story(&[&wish, &room]);
    assert_eq!(status, Some(1));
    let message = "commentary.wish:7: this is a wish, where a room is expected";
    assert!(errors.contains(message), "{errors}");
    assert!(errors.contains("./run ROOM WISH"));
    let (status, _, errors) = story(&[&room, &room]);
    assert_eq!(status, Some(1));
    let message = "viewing-room.room:7: this is a room, where a wish is expected";
    assert!(errors.contains(message), "{errors}");
    assert!(errors.contains("./run ROOM WISH"));
    let desk = example("outside-broadcast.room");
    let (_, _, errors) = story(&[&room, &desk]);
    assert!(errors.contains(":10: this is a room"), "{errors}");
    let (status, _, errors) = story(&[&wish, &wish]);
    assert!(
        status == Some(1) && errors.contains("this is a wish"),
        "{errors}"
    );
}

#[test]
fn wrong_files() {
    let room = "module 1 \"T\"\nmodule 5 \"R\"\nmodule 2 \"S\"\nmodule 2 \"S\"\n";
    fails("\n1 = 1\n", "", ".room:2: a value before the first module");
    fails(
        "\nmodule mixer \"T\"\n",
        "",
        ".room:2: no module type: mixer (there are tone-control-eq,",
    );
    fails(
        "module 1 \"T\"\nvolume 3\n",
        "",
        ".room:2: neither `module ...` nor `INDEX = VALUE`",
    );
    fails(
        "module 1 \"T\"\n1 = 1\n>1 = 2\n",
        "",
        ".room:3: >1 was given on line 2",
    );
    fails(
        room,
        "module \"T\"\n1 = 15.1\n",
        ".wish:2: 1 takes a level from -15.0 to 15.0 dB in steps of 0.1, not: 15.1",
    );
    fails(
        room,
        "module \"T\"\n2 = T\n",
        ".wish:2: 2 takes on or off, not: T",
    );
    fails(
        room,
        "module \"S\"\n",
        ".wish:1: modules 3 and 4 bear the label \"S\"; name one by",
    );
    fails(
        room,
        "module \"Q\"\n",
        ".wish:1: no module bears the label \"Q\"",
    );
    let room = "module standard-mixer \"M\" 2x3\n";
    fails(
        "module standard-mixer \"M\"\n",
        "",
        ".room:1: a mixer has 1 to 32 inputs and outputs",
    );
    fails(
        room,
        "module \"M\"\n3>1 = 10000000\n",
        ".wish:2: 3>1 takes eight hex digits with bits of outputs 1-3 alone, up to E0000000",
    );
    fails(
        room,
        "module \"M\"\n4>(3,1) = on\n",
        ".wish:2: a Standard Mixer 2x3 has no index 4>(3,1) (it has 1>1 to 1>4, 2>1 to 2>6,",
    );
    let (status, _, errors) = play("bytes", b"module 1 \"T\"\n\xFF\n", b"");
    assert_eq!(status, Some(1));
    assert!(
        errors.contains(".room:2: this is no text in UTF-8"),
        "{errors}"
    );
}
