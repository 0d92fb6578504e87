//! `egrivundo shell` and `egrivundo table`, and the help of every command.

use std::ffi::OsStr;
use std::fs;
use std::os::unix::ffi::OsStrExt;
use std::os::unix::process::CommandExt;
use std::process::Command;

use crate::fake::{Act, Fake};
use crate::program::{
    egrivundo, example, root, run_by, with_input, Folder, Told, LIMIT, LONG, PROGRAM,
};

#[test]
fn replies_in_words() {
    let (_, room) = example("viewing-room.room");
    let fake = Fake::plain(room);
    let lines = "GA\"Commentary\">1\nSA\"Commentary\">1=-4\r\nGA\"Commentary\">1\n\nSA\"Commentary\">1=99\n\
                 SA\"Balcony\">1=1\nGA\"Commentary\">9";
    let (status, text, errors) = with_input(&["shell", &fake.address], lines);
    let replies =
        "GA\"Commentary\">1=-6.5\nACK\nGA\"Commentary\">1=-4\nNAK 99: the line is not understood\n\
                   NAK 03: the value is not permitted\n\
                   NAK 01: no module bears this label, or more than one does\n\
                   NAK 02: the module has no such index\n";
    assert_eq!((status, &text[..], &errors[..]), (Some(0), replies, ""));
}

#[test]
fn news_of_a_knob() {
    let (_, room) = example("viewing-room.room");
    // Before each reply comes news of a knob: another module, and another index.
    let fake = Fake::new(room, |room, line| {
        let reply = room.line(line.as_bytes()).unwrap().bytes().to_vec();
        let news = b"GA\"#Hall\">3=-4\rGA\"Commentary\">2=F\r";
        Act::Say([&news[..], &reply].concat())
    });
    let lines = "SA\"Commentary\">1=1\nGA\"Commentary\">1\nGA \"Commentary\">9\n";
    let (status, text, errors) = with_input(&["shell", &fake.address], lines);
    let news = "news: GA\"#Hall\">3=-4\nnews: GA\"Commentary\">2=F\n";
    let told = format!(
        "{news}ACK\n{news}GA\"Commentary\">1=1\n{news}NAK 02: the module has no such index\n"
    );
    assert_eq!((status, text, errors), (Some(0), told, String::new()));
    // News alone is no reply.
    let (_, room) = example("viewing-room.room");
    let fake = Fake::new(room, |_, _| Act::Say(b"GA\"#Hall\">3=-4\r".to_vec()));
    let words = ["shell", &fake.address, "--timeout", LIMIT];
    let (status, text, errors) = with_input(&words, "GA\"Commentary\">1\n");
    assert_eq!((status, &text[..]), (Some(3), "news: GA\"#Hall\">3=-4\n"));
    assert_eq!(errors, "no reply within 1 s\n");
}

#[test]
fn no_reply() {
    let (_, room) = example("viewing-room.room");
    for (act, limit, message) in [
        (|| Act::Say(Vec::new()), LIMIT, "no reply within 1 s\n"),
        (|| Act::Close, LONG, "the box closed the connection\n"),
    ] as [(fn() -> Act, &str, &str); 2]
    {
        let fake = Fake::new(room.clone(), move |_, _| act());
        let words = ["shell", &fake.address, "--timeout", limit];
        let (status, text, errors) = with_input(&words, "GA\"Commentary\">1\n");
        assert_eq!((status, &text[..], &errors[..]), (Some(3), "", message));
    }
    assert_eq!(egrivundo(&["shell", "127.0.0.1:1"]).0, Some(3));
}

/// On a terminal, which `script` is here, the next line can be typed.
#[test]
fn no_reply_on_a_terminal() {
    let (_, room) = example("viewing-room.room");
    let fake = Fake::new(room, |_, line| match line {
        "GA\"Commentary\">2" => Act::Swallow,
        _ => Act::Answer,
    });
    let shell = format!("'{PROGRAM}' shell {} --timeout {LIMIT}", fake.address);
    let words = ["-qec", &shell, "/dev/null"];
    let lines = "GA\"Commentary\">2\nGA\"Commentary\">1\n\x04";
    let (status, text, errors) = run_by("script", &words, lines);
    let late = text.find("no reply within 1 s\r\n");
    let reply = text.find("\nGA\"Commentary\">1=-6.5\r\n");
    assert!(late.is_some() && late < reply, "{text}{errors}");
    assert_eq!(status, Some(0), "{text}{errors}");
}

/// A folder is opened, and cannot be read.
#[test]
fn input_that_cannot_be_read() {
    let (_, room) = example("viewing-room.room");
    let fake = Fake::plain(room);
    let folder = fs::File::open(root()).expect("a folder");
    let mut program = Command::new(PROGRAM);
    program.args(["shell", &fake.address]).stdin(folder);
    let done = program.output().expect("the program runs");
    let errors = String::from_utf8_lossy(&done.stderr);
    assert!(errors.starts_with("standard input: "), "{errors}");
    assert_eq!(done.status.code(), Some(1));
}

#[test]
fn tables_and_back() {
    let folder = Folder::new("table");
    let (table, values) = (folder.path("table"), folder.path("values"));
    for name in ["viewing-room.room", "outside-broadcast.room"] {
        let (path, room) = example(name);
        assert_eq!(
            egrivundo(&["table", &path, &table, "--values", &values]).0,
            Some(0)
        );
        assert_eq!(fs::read(&table).unwrap(), room.table());
        let bytes: Vec<u8> = room.values().iter().flat_map(|v| v.to_le_bytes()).collect();
        assert_eq!(fs::read(&values).unwrap(), bytes);
        let (status, text, _) = egrivundo(&["table", "--back", &table, "--values", &values]);
        let back = folder.file("back.room", text);
        assert_eq!(
            (status, files::read_room(back.as_ref()).unwrap()),
            (Some(0), room.clone())
        );
        // Without values, each has the one that it starts with.
        assert_eq!(
            egrivundo(&["table", "--back", &table, "-o", &back]).0,
            Some(0)
        );
        let started = files::read_room(back.as_ref()).unwrap();
        let starts: Vec<i64> = room
            .modules()
            .flat_map(|module| module.kind.start())
            .collect();
        assert_eq!(
            (started.table(), started.values()),
            (room.table(), &starts[..])
        );
    }
    let (path, _) = example("viewing-room.room");
    assert_eq!(egrivundo(&["table", &path, &table]).0, Some(0));
    assert_eq!(
        fs::read(&table).unwrap(),
        fs::read(path.replace("viewing-room.room", "table")).unwrap()
    );
    let short = folder.file("short", &fs::read(&table).unwrap()[1..]);
    let (status, text, errors) = egrivundo(&["table", "--back", &short]);
    assert_eq!((status, &text[..]), (Some(1), ""));
    assert!(errors.contains("short: refused with 1"), "{errors}");
    for (content, message) in [
        (vec![0; 8], "refused with 2"),
        (vec![0; 7], "eight bytes each"),
    ] {
        let wrong = folder.file("wrong", content);
        let (status, _, errors) = egrivundo(&["table", "--back", &table, "--values", &wrong]);
        assert_eq!(status, Some(1));
        assert!(errors.contains(message), "{errors}");
    }
}

/// The script at the root, where it can prove and build nothing.
fn script(words: &[&str]) -> Told {
    let mut script = Command::new(root().join("egrivundo"));
    let done = script
        .args(words)
        .env("PATH", "/usr/bin:/bin")
        .output()
        .expect("the script runs");
    let text = |bytes| String::from_utf8(bytes).expect("a text in UTF-8");
    (done.status.code(), text(done.stdout), text(done.stderr))
}

#[test]
fn help() {
    for words in [
        &["--help"][..],
        &["serve", "--help"],
        &["capture", "-h"],
        &["putback", "host", "--help"],
        &["shell", "--help"],
        &["table", "--help"],
    ] {
        let (status, text, errors) = egrivundo(words);
        assert_eq!((status, &errors[..]), (Some(0), ""), "{words:?}");
        assert!(text.contains("\n    egrivundo "), "{text}");
        assert_eq!(script(words), (status, text.clone(), errors));
        let widest = text.lines().map(|line| line.chars().count()).max();
        assert!(widest <= Some(80), "{text}");
    }
    for (words, message) in [
        (
            &["listen"][..],
            "no such command: listen (egrivundo --help tells more)\n",
        ),
        (
            &["shell"],
            "one host is needed (0 words given) (egrivundo shell --help tells more)\n",
        ),
        (
            &["shell", "h", "--loud"],
            "unknown option: --loud (egrivundo shell --help tells more)\n",
        ),
    ] {
        let (status, text, errors) = egrivundo(words);
        assert_eq!((status, &text[..], &errors[..]), (Some(2), "", message));
    }
    // What the script says of the first word, it says before anything is built.
    for words in [&[][..], &["listen"], &["listen", "--help"]] {
        let told = egrivundo(words);
        assert_eq!((told.0, script(words)), (Some(2), told.clone()));
    }
    let (_, help, _) = egrivundo(&["--help"]);
    assert_eq!(egrivundo(&[]), (Some(2), String::new(), help));
}

/// The program may stand at a path that is no text in UTF-8, and be given words
/// that are none.
#[test]
fn words_that_are_no_text() {
    let none = OsStr::from_bytes(b"\xff");
    for words in [
        &[OsStr::new("shell")][..],
        &[OsStr::new("shell"), none, none],
        &[OsStr::new("capture"), none],
        &[none],
    ] {
        let mut program = Command::new(PROGRAM);
        let done = program.arg0(none).args(words).output();
        let done = done.expect("the program runs");
        let errors = String::from_utf8_lossy(&done.stderr);
        assert_eq!(done.status.code(), Some(2), "{errors}");
        assert!(errors.ends_with("--help tells more)\n"), "{errors}");
    }
}
