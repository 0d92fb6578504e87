//! The clients and `egrivundo serve` together, as on two terminals.

use std::io::{BufRead, BufReader, Read, Write};
use std::process::{Child, ChildStderr, Command, Stdio};

use crate::program::{egrivundo, example, with_input, Folder, PROGRAM};

/// A running box, stopped at the end.
struct Served {
    child: Child,
    address: String,
    /// Kept, as the box says more than where it listens.
    _words: BufReader<ChildStderr>,
}

impl Served {
    /// On a port that is free.
    fn start(room: &str) -> Served {
        let mut child = Command::new(PROGRAM)
            .args(["serve", room, "--listen", "127.0.0.1:0"])
            .stdout(Stdio::null())
            .stderr(Stdio::piped())
            .spawn()
            .expect("the program runs");
        let mut words = BufReader::new(child.stderr.take().expect("its words"));
        let mut line = String::new();
        words.read_line(&mut line).expect("a line");
        let address = line
            .strip_prefix("Listening on ")
            .and_then(|rest| rest.split_once(". "));
        let address = address.expect("where it listens").0.to_string();
        Served {
            child,
            address,
            _words: words,
        }
    }
}

impl Drop for Served {
    fn drop(&mut self) {
        let _ = self.child.kill();
        let _ = self.child.wait();
    }
}

#[test]
fn from_capture_to_putback() {
    let (modules, room) = example("outside-broadcast.room");
    let served = Served::start(&modules);
    let folder = Folder::new("round");
    let then = folder.path("then.room");
    let (status, _, errors) = egrivundo(&["capture", &served.address, &modules, "-o", &then]);
    assert_eq!(status, Some(0), "{errors}");
    assert_eq!(files::read_room(then.as_ref()).unwrap(), room);
    let lines = "SA\"Desk\">1>1=-20\nSA\"Desk\">3>1=00000000\nSA\"Lines out\">1>1=1\n";
    let (status, text, _) = with_input(&["shell", &served.address], lines);
    assert_eq!((status, &text[..]), (Some(0), "ACK\nACK\nACK\n"));
    let words = [
        "putback",
        &served.address,
        "--from",
        &then,
        "--module",
        "Desk",
        "--yes",
    ];
    let (status, text, errors) = egrivundo(&words);
    assert_eq!(status, Some(4), "{errors}");
    assert!(text.contains("\n  1>1 of Lines out: it was "), "{text}");
    let unchanged = room.values().len() - 2;
    assert!(
        text.ends_with(&format!("\n2 moved as wished, {unchanged} unchanged.\n")),
        "{text}"
    );
}

/// While the person thinks about the list, another one writes.
#[test]
fn a_second_writer_at_the_question() {
    let (modules, _) = example("viewing-room.room");
    let folder = Folder::new("question");
    let then = folder.commentary_then();
    let served = Served::start(&modules);
    let mut putback = Command::new(PROGRAM)
        .args([
            "putback",
            &served.address,
            "--from",
            &then,
            "--module",
            "Commentary",
        ])
        .stdin(Stdio::piped())
        .stdout(Stdio::piped())
        .stderr(Stdio::piped())
        .spawn()
        .expect("the program runs");
    let mut out = putback.stdout.take().expect("its output");
    let mut text = Vec::new();
    while !text.ends_with(b"Send it? [y/N] ") {
        let mut byte = [0];
        out.read_exact(&mut byte).expect("a question");
        text.extend(byte);
    }
    let second = with_input(&["shell", &served.address], "SA\"Screen\">3=7.5\n");
    assert_eq!((second.0, &second.1[..]), (Some(0), "ACK\n"));
    let mut stdin = putback.stdin.take().expect("its input");
    stdin.write_all(b"y\n").expect("an answer");
    let mut rest = String::new();
    out.read_to_string(&mut rest).expect("the rest");
    assert_eq!(
        rest,
        "4 moved as wished, 1 moved otherwise, 51 unchanged.\n"
    );
    let done = putback.wait_with_output().expect("the program ends");
    let errors = String::from_utf8(done.stderr).expect("a text in UTF-8");
    assert!(
        errors.ends_with("Something else moved:\n  3 of Screen: 0.0 \u{2192} 7.5\n"),
        "{errors}"
    );
    assert_eq!(done.status.code(), Some(4));
}
