//! What is drawn on a terminal, and there alone. The terminal is that of
//! `script`, of util-linux.

mod common;

use std::io::Write;
use std::process::Command;
use std::{env, io};

use common::copy::Copy;
use common::{example, told};

/// What a command writes to a terminal; nothing, and a note, without `script`.
fn on_terminal(command: &str, variables: &[(&str, &str)]) -> Option<String> {
    let mut terminal = Command::new("script");
    terminal
        .args(["-qec", command, "/dev/null"])
        .env_remove("NO_COLOR")
        .env_remove("EGRIVUNDO_ARCHIVE");
    terminal.env("TERM", "xterm").env("SHELL", "/bin/sh");
    terminal.envs(variables.iter().copied());
    match terminal.output() {
        Ok(output) => Some(told(output).1),
        Err(_) => {
            let _ = writeln!(
                io::stderr(),
                "SKIPPED: no terminal, script is not installed"
            );
            None
        }
    }
}

#[test]
fn colour() {
    let (room, wish) = (example("viewing-room.room"), example("commentary.wish"));
    let command = format!("'{}' '{room}' '{wish}'", env!("CARGO_BIN_EXE_story"));
    let Some(text) = on_terminal(&command, &[]) else {
        return;
    };
    let first = "This takes \x1b[1m82 bytes, 4 lines\x1b[0m.\r\n\
                 \x1b[1;32mYes\x1b[0m: 4 parameters of Commentary";
    assert!(text.starts_with(first), "{text}");
    for variable in [("NO_COLOR", "1"), ("TERM", "dumb")] {
        let text = on_terminal(&command, &[variable]).unwrap();
        let first = "This takes 82 bytes, 4 lines.\r\nYes: 4 parameters of Commentary";
        assert!(text.starts_with(first), "{text}");
        assert!(!text.contains('\x1b'));
    }
    // An empty NO_COLOR says nothing.
    let text = on_terminal(&command, &[("NO_COLOR", "")]).unwrap();
    assert!(text.contains('\x1b'));
}

#[test]
fn one_line_of_progress() {
    let copy = Copy::new("terminal", &["rt", "cargo", "cc"]);
    let path = format!("{}:{}", copy.folder.path("bin"), env::var("PATH").unwrap());
    let Some(text) = on_terminal(&copy.folder.path("run"), &[("PATH", &path)]) else {
        return;
    };
    let lines: Vec<&str> = text.split("\r\n").collect();
    assert!(
        lines[0].starts_with("Proving 4 of 5 crates, once; "),
        "{text}"
    );
    let drawn: Vec<&str> = lines[1].split("\r\x1b[K").skip(1).collect();
    let mut crates: Vec<&str> = drawn
        .iter()
        .map(|line| line.split(',').next().unwrap())
        .filter(|line| *line != "0/4")
        .collect();
    // A line is drawn again with each second.
    crates.dedup();
    assert_eq!(crates, ["1/4 low", "2/4 middle", "3/4 upper", "4/4 capi"]);
    assert!(drawn.iter().all(|line| line.ends_with(" s")), "{text}");
}
