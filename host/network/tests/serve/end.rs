//! How a server begins and ends.

use std::fs;
use std::process::Stdio;
use std::thread;
use std::time::{Duration, Instant};

use super::model::room_file;
use super::server::{Folder, Server};
use super::slow::WAIT;

#[test]
fn sigterm_and_ctrl_c_end_it_cleanly() {
    for (signal, why) in [("-TERM", "SIGTERM"), ("-INT", "Ctrl-C")] {
        let folder = Folder::new(&format!("end{signal}"));
        let room = folder.file("room", room_file(1));
        // In the background of a script Ctrl-C is ignored.
        let heeding = ["env", "--default-signal=INT"];
        let server = Server::started_by(&heeding, folder.path("log"), &room, &[]);
        let mut client = server.connect();
        assert_eq!(client.ask("SA\"P0\">1=3"), "\x06");
        let start = Instant::now();
        server.signal(signal);
        assert_eq!(client.rest(), b"", "it is closed without a byte more");
        server.await_log(&format!("-\tended: {why}\n"));
        let (status, _) = server.ended();
        assert_eq!(status, Some(0));
        assert!(start.elapsed() < WAIT);
    }
}

#[test]
fn ctrl_c_that_was_ignored_stays_ignored() {
    let folder = Folder::new("ignored");
    let room = folder.file("room", room_file(1));
    let deaf = ["env", "--ignore-signal=INT"];
    let server = Server::started_by(&deaf, folder.path("log"), &room, &[]);
    server.signal("-INT");
    thread::sleep(Duration::from_millis(500));
    assert_eq!(server.connect().ask("GA\"P0\">1"), "GA\"P0\">1=0");
    server.signal("-TERM");
    server.await_log("-\tended: SIGTERM\n");
    assert_eq!(server.ended().0, Some(0));
}

#[test]
fn that_only_this_machine_reaches_it_is_told() {
    let folder = Folder::new("reach");
    let room = folder.file("room", room_file(1));
    let server = Server::start(&folder, &room, &[]);
    server.signal("-TERM");
    let (_, said) = server.ended();
    assert_eq!(
        said,
        "Only this machine does; --listen ADDRESS:PORT lets others in.\n"
    );
}

#[test]
fn what_is_wrong_at_the_start_is_told() {
    let folder = Folder::new("wrong");
    let room = folder.file("room", room_file(1));
    let bad = folder.file("bad.room", "module 9 \"x\"\n");
    let server = Server::start(&folder, &room, &[]);
    let taken = server.address.to_string();
    for (room, listen, status, told) in [
        (
            &room,
            &taken[..],
            1,
            format!("{taken}: Address already in use"),
        ),
        (
            &room,
            "127.0.0.1",
            2,
            "--listen takes ADDRESS:PORT; in 127.0.0.1 the port is missing".to_string(),
        ),
        (
            &bad,
            "127.0.0.1:0",
            1,
            format!("{}:1: no module type: 9", bad.display()),
        ),
    ] {
        let mut command = Server::command(room, &["--listen", listen], &folder.path("other"));
        let output = command.stderr(Stdio::piped()).output().expect("it runs");
        let said = String::from_utf8(output.stderr).expect("text");
        assert!(said.starts_with(&told), "{said}");
        assert_eq!(output.status.code(), Some(status));
    }
}

/// A state file that would be put aside stays where it is.
#[test]
fn without_its_address_a_server_leaves_the_state_alone() {
    let folder = Folder::new("untouched");
    let room = folder.file("room", room_file(1));
    let server = Server::start(&folder, &room, &[]);
    let inner = folder.path("inner");
    fs::create_dir(&inner).expect("a folder");
    let state = inner.join("state");
    fs::write(&state, "of another room").expect("it is written");
    let taken = server.address.to_string();
    let options = ["--listen", &taken, "--state", state.to_str().unwrap()];
    let mut command = Server::command(&room, &options, &folder.path("other"));
    let output = command.stderr(Stdio::piped()).output().expect("it runs");
    assert_eq!(output.status.code(), Some(1));
    let said = String::from_utf8(output.stderr).expect("text");
    assert!(said.starts_with(&format!("{taken}: Address already in use")));
    assert_eq!(fs::read(&state).expect("a file"), b"of another room");
    assert_eq!(fs::read_dir(&inner).expect("a folder").count(), 1);
}
