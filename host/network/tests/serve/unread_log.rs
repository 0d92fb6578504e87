//! A log that nobody reads, beside clients.

use std::fs::File;
use std::io::{BufRead, BufReader, Write};
use std::path::PathBuf;
use std::process::Command;
use std::sync::mpsc;
use std::thread;
use std::time::Instant;

use super::model::room_file;
use super::server::{Folder, Server, PATIENCE};
use super::slow::WAIT;

/// Their lines in the log are more than the pipe and the server have room for.
const LINES: usize = 40_000;

/// A pipe with a name for the log. The file reads from it, or does not.
fn pipe(folder: &Folder) -> (PathBuf, File) {
    let path = folder.path("pipe");
    let made = Command::new("mkfifo").arg(&path).status();
    assert!(made.expect("mkfifo runs").success());
    let file = File::options().read(true).write(true).open(&path);
    (path, file.expect("it opens"))
}

/// Each is 64 bytes that do not print, and one more, so it is long in the log.
fn ask_many(server: &Server) {
    let mut client = server.connect();
    let mut sender = client.stream.try_clone().expect("a second handle");
    let lines = [&[1; 65][..], b"\r"].concat().repeat(LINES);
    let sending = thread::spawn(move || sender.write_all(&lines));
    let reply = b"\x1599\r";
    assert!(client.read(LINES * reply.len()) == reply.repeat(LINES));
    sending.join().expect("it ends").expect("all is sent");
}

#[test]
fn holds_up_nobody_and_not_the_end() {
    let folder = Folder::new("unread-log");
    let room = folder.file("room", room_file(1));
    let (path, _unread) = pipe(&folder);
    let server = Server::logging(path, &room, &[]);
    ask_many(&server);
    assert_eq!(server.connect().ask("GA\"P0\">1"), "GA\"P0\">1=0");
    let start = Instant::now();
    server.signal("-TERM");
    assert_eq!(server.ended().0, Some(0));
    assert!(start.elapsed() < WAIT);
}

#[test]
fn is_told_how_many_lines_it_lacks_and_goes_on() {
    let folder = Folder::new("read-again");
    let room = folder.file("room", room_file(1));
    let (path, held) = pipe(&folder);
    let server = Server::logging(path.clone(), &room, &[]);
    let reader = File::open(path).expect("it opens");
    drop(held);
    ask_many(&server);
    let (sender, log) = mpsc::channel();
    thread::spawn(move || {
        for line in BufReader::new(reader).lines().map_while(Result::ok) {
            if sender.send(line).is_err() {
                return;
            }
        }
    });
    let next = || log.recv_timeout(PATIENCE).expect("the log goes on");
    let mut told = 0;
    let left_out: usize = loop {
        let line = next();
        match line.split_once("\t-\tlines left out here, as the log was not taken: ") {
            Some((_, count)) => break count.parse().expect("a count"),
            None => told += usize::from(line.split('\t').count() == 7),
        }
    };
    assert!(told > 0 && left_out > 0);
    // The last of all is that the client is gone, which may be among them.
    assert!([LINES, LINES + 1].contains(&(told + left_out)));
    println!("{told} lines told, {left_out} left out");
    server.connect().ask("GA\"P0\">1");
    while !next().contains("\tGA\"P0\">1\t") {}
}

/// Every write to it fails.
#[test]
fn that_it_cannot_be_written_is_told_once() {
    let folder = Folder::new("full");
    let room = folder.file("room", room_file(1));
    let server = Server::logging("/dev/full".into(), &room, &[]);
    for _ in 0..3 {
        assert_eq!(server.connect().ask("GA\"P0\">1"), "GA\"P0\">1=0");
    }
    server.signal("-TERM");
    let (status, said) = server.ended();
    assert_eq!(status, Some(0));
    let told = "the log cannot be written: No space left on device";
    assert_eq!(said.matches(told).count(), 1, "{said}");
}
