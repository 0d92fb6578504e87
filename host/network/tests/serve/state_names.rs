//! A state file by another name, what is no file, and the files of others.

use std::fs::{self, File, Permissions};
use std::os::unix::fs::{symlink, FileTypeExt, PermissionsExt};
use std::path::Path;
use std::process::Command;

use super::model::room_file;
use super::server::{Folder, Server};

/// What a server that does not start says; it ends with status 1.
fn refused(folder: &Folder, room: &Path, state: &Path) -> String {
    let options = ["--listen", "127.0.0.1:0", "--state", text(state)];
    Server::refused(Server::command(room, &options, &folder.path("other")))
}

fn text(path: &Path) -> &str {
    path.to_str().expect("a path in UTF-8")
}

#[test]
fn a_symbolic_link_leads_to_the_one_file_and_stays() {
    let folder = Folder::new("link");
    let room = folder.file("room", room_file(1));
    let (state, link) = (folder.path("state"), folder.path("link"));
    symlink("state", &link).expect("a link");
    let start = |state| Server::start(&folder, &room, &["--state", text(state)]);
    let server = start(&state);
    let told = "another server keeps its values there";
    let said = refused(&folder, &room, &link);
    assert_eq!(said, format!("{}: {told}\n", text(&link)));
    drop(server);
    let server = start(&link);
    assert_eq!(server.connect().ask("SA\"P0\">1=-4"), "\x06");
    let said = refused(&folder, &room, &state);
    assert_eq!(said, format!("{}: {told}\n", text(&state)));
    drop(server);
    assert_eq!(fs::read_link(&link).expect("a link"), Path::new("state"));
    assert_eq!(start(&state).connect().ask("GA\"P0\">1"), "GA\"P0\">1=-4");
}

#[test]
fn a_change_keeps_the_mode() {
    let folder = Folder::new("mode");
    let room = folder.file("room", room_file(1));
    let state = folder.path("state");
    let server = Server::start(&folder, &room, &["--state", text(&state)]);
    for (mode, level) in [(0o600, 1), (0o664, 2), (0o444, 3)] {
        fs::set_permissions(&state, Permissions::from_mode(mode)).expect("a mode");
        let before = fs::read(&state).expect("a file");
        let line = format!("SA\"P0\">1=-{level}");
        assert_eq!(server.connect().ask(&line), "\x06");
        assert_ne!(fs::read(&state).expect("a file"), before);
        let now = fs::metadata(&state).expect("a file").permissions().mode();
        assert_eq!(now & 0o777, mode);
    }
}

#[test]
fn what_is_no_file_is_left_alone() {
    let folder = Folder::new("no-file");
    let room = folder.file("room", room_file(1));
    let pipe = folder.path("pipe");
    let made = Command::new("mkfifo").arg(&pipe).status();
    assert!(made.expect("mkfifo runs").success());
    let said = refused(&folder, &room, &pipe);
    assert_eq!(said, format!("{}: it is no regular file\n", text(&pipe)));
    let kind = fs::symlink_metadata(&pipe)
        .expect("it is there")
        .file_type();
    assert!(kind.is_fifo());
}

#[test]
fn a_link_that_leads_nowhere_is_refused() {
    let folder = Folder::new("nowhere");
    let room = folder.file("room", room_file(1));
    let link = folder.path("link");
    symlink("none", &link).expect("a link");
    let said = refused(&folder, &room, &link);
    let told = "it is a symbolic link that leads nowhere";
    assert_eq!(said, format!("{}: {told}\n", text(&link)));
    assert_eq!(fs::read_link(&link).expect("a link"), Path::new("none"));
    assert!(!folder.path("none").exists());
}

#[test]
fn the_room_file_is_no_state_file() {
    let folder = Folder::new("same");
    let room = folder.file("room", room_file(1));
    let link = folder.path("link");
    symlink("room", &link).expect("a link");
    for state in [&room, &link] {
        let said = refused(&folder, &room, state);
        assert_eq!(said, format!("{}: it is the room file\n", text(state)));
    }
    assert_eq!(fs::read_to_string(&room).expect("a file"), room_file(1));
}

/// A file under a name of the server's is neither overwritten nor deleted.
#[test]
fn the_files_of_others_stay_as_they_are() {
    let folder = Folder::new("others");
    let room = folder.file("room", room_file(1));
    let state = folder.path("state");
    // Too long for a state file.
    let long = File::create(&state).expect("a file");
    long.set_len((4 << 20) + 1).expect("a length");
    let said = refused(&folder, &room, &state);
    let told = "it is no state file: it is too long";
    assert_eq!(said, format!("{}: {told}\n", text(&state)));
    let length = fs::metadata(&state).expect("a file").len();
    assert_eq!(length, (4 << 20) + 1);
    fs::remove_file(&state).expect("it is gone");

    let other = folder.file("state.new", "of another");
    let said = refused(&folder, &room, &state);
    assert_eq!(said, format!("{}: it is in the way\n", text(&other)));
    assert_eq!(fs::read(&other).expect("a file"), b"of another");
    fs::remove_file(&other).expect("it is gone");
    symlink("room", &other).expect("a link");
    let said = refused(&folder, &room, &state);
    assert_eq!(said, format!("{}: it is in the way\n", text(&other)));
    assert_eq!(fs::read_to_string(&room).expect("a file"), room_file(1));
    fs::remove_file(&other).expect("it is gone");

    folder.file("state.lock", "of another");
    folder.file("state.bad", "of another");
    folder.file("state", "no state");
    let server = Server::start(&folder, &room, &["--state", text(&state)]);
    assert_eq!(server.connect().ask("SA\"P0\">1=-4"), "\x06");
    for (name, content) in [
        ("state.lock", "of another"),
        ("state.bad", "of another"),
        ("state.bad.2", "no state"),
    ] {
        let there = fs::read_to_string(folder.path(name));
        assert_eq!(there.expect("a file"), content, "{name}");
    }
}
