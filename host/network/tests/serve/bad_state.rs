//! State files that are cut, changed, of another room, or not permitted.

use std::fs;
use std::path::{Path, PathBuf};

use super::server::{Folder, Server};

const ROOM: &str = "module tone-control-eq \"T\"\n1 = 2\n";

struct Kept {
    folder: Folder,
    room: PathBuf,
    state: PathBuf,
}

/// A state file in which the first value is -4.
fn kept(name: &str) -> Kept {
    let folder = Folder::new(name);
    let (room, state) = (folder.file("room", ROOM), folder.path("state"));
    let kept = Kept {
        folder,
        room,
        state,
    };
    let server = kept.start();
    assert_eq!(server.connect().ask("SA\"T\">1=-4"), "\x06");
    drop(server);
    let server = kept.start();
    assert_eq!(server.connect().ask("GA\"T\">1"), "GA\"T\">1=-4");
    assert_eq!(server.said, "");
    kept
}

impl Kept {
    fn start(&self) -> Server {
        Server::start(&self.folder, &self.room, &["--state", text(&self.state)])
    }

    /// With this content the file is named, in the log too, put aside and not
    /// used.
    fn refused(&self, content: &[u8], why: &str) {
        fs::write(&self.state, content).expect("it is written");
        let server = self.start();
        let named = format!("{} is not used: {why}.", text(&self.state));
        assert!(server.said.starts_with(&named), "{}", server.said);
        server.await_log(&format!("\t-\t{}", server.said));
        assert_eq!(server.connect().ask("GA\"T\">1"), "GA\"T\">1=2");
        let (_, aside) = server.said.split_once("It is kept as ").expect("a name");
        let (aside, _) = aside.split_once("; ").expect("a name");
        assert_eq!(fs::read(aside).expect("it is kept"), content);
    }
}

fn text(path: &Path) -> &str {
    path.to_str().expect("a path in UTF-8")
}

/// The sum at the end of a state file.
fn sum(text: &str) -> u64 {
    let step = |sum: u64, byte: u8| (sum ^ u64::from(byte)).wrapping_mul(0x0100_0000_01B3);
    text.bytes().fold(0xCBF2_9CE4_8422_2325, step)
}

#[test]
fn a_cut_or_changed_file_is_named_and_not_used() {
    let kept = kept("bad");
    let good = fs::read(&kept.state).expect("a file");
    for end in [18, 40, good.len() / 2, good.len() - 22, good.len() - 1] {
        kept.refused(&good[..end], "it is cut short or changed");
    }
    kept.refused(b"", "it is no state file");
    // Also where it does not begin as one any more.
    for place in [0, 17] {
        let mut changed = good.clone();
        changed[place] ^= 1;
        kept.refused(&changed, "it is no state file");
    }
    for place in [20, 44, good.len() - 3] {
        let mut changed = good.clone();
        changed[place] ^= 1;
        kept.refused(&changed, "it is cut short or changed");
    }
    // As it was, it is used again.
    fs::write(&kept.state, &good).expect("it is written");
    assert_eq!(kept.start().connect().ask("GA\"T\">1"), "GA\"T\">1=-4");
}

#[test]
fn a_file_goes_through_the_refusals_of_any_list() {
    let kept = kept("forbidden");
    let good = fs::read_to_string(&kept.state).expect("a file");
    let (start, _) = good.split_once("-40\n").expect("the first value");
    for values in [
        "151\n0\n0\n0\n0\n0\n",
        "0\n2\n0\n0\n0\n0\n",
        "0\n0\n0\n0\n0\n",
        "",
    ] {
        let content = format!("{start}{values}");
        let content = format!("{content}sum {:016x}\n", sum(&content));
        kept.refused(
            content.as_bytes(),
            "refused with 2: values: wrong length, or one that is not permitted",
        );
    }
}

#[test]
fn a_file_of_another_room_is_named_and_not_used() {
    let kept = kept("other");
    fs::write(&kept.room, "module tone-control-eq \"Other\"\n").expect("it is written");
    let server = kept.start();
    let why = "it belongs to a room with other modules";
    assert!(server.said.contains(why), "{}", server.said);
    assert_eq!(server.connect().ask("GA\"Other\">1"), "GA\"Other\">1=0");
}

/// The room file of another room, by mistake, and then the right one again.
#[test]
fn a_file_that_was_put_aside_is_never_overwritten() {
    let kept = kept("aside");
    let good = fs::read(&kept.state).expect("a file");
    fs::write(&kept.room, "module tone-control-eq \"Other\"\n").expect("it is written");
    drop(kept.start());
    let other = fs::read(&kept.state).expect("a file");
    fs::write(&kept.room, ROOM).expect("it is written");
    drop(kept.start());
    let aside = |name| fs::read(kept.folder.path(name)).expect("it is kept");
    assert_eq!(aside("state.bad"), good);
    assert_eq!(aside("state.bad.2"), other);
    fs::rename(kept.folder.path("state.bad"), &kept.state).expect("it is put back");
    assert_eq!(kept.start().connect().ask("GA\"T\">1"), "GA\"T\">1=-4");
}

#[test]
fn half_a_new_file_is_never_read() {
    let kept = kept("half-new");
    let good = fs::read(&kept.state).expect("a file");
    kept.folder.file("state.new", &good[..30]);
    let server = kept.start();
    assert_eq!(
        (&server.said[..], server.connect().ask("GA\"T\">1")),
        ("", "GA\"T\">1=-4".to_string())
    );
    assert_eq!(server.connect().ask("SA\"T\">1=-5"), "\x06");
    drop(server);
    assert_eq!(kept.start().connect().ask("GA\"T\">1"), "GA\"T\">1=-5");
}

#[test]
fn a_file_that_cannot_be_written_is_told_at_the_start() {
    let folder = Folder::new("unwritable");
    let room = folder.file("room", ROOM);
    for (place, why) in [
        ("none/state", "the values cannot be kept"),
        ("", "it is no regular file"),
    ] {
        let state = folder.path(place);
        let options = ["--listen", "127.0.0.1:0", "--state", text(&state)];
        let said = Server::refused(Server::command(&room, &options, &folder.path("log")));
        assert!(
            said.starts_with(text(&state)) && said.contains(why),
            "{said}"
        );
    }
}

/// Also where there is a good one: no file can be written by this server.
#[test]
fn a_good_file_that_cannot_be_replaced_is_told_at_the_start() {
    let kept = kept("unreplaceable");
    let good = fs::read(&kept.state).expect("a file");
    let none = "trap '' XFSZ; ulimit -f 0; exec \"$0\" \"$@\"";
    let options = ["--listen", "127.0.0.1:0", "--state", text(&kept.state)];
    let log = kept.folder.path("other");
    let said = Server::refused(Server::by(&["sh", "-c", none], &kept.room, &options, &log));
    let told = format!("{}: the values cannot be kept: ", text(&kept.state));
    assert!(said.starts_with(&told), "{said}");
    assert_eq!(fs::read(&kept.state).expect("a file"), good);
    assert_eq!(kept.start().connect().ask("GA\"T\">1"), "GA\"T\">1=-4");
}

#[test]
fn a_file_that_another_server_has_is_left_alone() {
    let kept = kept("locked");
    let server = kept.start();
    let options = ["--listen", "127.0.0.1:0", "--state", text(&kept.state)];
    let log = kept.folder.path("other");
    let said = Server::refused(Server::command(&kept.room, &options, &log));
    let told = format!(
        "{}: another server keeps its values there\n",
        text(&kept.state)
    );
    assert_eq!(said, told);
    assert_eq!(server.connect().ask("GA\"T\">1"), "GA\"T\">1=-4");
}

#[test]
fn a_change_that_cannot_be_kept_is_not_acknowledged() {
    let folder = Folder::new("lost");
    let room = folder.file("room", ROOM);
    let inner = folder.path("inner");
    fs::create_dir(&inner).expect("a folder");
    let state = inner.join("state");
    let server = Server::start(&folder, &room, &["--state", text(&state)]);
    let mut client = server.connect();
    assert_eq!(client.ask("SA\"T\">1=-4"), "\x06");
    fs::remove_dir_all(&inner).expect("it is gone");
    client.send(b"GA\"T\">1\rSA\"T\">1=-5\r");
    let replies = client.rest();
    assert!(
        replies.is_empty() || replies == b"GA\"T\">1=-4\r",
        "{replies:?}"
    );
    server.await_log("ended: ");
    let (status, said) = server.ended();
    let told = format!("{}: the values cannot be kept: ", text(&state));
    assert!(status == Some(1) && said.contains(&told), "{said}");
}
