//! Files that cannot be written.

use std::fs::{self, File};
use std::process::Command;

use crate::fake::Fake;
use crate::program::{example, run_by, Folder, PROGRAM};

/// A room file that could not be written is not taken for a whole one.
#[test]
fn a_full_disk() {
    let (modules, room) = example("viewing-room.room");
    let fake = Fake::plain(room);
    let table = modules.replace("viewing-room.room", "table");
    let full = "standard output: No space left on device (os error 28)\n";
    for words in [
        &["capture", &fake.address, &modules][..],
        &["table", "--back", &table],
    ] {
        let out = File::create("/dev/full").expect("the system has it");
        let done = Command::new(PROGRAM).args(words).stdout(out).output();
        let done = done.expect("the program runs");
        let errors = String::from_utf8_lossy(&done.stderr);
        assert_eq!(done.status.code(), Some(1), "{errors}");
        assert!(errors.ends_with(full), "{errors}");
    }
}

/// Nor is there half of one under its name, and an earlier one stays. No file of
/// this program gets longer than a block.
#[test]
fn a_full_disk_under_a_name() {
    let (modules, room) = example("viewing-room.room");
    let fake = Fake::plain(room);
    let folder = Folder::new("full");
    let full = "trap '' XFSZ; ulimit -f 1; exec \"$0\" \"$@\"";
    let capture = |out: &str| {
        let words = ["-c", full, PROGRAM, "capture", &fake.address, &modules];
        run_by("sh", &[&words[..], &["-o", out]].concat(), "")
    };
    for earlier in [None, Some("earlier")] {
        let out = folder.path("then.room");
        if let Some(earlier) = earlier {
            folder.file("then.room", earlier);
        }
        let (status, _, errors) = capture(&out);
        let told = format!("{out}: File too large (os error 27)\n");
        assert_eq!(status, Some(1), "{errors}");
        assert!(errors.ends_with(&told), "{errors}");
        assert_eq!(fs::read_to_string(&out).ok().as_deref(), earlier);
        let files = fs::read_dir(folder.path("")).expect("a folder").count();
        assert_eq!(files, usize::from(earlier.is_some()));
    }
    // What is no file is written to as it is.
    let words = ["capture", &fake.address, &modules, "-o", "/dev/stdout"];
    let (status, text, errors) = run_by(PROGRAM, &words, "");
    assert_eq!(status, Some(0), "{errors}");
    assert!(text.starts_with("# Captured from "), "{text}");
}
