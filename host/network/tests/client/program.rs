//! The program, run with files of its own.

use std::io::Write;
use std::path::{Path, PathBuf};
use std::process::{Command, Stdio};
use std::{env, fs, process};

use egrivundo::{Room, Wish};
use files::room_text;

pub const PROGRAM: &str = env!("CARGO_BIN_EXE_egrivundo");

/// The time limit of a reply, in seconds, where a test waits for it to pass.
pub const LIMIT: &str = "1";
/// The time limit where the box does answer, also on a busy machine.
pub const LONG: &str = "20";

/// Status, standard output and standard error.
pub type Told = (Option<i32>, String, String);

/// Runs the program without input.
pub fn egrivundo(words: &[&str]) -> Told {
    with_input(words, "")
}

/// Runs the program with this standard input.
pub fn with_input(words: &[&str], input: &str) -> Told {
    run_by(PROGRAM, words, input)
}

/// Runs another program, which starts this one.
pub fn run_by(program: &str, words: &[&str], input: &str) -> Told {
    let mut child = Command::new(program)
        .args(words)
        .stdin(Stdio::piped())
        .stdout(Stdio::piped())
        .stderr(Stdio::piped())
        .spawn()
        .expect("the program runs");
    let mut stdin = child.stdin.take().expect("its input");
    // The program may end before it has read all.
    let _ = stdin.write_all(input.as_bytes());
    drop(stdin);
    let output = child.wait_with_output().expect("the program ends");
    let text = |bytes| String::from_utf8(bytes).expect("a text in UTF-8");
    (
        output.status.code(),
        text(output.stdout),
        text(output.stderr),
    )
}

pub fn root() -> PathBuf {
    Path::new(env!("CARGO_MANIFEST_DIR")).join("../..")
}

/// An example: its path, and its room.
pub fn example(name: &str) -> (String, Room) {
    let path = root().join("examples").join(name);
    let room = files::read_room(&path).expect("a room file");
    (path.to_str().expect("a path in UTF-8").to_string(), room)
}

/// A folder for the files of one test, removed at its end.
pub struct Folder(PathBuf);

impl Folder {
    pub fn new(test: &str) -> Folder {
        let path = env::temp_dir().join(format!("egrivundo-client-{}-{test}", process::id()));
        fs::create_dir_all(&path).expect("the folder is made");
        Folder(path)
    }

    pub fn path(&self, name: &str) -> String {
        let path = self.0.join(name);
        path.to_str().expect("a path in UTF-8").to_string()
    }

    pub fn file(&self, name: &str, content: impl AsRef<[u8]>) -> String {
        let path = self.path(name);
        fs::write(&path, content).expect("the file is written");
        path
    }

    /// A room file with every value, as `capture` writes it.
    pub fn captured(&self, room: &Room) -> String {
        self.file("then.room", room_text::text(room))
    }

    /// The viewing room as captured before its commentary moved.
    pub fn commentary_then(&self) -> String {
        let (_, now) = example("viewing-room.room");
        let (_, saved) = example("first-viewing.room");
        let wish = Wish::from_present(&now).as_in(&saved, "Commentary");
        let values = wish.expect("a wish").wanted().to_vec();
        let then = Room::from_parts(now.table().to_vec(), values);
        self.captured(&then.expect("a room"))
    }
}

impl Drop for Folder {
    fn drop(&mut self) {
        let _ = fs::remove_dir_all(&self.0);
    }
}
