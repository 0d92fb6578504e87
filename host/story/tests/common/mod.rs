//! What the tests of the program share.
#![allow(dead_code)]

pub mod chromium;
pub mod copy;

use std::path::{Path, PathBuf};
use std::process::{Command, Output};
use std::{env, fs, process};

pub fn root() -> PathBuf {
    Path::new(env!("CARGO_MANIFEST_DIR")).join("../..")
}

pub fn example(name: &str) -> String {
    let path = root().join("examples").join(name);
    path.to_str().expect("a path in UTF-8").to_string()
}

/// Status, standard output and standard error.
pub type Told = (Option<i32>, String, String);

pub fn told(output: Output) -> Told {
    let text = |bytes| String::from_utf8(bytes).expect("a text in UTF-8");
    (
        output.status.code(),
        text(output.stdout),
        text(output.stderr),
    )
}

/// Runs the program.
pub fn story(arguments: &[&str]) -> Told {
    let program = env!("CARGO_BIN_EXE_story");
    let output = Command::new(program).args(arguments).output();
    told(output.expect("the program runs"))
}

/// A folder for the files of one test, removed at its end.
pub struct Folder(PathBuf);

impl Folder {
    pub fn new(test: &str) -> Folder {
        let path = env::temp_dir().join(format!("egrivundo-{}-{test}", process::id()));
        fs::create_dir_all(&path).expect("the folder is made");
        Folder(path)
    }

    pub fn path(&self, name: &str) -> String {
        let path = self.0.join(name);
        path.to_str().expect("a path in UTF-8").to_string()
    }

    pub fn file(&self, name: &str, content: impl AsRef<[u8]>) -> String {
        let path = self.path(name);
        let folder = Path::new(&path).parent().expect("a folder");
        fs::create_dir_all(folder).expect("the folder is made");
        fs::write(&path, content).expect("the file is written");
        path
    }
}

impl Drop for Folder {
    fn drop(&mut self) {
        let _ = fs::remove_dir_all(&self.0);
    }
}
