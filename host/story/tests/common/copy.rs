//! A small repository in which the script `run` is tried, with other programs
//! in place of `rt` and `cargo`.

use std::os::unix::fs::{symlink, PermissionsExt};
use std::path::Path;
use std::process::Command;
use std::time::{Duration, SystemTime};
use std::{env, fs};

use super::{root, told, Folder, Told};

/// Proves what `CHANGED` names, and fails at what `WRONG` names.
const RT: &str = r#"#!/usr/bin/env bash
echo "arguments: $*, in the folder ${PWD##*/}, temporary files: ${TMPDIR:-none}"
for name in low middle upper capi; do
    if [[ $name == "${WRONG:-}" ]]; then
        echo "rt: chose --jobs 2 for $name"
        echo "fn $name::x: not proved"
        echo "logic=not-proved"
        echo "rt: the library $name did not build, so nothing above it was checked"
        exit 1
    elif [[ " ${CHANGED:-low middle upper} capi " == *" $name "* ]]; then
        echo "rt: chose --jobs 2 for $name"
        echo "fn $name::x: proved"
        echo "logic=proved functions=1"
        mkdir -p ../$name/out/rlib
        echo x >../$name/out/rlib/stamp
    fi
done
echo x >out/libcapi.a
"#;

/// Says its arguments, and makes the file that is the program.
const CARGO: &str = r#"#!/usr/bin/env bash
printf '%s\n' "$@"
program=${0%/bin/cargo}/host/target/release/story
mkdir -p "${program%/*}"
cp "$0" "$program"
"#;

/// What the script needs beside the compilers.
const TOOLS: [&str; 12] = [
    "bash", "cat", "cp", "dirname", "env", "find", "grep", "mkdir", "mv", "rm", "sleep", "tail",
];

/// A small repository, with the programs of its folder `bin` alone.
pub struct Copy {
    pub folder: Folder,
}

impl Copy {
    pub fn new(test: &str, compilers: &[&str]) -> Copy {
        let folder = Folder::new(test);
        for name in [
            "run",
            "host/archive.sh",
            "host/program.sh",
            "host/story/archive.sh",
            "host/story/src/help.txt",
        ] {
            folder.file(name, fs::read(root().join(name)).unwrap());
        }
        folder.file(
            "crates.txt",
            "# NAME: below\nlow:\nmiddle: low\nupper: middle low\nbeside: low\ncapi staticlib: upper io\n",
        );
        for name in ["low", "middle", "upper", "beside", "capi"] {
            folder.file(&format!("crates/{name}/src/lib.rt"), "");
        }
        folder.file("bin/rt", RT);
        folder.file("bin/cargo", CARGO);
        folder.file("bin/cc", "");
        for name in ["rt", "cargo", "cc"] {
            if !compilers.contains(&name) {
                fs::remove_file(folder.path(&format!("bin/{name}"))).unwrap();
            }
        }
        let path = env::var("PATH").unwrap();
        for tool in TOOLS {
            let found = path.split(':').map(|folder| Path::new(folder).join(tool));
            if let Some(found) = found.into_iter().find(|path| path.is_file()) {
                symlink(found, folder.path(&format!("bin/{tool}"))).unwrap();
            }
        }
        for name in [
            "run",
            "host/archive.sh",
            "host/program.sh",
            "host/story/archive.sh",
            "bin/rt",
            "bin/cargo",
            "bin/cc",
        ] {
            let mode = fs::Permissions::from_mode(0o755);
            let _ = fs::set_permissions(folder.path(name), mode);
        }
        Copy { folder }
    }

    pub fn run(&self, arguments: &[&str], variables: &[(&str, &str)]) -> Told {
        let mut command = Command::new(self.folder.path("run"));
        command.args(arguments).env_clear();
        command.env("PATH", self.folder.path("bin"));
        command.envs(variables.iter().copied());
        told(command.output().expect("the script runs"))
    }

    /// Makes a file younger than all that is there.
    pub fn touch(&self, name: &str) {
        let file = fs::File::create(self.folder.path(name)).unwrap();
        let later = SystemTime::now() + Duration::from_secs(5);
        file.set_modified(later).unwrap();
    }

    pub fn log(&self) -> String {
        fs::read_to_string(self.folder.path("target/log/archive")).unwrap()
    }
}
