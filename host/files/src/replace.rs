//! A file that is replaced whole: under its name there is never half of one.

use std::fs::{self, File};
use std::io::{self, Write};
use std::path::Path;

/// Writes a new file, which then takes the name of the old one and keeps its
/// mode. With `sync` it is on the disk before it takes the name, and the name
/// after. Fails where there is a file called `new`.
pub fn replace(path: &Path, new: &Path, bytes: &[u8], sync: bool) -> io::Result<()> {
    steps(&mut System, path, new, bytes, sync)
}

/// What is done to a disk.
trait Disk {
    type Open;
    /// A file that was not there, with the mode of another where there is one.
    fn write(&mut self, new: &Path, like: &Path, bytes: &[u8]) -> io::Result<Self::Open>;
    fn folder(&mut self, path: &Path) -> io::Result<Self::Open>;
    fn sync(&mut self, open: &Self::Open) -> io::Result<()>;
    fn rename(&mut self, new: &Path, path: &Path) -> io::Result<()>;
}

fn steps<D: Disk>(
    disk: &mut D,
    path: &Path,
    new: &Path,
    bytes: &[u8],
    sync: bool,
) -> io::Result<()> {
    let file = disk.write(new, path, bytes)?;
    if sync {
        disk.sync(&file)?;
    }
    drop(file);
    disk.rename(new, path)?;
    if sync {
        let folder = path.parent().filter(|folder| *folder != Path::new(""));
        let folder = disk.folder(folder.unwrap_or(Path::new(".")))?;
        disk.sync(&folder)?;
    }
    Ok(())
}

struct System;

impl Disk for System {
    type Open = File;

    fn write(&mut self, new: &Path, like: &Path, bytes: &[u8]) -> io::Result<File> {
        let mut file = File::create_new(new)?;
        match fs::metadata(like).map(|like| like.permissions()) {
            Ok(mode) if mode != file.metadata()?.permissions() => file.set_permissions(mode)?,
            _ => {}
        }
        file.write_all(bytes)?;
        Ok(file)
    }

    fn folder(&mut self, path: &Path) -> io::Result<File> {
        File::open(path)
    }

    fn sync(&mut self, open: &File) -> io::Result<()> {
        open.sync_all()
    }

    fn rename(&mut self, new: &Path, path: &Path) -> io::Result<()> {
        fs::rename(new, path)
    }
}

#[cfg(test)]
mod tests {
    use super::*;

    /// Notes what is done, up to a step that fails.
    struct Noted(Vec<String>, usize);

    impl Noted {
        fn note(&mut self, step: String) -> io::Result<String> {
            self.0.push(step.clone());
            match self.0.len() == self.1 {
                true => Err(io::ErrorKind::StorageFull.into()),
                false => Ok(step),
            }
        }
    }

    impl Disk for Noted {
        type Open = String;

        fn write(&mut self, new: &Path, _: &Path, bytes: &[u8]) -> io::Result<String> {
            self.note(format!("{} of {}", bytes.len(), new.display()))
        }

        fn folder(&mut self, path: &Path) -> io::Result<String> {
            Ok(path.display().to_string())
        }

        fn sync(&mut self, open: &String) -> io::Result<()> {
            self.note(format!("sync {open}")).map(drop)
        }

        fn rename(&mut self, new: &Path, path: &Path) -> io::Result<()> {
            self.note(format!("{} to {}", new.display(), path.display()))
                .map(drop)
        }
    }

    fn done(path: &str, sync: bool, fails: usize) -> (bool, Vec<String>) {
        let mut noted = Noted(Vec::new(), fails);
        let done = steps(&mut noted, path.as_ref(), "n".as_ref(), b"abc", sync);
        (done.is_ok(), noted.0)
    }

    #[test]
    fn with_sync_a_file_is_on_the_disk_before_it_has_the_name_and_the_name_after() {
        let all = ["3 of n", "sync 3 of n", "n to d/f", "sync d"];
        assert_eq!(done("d/f", true, 0), (true, all.map(String::from).to_vec()));
        assert_eq!(done("f", true, 0).1[3], "sync .");
        let plain = ["3 of n", "n to d/f"].map(String::from).to_vec();
        assert_eq!(done("d/f", false, 0), (true, plain));
        for fails in 1..=all.len() {
            let (whole, steps) = done("d/f", true, fails);
            assert!(!whole && steps == all[..fails], "{steps:?}");
        }
    }
}
