//! The state file: the values of a room, kept from one run to the next.
//!
//! A change writes a whole new file beside it, which then takes its name: under
//! that name there is never half a file. A lock on a third file keeps a second
//! server away, also one that has the file by a symbolic link. No file that is
//! another's is overwritten or deleted.

use std::fs::{self, File, TryLockError};
use std::io::{self, ErrorKind, Read};
use std::path::{Path, PathBuf};

use egrivundo::Room;
use files::beside;

use super::state_text::{begins, put, values};

/// The most bytes of a file that is looked at; no state file has so many.
const MOST: u64 = 4 << 20;

pub struct State {
    /// As it was given, for messages.
    name: String,
    /// Without symbolic links, where there is a file.
    path: PathBuf,
    /// The file that takes the name.
    new: PathBuf,
    /// Locked while this lives.
    _lock: File,
    /// Each file is on the disk before it takes the name, and the name after.
    sync: bool,
    text: String,
}

/// What stood in the file.
pub enum Found {
    /// No file.
    Nothing,
    /// These values for the table.
    Values(Room),
    /// A file that is not used, and why.
    Bad(String),
}

impl State {
    /// The state in a file; fails where another server has it, and where it, or
    /// what stands beside it, cannot be the server's.
    pub fn open(given: PathBuf, room: &Path, sync: bool) -> Result<State, String> {
        let name = given.display().to_string();
        let unkept = |error: io::Error| format!("{name}: the values cannot be kept: {error}");
        let path = match fs::canonicalize(&given) {
            Ok(path) if fs::canonicalize(room).is_ok_and(|room| room == path) => {
                return Err(format!("{name}: it is the room file"));
            }
            Ok(path) if path.is_file() => path,
            Ok(_) => return Err(format!("{name}: it is no regular file")),
            Err(error) if error.kind() != ErrorKind::NotFound => return Err(unkept(error)),
            Err(_) if fs::symlink_metadata(&given).is_ok() => {
                return Err(format!("{name}: it is a symbolic link that leads nowhere"));
            }
            Err(_) => given,
        };
        let lock = beside(&path, ".lock");
        let lock = File::options()
            .read(true)
            .write(true)
            .create(true)
            .truncate(false)
            .open(lock)
            .map_err(unkept)?;
        lock.try_lock().map_err(|error| match error {
            TryLockError::WouldBlock => format!("{name}: another server keeps its values there"),
            TryLockError::Error(error) => format!("{name}: {error}"),
        })?;
        let new = beside(&path, ".new");
        match is_left_over(&new) {
            Ok(true) => fs::remove_file(&new).map_err(unkept)?,
            Ok(false) => return Err(format!("{}: it is in the way", new.display())),
            Err(error) if error.kind() == ErrorKind::NotFound => {}
            Err(error) => return Err(format!("{}: {error}", new.display())),
        }
        Ok(State {
            name,
            path,
            new,
            _lock: lock,
            sync,
            text: String::new(),
        })
    }

    /// Reads the file, for the table of a room.
    pub fn read(&self, room: &Room) -> io::Result<Found> {
        let bytes = match start_of(&self.path) {
            Ok(bytes) => bytes,
            Err(error) if error.kind() == ErrorKind::NotFound => return Ok(Found::Nothing),
            Err(error) => return Err(error),
        };
        if bytes.len() as u64 > MOST {
            return Err(io::Error::other("it is no state file: it is too long"));
        }
        Ok(match values(&bytes, room.table()) {
            Ok(values) => match Room::from_parts(room.table().to_vec(), values) {
                Ok(room) => Found::Values(room),
                Err(refusal) => Found::Bad(refusal.to_string()),
            },
            Err(why) => Found::Bad(why.to_string()),
        })
    }

    /// Gives a bad file the first free name of `.bad`, `.bad.2` and so on, so
    /// that neither a change nor the next bad file takes its place.
    pub fn put_aside(&self) -> io::Result<PathBuf> {
        let mut aside = beside(&self.path, ".bad");
        for number in 2.. {
            match fs::symlink_metadata(&aside) {
                Ok(_) => aside = beside(&self.path, &format!(".bad.{number}")),
                Err(error) if error.kind() == ErrorKind::NotFound => break,
                Err(error) => return Err(error),
            }
        }
        fs::rename(&self.path, &aside)?;
        Ok(aside)
    }

    /// The file as messages have it.
    pub fn name(&self) -> &str {
        &self.name
    }

    /// Writes the values of a room.
    pub fn write(&mut self, room: &Room) -> Result<(), String> {
        self.text.clear();
        put(&mut self.text, room);
        let written = files::replace(&self.path, &self.new, self.text.as_bytes(), self.sync);
        written.map_err(|error| format!("{}: the values cannot be kept: {error}", self.name))
    }
}

/// Whether a file is one that an ended server did not finish.
fn is_left_over(new: &Path) -> io::Result<bool> {
    Ok(fs::symlink_metadata(new)?.is_file() && begins(&start_of(new)?))
}

/// All bytes of a file, or of a long one more than a state file has.
fn start_of(path: &Path) -> io::Result<Vec<u8>> {
    let mut bytes = Vec::new();
    File::open(path)?.take(MOST + 1).read_to_end(&mut bytes)?;
    Ok(bytes)
}
