//! `egrivundo table`: a room file as bytes, and back.

use std::ffi::OsString;
use std::fs;
use std::path::{Path, PathBuf};

use egrivundo::{calls, Room};
use files::room_text;

use crate::status::End;
use crate::words::{put, Words};

pub const HELP: &str = include_str!("help.txt");

#[derive(Debug, PartialEq, Eq)]
pub struct Options {
    way: Way,
    values: Option<PathBuf>,
}

#[derive(Debug, PartialEq, Eq)]
enum Way {
    /// From a room file to a table.
    Out(PathBuf, PathBuf),
    /// From a table to a room file, or to standard output.
    Back(PathBuf, Option<PathBuf>),
}

/// The options; nothing where help is asked for.
pub fn read(words: Vec<OsString>) -> Result<Option<Options>, String> {
    let Some(words) = Words::sort(words, &["--back"], &["-o", "--values"])? else {
        return Ok(None);
    };
    let out = words.one("-o")?.map(PathBuf::from);
    let way = match (&words.plain[..], words.has("--back"), out) {
        ([room, table], false, None) => Way::Out(room.into(), table.into()),
        ([table], true, out) => Way::Back(table.into(), out),
        (_, false, Some(_)) => return Err("-o belongs to --back".to_string()),
        (_, false, None) => return Err("a room file and a file to write are needed".to_string()),
        (_, true, _) => return Err("one table is needed behind --back".to_string()),
    };
    let values = words.one("--values")?.map(PathBuf::from);
    Ok(Some(Options { way, values }))
}

pub fn run(options: Options) -> Result<(), End> {
    let values = options.values.as_deref();
    match &options.way {
        Way::Out(room, table) => {
            let room = files::read_room(room)?;
            files::write(table, room.table())?;
            if let Some(path) = values {
                let bytes = room.values().iter().flat_map(|value| value.to_le_bytes());
                files::write(path, &bytes.collect::<Vec<u8>>())?;
            }
        }
        Way::Back(table, out) => {
            let text = room_text::text(&room(table, values)?);
            match out {
                Some(path) => files::write(path, text.as_bytes())?,
                None => put(&text)?,
            }
        }
    }
    Ok(())
}

/// The room of a table's bytes, and of the values' where they are given.
fn room(table: &Path, values: Option<&Path>) -> Result<Room, String> {
    let refused = |path: &Path, refusal| format!("{}: {refusal}", path.display());
    let bytes = read_bytes(table)?;
    let starts = starts(&bytes);
    let room = Room::from_parts(bytes, starts).map_err(|refusal| refused(table, refusal))?;
    let Some(path) = values else {
        return Ok(room);
    };
    let values = read_bytes(path)?;
    let numbers = values
        .chunks(8)
        .map(|chunk| chunk.try_into().map(i64::from_le_bytes));
    let Ok(numbers) = numbers.collect::<Result<Vec<i64>, _>>() else {
        return Err(format!("{}: values have eight bytes each", path.display()));
    };
    let table = room.table().to_vec();
    Room::from_parts(table, numbers).map_err(|refusal| refused(path, refusal))
}

/// The values that a table's parameters start with; none of an unsound table.
fn starts(table: &[u8]) -> Vec<i64> {
    // Both calls refuse an unsound table, as the room of these values will be.
    let mut count = [0];
    let _ = calls::value_count(table, &mut count);
    let mut values = vec![0; count[0] as usize];
    let _ = calls::starts(table, &mut values);
    values
}

fn read_bytes(path: &Path) -> Result<Vec<u8>, String> {
    fs::read(path).map_err(|error| format!("{}: {error}", path.display()))
}

#[cfg(test)]
mod tests {
    use super::*;

    #[test]
    fn options() {
        let given = |words: &str| read(words.split_whitespace().map(OsString::from).collect());
        assert!(matches!(
            given("a b --values v"),
            Ok(Some(Options {
                way: Way::Out(..),
                values: Some(_)
            }))
        ));
        assert!(matches!(
            given("--back b -o a"),
            Ok(Some(Options {
                way: Way::Back(_, Some(_)),
                ..
            }))
        ));
        for wrong in ["", "a", "a b c", "--back", "--back a b", "a b -o c"] {
            assert!(given(wrong).is_err(), "{wrong}");
        }
    }
}
