//! Files on disk, with messages that name them.

use std::path::{Path, PathBuf};
use std::{fs, io, process};

use egrivundo::Room;

use crate::given::Given;
use crate::lines::Fault;
use crate::replace::replace;
use crate::room_file;

/// The room that a file has.
pub fn read_room(path: &Path) -> Result<Room, String> {
    read_given(path).map(|(room, _)| room)
}

/// The room that a file has, and which lines give its values.
pub fn read_given(path: &Path) -> Result<(Room, Given), String> {
    let (text, name) = read_text(path)?;
    room_file::parse_given(&text).map_err(|fault| fault.in_file(&name))
}

/// A file's text, and its name as messages have it.
pub fn read_text(path: &Path) -> Result<(String, String), String> {
    let name = path.display().to_string();
    let bytes = fs::read(path).map_err(|error| format!("{name}: {error}"))?;
    match String::from_utf8(bytes) {
        Ok(text) => Ok((text, name)),
        Err(error) => {
            let good = &error.as_bytes()[..error.utf8_error().valid_up_to()];
            let line = 1 + good.iter().filter(|&&byte| byte == b'\n').count();
            let fault = Fault::new(line, "this is no text in UTF-8");
            Err(fault.in_file(&name))
        }
    }
}

/// Writes a file, which then takes the name: where that fails, an earlier one
/// stays as it is. What is no regular file, a pipe say, is written to.
pub fn write(path: &Path, bytes: &[u8]) -> Result<(), String> {
    put(path, bytes).map_err(|error| format!("{}: {error}", path.display()))
}

fn put(path: &Path, bytes: &[u8]) -> io::Result<()> {
    let path = match fs::canonicalize(path) {
        Ok(whole) if whole.is_file() => whole,
        Err(_) if fs::symlink_metadata(path).is_err() => path.to_path_buf(),
        _ => return fs::write(path, bytes),
    };
    let new = beside(&path, &format!(".{}.new", process::id()));
    replace(&path, &new, bytes, false).inspect_err(|error| {
        if error.kind() != io::ErrorKind::AlreadyExists {
            let _ = fs::remove_file(&new);
        }
    })
}

/// A path with an ending behind its name.
pub fn beside(path: &Path, ending: &str) -> PathBuf {
    let mut name = path.as_os_str().to_os_string();
    name.push(ending);
    name.into()
}

#[cfg(test)]
mod tests {
    use super::*;
    use std::os::unix::fs::{symlink, PermissionsExt};

    #[test]
    fn a_file_that_is_written_keeps_its_links_and_its_mode() {
        let name = format!("egrivundo-files-{}", process::id());
        let folder = std::env::temp_dir().join(name);
        fs::create_dir_all(&folder).unwrap();
        let (file, link) = (folder.join("file"), folder.join("link"));
        write(&file, b"first").unwrap();
        fs::set_permissions(&file, fs::Permissions::from_mode(0o640)).unwrap();
        symlink("file", &link).unwrap();
        write(&link, b"second").unwrap();
        assert_eq!(fs::read(&file).unwrap(), b"second");
        assert_eq!(
            fs::metadata(&file).unwrap().permissions().mode() & 0o777,
            0o640
        );
        assert_eq!(fs::read_link(&link).unwrap(), Path::new("file"));
        // A name that is the writer's own is not taken from another.
        let new = beside(&file, &format!(".{}.new", process::id()));
        fs::write(&new, b"of another").unwrap();
        assert!(write(&file, b"third").unwrap_err().contains("File exists"));
        assert_eq!(fs::read(&file).unwrap(), b"second");
        assert_eq!(fs::read(&new).unwrap(), b"of another");
        fs::remove_dir_all(&folder).unwrap();
    }
}
