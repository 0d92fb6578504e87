//! What stands in a state file:
//!
//!     egrivundo state 1
//!     table 5f0c9a3b7d21e846      a sum of the table's bytes
//!     -65                         a value on each line, in the core's numbers
//!     sum 0d4c7f6a91be2358        a sum of all bytes before this line
//!
//! Any one changed byte, and any bytes that are missing at the end, are found by
//! the sum.

use std::fmt::Write;

use egrivundo::Room;

const TITLE: &str = "egrivundo state 1\n";

/// Whether bytes begin as a state file does, or are the beginning of one.
pub fn begins(bytes: &[u8]) -> bool {
    let title = TITLE.as_bytes();
    bytes.starts_with(title) || title.starts_with(bytes)
}

/// Puts the values of a room behind a text that is empty.
pub fn put(text: &mut String, room: &Room) {
    text.push_str(TITLE);
    // Writing to a String does not fail.
    let _ = writeln!(text, "table {:016x}", sum(room.table()));
    for value in room.values() {
        let _ = writeln!(text, "{value}");
    }
    let sum = sum(text.as_bytes());
    let _ = writeln!(text, "sum {sum:016x}");
}

/// The values in a file's bytes, or why they are not used.
pub fn values(bytes: &[u8], table: &[u8]) -> Result<Vec<i64>, &'static str> {
    let cut = "it is cut short or changed";
    let text = std::str::from_utf8(bytes).map_err(|_| cut)?;
    let rest = text.strip_prefix(TITLE).ok_or("it is no state file")?;
    let start = text.len().checked_sub("sum 0123456789abcdef\n".len());
    let (before, last) = start.and_then(|at| text.split_at_checked(at)).ok_or(cut)?;
    if last != format!("sum {:016x}\n", sum(before.as_bytes())) {
        return Err(cut);
    }
    let rest = &rest[..rest.len() - last.len()];
    let (first, rest) = rest.split_once('\n').ok_or(cut)?;
    if first != format!("table {:016x}", sum(table)) {
        return Err("it belongs to a room with other modules");
    }
    let values: Result<_, _> = rest.lines().map(str::parse).collect();
    values.map_err(|_| cut)
}

/// FNV-1a with 64 bits. Each byte turns the number by a bijection, so two texts
/// that differ in one byte have different sums.
fn sum(bytes: &[u8]) -> u64 {
    bytes.iter().fold(0xCBF2_9CE4_8422_2325, |sum, &byte| {
        (sum ^ u64::from(byte)).wrapping_mul(0x0100_0000_01B3)
    })
}

#[cfg(test)]
mod tests {
    use super::*;
    use egrivundo::Type;

    fn room() -> Room {
        let mut room = Room::new(&[(Type::ToneControlEq, "T"), (Type::SmartBass, "S")]).unwrap();
        assert!(room.line(b"SA\"T\">1=-4").unwrap().is_ack());
        room
    }

    #[test]
    fn what_is_written_is_read() {
        let room = room();
        let mut text = String::new();
        put(&mut text, &room);
        assert_eq!(
            values(text.as_bytes(), room.table()).unwrap(),
            room.values()
        );
        let other = Room::new(&[(Type::SmartBass, "S")]).unwrap();
        let other = values(text.as_bytes(), other.table());
        assert_eq!(other, Err("it belongs to a room with other modules"));
    }

    #[test]
    fn no_shorter_or_changed_file_is_taken() {
        let room = room();
        let mut text = String::new();
        put(&mut text, &room);
        let mut bytes = text.into_bytes();
        for end in 0..bytes.len() {
            assert!(values(&bytes[..end], room.table()).is_err(), "{end} bytes");
        }
        for place in 0..bytes.len() {
            for change in 1..=255 {
                bytes[place] ^= change;
                assert!(values(&bytes, room.table()).is_err(), "byte {place}");
                bytes[place] ^= change;
            }
        }
        assert!(values(&bytes, room.table()).is_ok());
    }

    #[test]
    fn beginnings() {
        let mut text = String::new();
        put(&mut text, &room());
        for end in 0..text.len() {
            assert!(begins(&text.as_bytes()[..end]), "{end} bytes");
        }
        for other in [&b"module"[..], b"egrivundo state 2\n", b"\n"] {
            assert!(!begins(other));
        }
    }
}
