//! The bytes of a line as they were served, for the log.

use std::fmt;

/// The most bytes of a line; of a longer one only these are kept.
const MOST: usize = 64;

/// A line's first bytes, and how many there are in all.
#[derive(Default)]
pub struct Line {
    start: Vec<u8>,
    length: u64,
}

impl Line {
    /// Adds bytes; a carriage return that ends the line is not kept.
    pub fn add(&mut self, bytes: &[u8]) {
        let bytes = bytes.strip_suffix(b"\r").unwrap_or(bytes);
        let room = MOST - self.start.len();
        self.start
            .extend_from_slice(&bytes[..bytes.len().min(room)]);
        self.length += bytes.len() as u64;
    }

    /// The line's bytes, of a longer one the first 64.
    pub fn bytes(&self) -> &[u8] {
        &self.start
    }

    pub fn clear(&mut self) {
        self.start.clear();
        self.length = 0;
    }
}

/// Told with its length where it is cut.
impl fmt::Display for Line {
    fn fmt(&self, out: &mut fmt::Formatter) -> fmt::Result {
        write!(out, "{}", Shown(&self.start))?;
        match self.length > MOST as u64 {
            true => write!(out, ".. ({} bytes)", self.length),
            false => Ok(()),
        }
    }
}

/// Bytes on one line: those of ASCII that print as they are, others as `\x0A`,
/// and a backslash as two.
pub struct Shown<'a>(pub &'a [u8]);

impl fmt::Display for Shown<'_> {
    fn fmt(&self, out: &mut fmt::Formatter) -> fmt::Result {
        self.0.iter().try_for_each(|&byte| match byte {
            b'\\' => out.write_str("\\\\"),
            b' '..=b'~' => write!(out, "{}", char::from(byte)),
            _ => write!(out, "\\x{byte:02X}"),
        })
    }
}

#[cfg(test)]
mod tests {
    use super::*;

    #[test]
    fn lines() {
        let mut line = Line::default();
        line.add(b"SA\"T\n\\\xff");
        line.add(b"\">1=2\r");
        assert_eq!(line.to_string(), "SA\"T\\x0A\\\\\\xFF\">1=2");
        line.clear();
        for _ in 0..100 {
            line.add(b"xy");
        }
        line.add(b"\r");
        assert_eq!(line.bytes(), "xy".repeat(32).as_bytes());
        assert_eq!(
            line.to_string(),
            format!("{}.. (200 bytes)", "xy".repeat(32))
        );
    }
}
