use std::fmt;

/// How long a restore list is. It is shown as `43 bytes, 4 lines`.
#[derive(Clone, Copy, Debug, PartialEq, Eq)]
pub struct Size {
    /// Bytes, each line's 0x0D counted.
    pub bytes: usize,
    /// Lines.
    pub lines: usize,
}

impl Size {
    /// Of the numbers that a call tells.
    pub(crate) fn told(told: [u64; 2]) -> Size {
        let [bytes, lines] = told.map(|number| number as usize);
        Size { bytes, lines }
    }
}

impl fmt::Display for Size {
    fn fmt(&self, out: &mut fmt::Formatter) -> fmt::Result {
        let plural = |count| if count == 1 { "" } else { "s" };
        let Size { bytes, lines } = *self;
        write!(
            out,
            "{bytes} byte{}, {lines} line{}",
            plural(bytes),
            plural(lines)
        )
    }
}

/// A restore list: SA lines, each with its 0x0D.
#[derive(Clone, Debug, PartialEq, Eq)]
#[must_use = "a list does nothing until it is sent"]
pub struct List {
    pub(crate) bytes: Vec<u8>,
    pub(crate) lines: usize,
}

impl List {
    /// The bytes to send.
    pub fn bytes(&self) -> &[u8] {
        &self.bytes
    }

    /// How many lines there are.
    pub fn lines(&self) -> usize {
        self.lines
    }

    /// Its bytes and lines, as they are told of it before it is written.
    #[must_use]
    pub fn size(&self) -> Size {
        Size {
            bytes: self.bytes.len(),
            lines: self.lines,
        }
    }

    /// Whether there is nothing to change.
    pub fn is_empty(&self) -> bool {
        self.bytes.is_empty()
    }

    /// The lines without their ends.
    ///
    /// ```
    /// # use egrivundo::{Room, Type};
    /// let room = Room::new(&[(Type::SmartBass, "S")])?;
    /// let list = room.put_back(&[1], &[1])?;
    /// assert_eq!(list.texts().collect::<Vec<_>>(), [b"SA\"S\">1=O"]);
    /// # Ok::<(), egrivundo::Refusal>(())
    /// ```
    pub fn texts(&self) -> impl Iterator<Item = &[u8]> {
        self.bytes
            .split_inclusive(|&byte| byte == b'\r')
            .map(|line| line.strip_suffix(b"\r").unwrap_or(line))
    }
}
