use std::fmt;

use crate::Refusal;

/// A port: the bytes of the unfinished line, and whether it has overrun.
///
/// Equal are two overrun ports, and two others with the same held bytes.
#[derive(Clone)]
pub struct Port {
    pub(crate) bytes: [u8; Port::BYTES],
}

impl Port {
    /// The most bytes that a port holds.
    pub const HELD: usize = 64;
    /// The bytes of a reply buffer.
    pub const REPLY: usize = 64;
    /// The most modules of a table.
    pub const MODULES: usize = 64;
    /// The bytes of a port as the archive takes it.
    pub const BYTES: usize = 66;

    /// The fresh port.
    ///
    /// ```
    /// let port = egrivundo::Port::new();
    /// assert_eq!(port.held(), b"");
    /// assert!(!port.overrun());
    /// ```
    #[must_use]
    pub const fn new() -> Port {
        Port {
            bytes: [0; Port::BYTES],
        }
    }

    /// The port of these bytes: held count, overrun (0 no, any other byte
    /// yes), held bytes.
    ///
    /// ```
    /// use egrivundo::{Port, Refusal};
    ///
    /// let mut bytes = [0; 66];
    /// bytes[..4].copy_from_slice(&[2, 0, b'G', b'A']);
    /// assert_eq!(Port::from_bytes(bytes)?.held(), b"GA");
    ///
    /// bytes[0] = 65;
    /// assert_eq!(Port::from_bytes(bytes), Err(Refusal::Port));
    /// # Ok::<(), Refusal>(())
    /// ```
    pub fn from_bytes(bytes: [u8; Port::BYTES]) -> Result<Port, Refusal> {
        if usize::from(bytes[0]) > Port::HELD {
            return Err(Refusal::Port);
        }
        Ok(Port { bytes })
    }

    /// Whether the line has grown over 64 bytes.
    #[must_use]
    pub fn overrun(&self) -> bool {
        self.bytes[1] != 0
    }

    /// The bytes of the unfinished line; none after an overrun.
    #[must_use]
    pub fn held(&self) -> &[u8] {
        if self.overrun() {
            return &[];
        }
        &self.bytes[2..2 + usize::from(self.bytes[0])]
    }

    /// Whether this is the fresh port.
    #[must_use]
    pub fn is_fresh(&self) -> bool {
        *self == Port::new()
    }
}

impl Default for Port {
    fn default() -> Port {
        Port::new()
    }
}

impl PartialEq for Port {
    fn eq(&self, other: &Port) -> bool {
        self.overrun() == other.overrun() && self.held() == other.held()
    }
}

impl Eq for Port {}

impl fmt::Debug for Port {
    fn fmt(&self, out: &mut fmt::Formatter) -> fmt::Result {
        if self.overrun() {
            return out.write_str("Port(overrun)");
        }
        write!(out, "Port(\"{}\")", self.held().escape_ascii())
    }
}
