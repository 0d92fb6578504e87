//! What a line that was sent waits for.

use egrivundo::Index;

use crate::client::{asked, Said};

/// The reply that is waited for.
#[derive(Debug, PartialEq, Eq)]
pub enum Awaited {
    /// ACK or NAK: a set line was sent.
    Done,
    /// The value of this parameter or NAK: a get line was sent.
    Value(String, Index),
    /// Anything: of another line it is not known what a box says to it.
    Any,
}

impl Awaited {
    /// Of a line without its end.
    pub fn of(line: &[u8]) -> Awaited {
        if line.starts_with(b"SA") {
            return Awaited::Done;
        }
        let text: String = line.iter().map(|&byte| char::from(byte)).collect();
        match asked(&text) {
            Some((label, index)) => Awaited::Value(label, index),
            None => Awaited::Any,
        }
    }

    /// Whether this is the reply. News of the very parameter that was asked for
    /// has the same form, and is taken for it.
    pub fn is(&self, said: &Said) -> bool {
        match (self, said) {
            (_, Said::Nak(_)) | (Awaited::Any, _) => true,
            (Awaited::Done, said) => *said == Said::Ack,
            (
                Awaited::Value(label, index),
                Said::Value {
                    label: of,
                    index: at,
                    ..
                },
            ) => (label, index) == (of, at),
            _ => false,
        }
    }
}

#[cfg(test)]
mod tests {
    use super::*;

    #[test]
    fn replies() {
        let ack = b"\x06";
        let nak = b"\x1503";
        let one = b"GA\"T\">1=2";
        let two = b"GA\"T\">2=2";
        let other = b"GS 1";
        let all = [&ack[..], nak, one, two, other];
        for (line, replies) in [
            (&b"SA\"T\">1=2"[..], [true, true, false, false, false]),
            (b"GA\"T\">1", [false, true, true, false, false]),
            (b"GA \"T\">01", [false, true, true, false, false]),
            (b"GS", [true; 5]),
            (b"GA\"T\">x", [true; 5]),
        ] {
            let awaited = Awaited::of(line);
            assert_eq!(all.map(|said| awaited.is(&Said::read(said))), replies);
        }
    }
}
