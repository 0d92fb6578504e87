//! Which bytes of a client go to the core.

/// The rule for line ends, and what of it must be kept between two pieces.
pub struct LineEnds {
    crlf: bool,
    after_cr: bool,
}

impl LineEnds {
    /// With `crlf` an LF that follows a CR is dropped; else no byte is.
    pub fn new(crlf: bool) -> LineEnds {
        LineEnds {
            crlf,
            after_cr: false,
        }
    }

    /// The bytes of a piece that stay.
    pub fn kept(&mut self, piece: &[u8]) -> Vec<u8> {
        if !self.crlf {
            return piece.to_vec();
        }
        let mut kept = Vec::with_capacity(piece.len());
        for &byte in piece {
            if !(self.after_cr && byte == b'\n') {
                kept.push(byte);
            }
            self.after_cr = byte == b'\r';
        }
        kept
    }
}

#[cfg(test)]
mod tests {
    use super::*;

    const GIVEN: &[u8] = b"\nGA\r\n\nSA\r\r\n\rx\n";

    #[test]
    fn only_an_lf_behind_a_cr_is_dropped_however_the_bytes_are_cut() {
        for cut in 0..=GIVEN.len() {
            let mut ends = LineEnds::new(true);
            let (first, second) = GIVEN.split_at(cut);
            let kept = [ends.kept(first), ends.kept(second)].concat();
            assert_eq!(kept, b"\nGA\r\nSA\r\r\rx\n", "cut at {cut}");
        }
    }

    #[test]
    fn the_papers_rule_drops_nothing() {
        assert_eq!(LineEnds::new(false).kept(GIVEN), GIVEN);
    }
}
