//! Colour, on a terminal only.

use std::env;
use std::io::{stdout, IsTerminal};

#[derive(Clone, Copy)]
pub struct Paint {
    colour: bool,
}

impl Paint {
    /// Colour where standard output is a terminal and nobody minds.
    pub fn for_output() -> Paint {
        let minds = env::var_os("NO_COLOR").is_some_and(|value| !value.is_empty());
        let plain = env::var_os("TERM").is_some_and(|name| name == "dumb");
        Paint {
            colour: stdout().is_terminal() && !minds && !plain,
        }
    }

    pub fn yes(self, text: &str) -> String {
        self.with("1;32", text)
    }

    pub fn no(self, text: &str) -> String {
        self.with("1;31", text)
    }

    pub fn title(self, text: &str) -> String {
        self.with("1", text)
    }

    pub fn moved(self, text: &str) -> String {
        self.with("33", text)
    }

    pub fn faint(self, text: &str) -> String {
        self.with("2", text)
    }

    fn with(self, code: &str, text: &str) -> String {
        match self.colour {
            true => format!("\x1b[{code}m{text}\x1b[0m"),
            false => text.to_string(),
        }
    }
}

#[cfg(test)]
mod tests {
    use super::*;

    #[test]
    fn painted_and_plain() {
        let text = |colour| Paint { colour }.yes("Yes");
        assert_eq!(text(true), "\x1b[1;32mYes\x1b[0m");
        assert_eq!(text(false), "Yes");
    }
}
