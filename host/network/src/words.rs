//! The words behind a command, and what is printed.

use std::ffi::OsString;
use std::fmt::Display;
use std::io::{self, Write};

/// Words sorted by what they are.
#[derive(Debug, Default, PartialEq, Eq)]
pub struct Words {
    /// Those that belong to no option.
    pub plain: Vec<OsString>,
    flags: Vec<String>,
    valued: Vec<(String, OsString)>,
}

impl Words {
    /// Sorts words; `flags` are the options that stand alone, `valued` those
    /// with a word behind them. Nothing where help is asked for.
    pub fn sort(
        words: Vec<OsString>,
        flags: &[&str],
        valued: &[&str],
    ) -> Result<Option<Words>, String> {
        let mut sorted = Words::default();
        let mut words = words.into_iter();
        while let Some(word) = words.next() {
            let option = word.to_string_lossy().into_owned();
            match &option[..] {
                "-h" | "--help" => return Ok(None),
                known if flags.contains(&known) => sorted.flags.push(option),
                known if valued.contains(&known) => {
                    let Some(value) = words.next() else {
                        return Err(format!("{option} needs a word behind it"));
                    };
                    sorted.valued.push((option, value));
                }
                _ if option.starts_with('-') && option != "-" => {
                    return Err(format!("unknown option: {option}"));
                }
                _ => sorted.plain.push(word),
            }
        }
        Ok(Some(sorted))
    }

    /// Whether an option that stands alone is given.
    pub fn has(&self, option: &str) -> bool {
        self.flags.iter().any(|given| given == option)
    }

    /// The word behind an option that is given once at most.
    pub fn one<'a>(&'a self, option: &'a str) -> Result<Option<&'a OsString>, String> {
        let mut all = self.all(option);
        let first = all.next();
        match all.next() {
            None => Ok(first),
            Some(_) => Err(format!("{option} is given twice")),
        }
    }

    /// The words behind an option that may be given several times.
    pub fn all<'a>(&'a self, option: &'a str) -> impl Iterator<Item = &'a OsString> {
        let same = self.valued.iter().filter(move |(given, _)| given == option);
        same.map(|(_, word)| word)
    }
}

/// To standard output, which a reader may have closed.
pub fn print(text: &str) {
    let _ = put(text);
}

/// A result to standard output: an error is one unless the reader has closed
/// it, who then has what was wanted.
pub fn put(text: &str) -> Result<(), String> {
    let mut out = io::stdout();
    match out.write_all(text.as_bytes()).and_then(|()| out.flush()) {
        Err(error) if error.kind() != io::ErrorKind::BrokenPipe => {
            Err(format!("standard output: {error}"))
        }
        _ => Ok(()),
    }
}

/// A line to standard error, which a reader may have closed.
pub fn warn(message: impl Display) {
    let _ = writeln!(io::stderr(), "{message}");
}

#[cfg(test)]
mod tests {
    use super::*;

    fn sorted(words: &str) -> Result<Option<Words>, String> {
        let words = words.split_whitespace().map(OsString::from).collect();
        Words::sort(words, &["--yes"], &["--from", "--module"])
    }

    #[test]
    fn words() {
        let words = sorted("a --module x --yes b --module y").unwrap().unwrap();
        assert_eq!(words.plain, ["a", "b"]);
        assert!(words.has("--yes") && !words.has("--no"));
        assert_eq!(words.one("--from"), Ok(None));
        assert_eq!(
            words.one("--module").unwrap_err(),
            "--module is given twice"
        );
        assert!(words.all("--module").eq(["x", "y"]));
        assert_eq!(sorted("a --help --what"), Ok(None));
        assert_eq!(sorted("--what").unwrap_err(), "unknown option: --what");
        let behind = "--from needs a word behind it";
        assert_eq!(sorted("--yes --from").unwrap_err(), behind);
    }
}
