//! The words behind `egrivundo serve`.

use std::ffi::OsString;
use std::path::PathBuf;

use crate::words::Words;

pub const HELP: &str = include_str!("help.txt");

/// Where the server listens if nothing else is said.
const LISTEN: &str = "127.0.0.1:10055";

#[derive(Debug, PartialEq, Eq)]
pub struct Options {
    pub room: PathBuf,
    /// `ADDRESS:PORT`.
    pub listen: String,
    /// Where the values are kept.
    pub state: Option<PathBuf>,
    /// Each change is on the disk, and not only with the system, before its ACK.
    pub sync: bool,
    /// An LF that follows a CR is dropped before the core.
    pub crlf: bool,
}

/// The options; nothing where help is asked for.
pub fn read(words: Vec<OsString>) -> Result<Option<Options>, String> {
    let valued = ["--listen", "--state", "--line-ends"];
    let Some(words) = Words::sort(words, &["--sync"], &valued)? else {
        return Ok(None);
    };
    let [room] = &words.plain[..] else {
        return Err(format!(
            "one room file is needed ({} given)",
            words.plain.len()
        ));
    };
    let listen = match words.one("--listen")? {
        Some(address) => with_port(address.to_string_lossy().into_owned())?,
        None => LISTEN.to_string(),
    };
    let crlf = match words.one("--line-ends")?.map(|ends| ends.to_string_lossy()) {
        None => false,
        Some(ends) if ends == "cr" => false,
        Some(ends) if ends == "crlf" => true,
        Some(ends) => return Err(format!("--line-ends takes cr or crlf, not {ends}")),
    };
    let state = words.one("--state")?.map(PathBuf::from);
    let sync = words.has("--sync");
    if sync && state.is_none() {
        return Err("--sync needs --state FILE".to_string());
    }
    Ok(Some(Options {
        room: room.into(),
        listen,
        state,
        sync,
        crlf,
    }))
}

/// An address with its port. Colons within an address need brackets around it,
/// as in `[::1]:10055`.
fn with_port(word: String) -> Result<String, String> {
    let whole =
        |host: &str, port: &str| !port.is_empty() && (host.ends_with(']') || !host.contains(':'));
    let parts = word
        .rsplit_once(':')
        .filter(|(host, port)| whole(host, port));
    let wrong = match parts {
        None => "the port is missing",
        Some(("", _)) => "the address is missing",
        Some((_, port)) if port.parse::<u16>().is_err() => "the port is no number to 65535",
        Some(_) => return Ok(word),
    };
    Err(format!("--listen takes ADDRESS:PORT; in {word} {wrong}"))
}

#[cfg(test)]
mod tests {
    use super::*;

    fn given(words: &str) -> Result<Option<Options>, String> {
        read(words.split_whitespace().map(OsString::from).collect())
    }

    #[test]
    fn options() {
        let plain = Options {
            room: "a.room".into(),
            listen: LISTEN.to_string(),
            state: None,
            sync: false,
            crlf: false,
        };
        assert_eq!(given("a.room"), Ok(Some(plain)));
        let all = Options {
            room: "a.room".into(),
            listen: "0.0.0.0:1".to_string(),
            state: Some("s".into()),
            sync: true,
            crlf: true,
        };
        let words = "--listen 0.0.0.0:1 --state s --sync --line-ends crlf a.room";
        assert_eq!(given(words), Ok(Some(all)));
        for (words, message) in [
            ("", "one room file is needed (0 given)"),
            ("a b", "one room file is needed (2 given)"),
            ("a --sync", "--sync needs --state FILE"),
            ("a --line-ends lf", "--line-ends takes cr or crlf, not lf"),
        ] {
            assert_eq!(given(words), Err(message.to_string()), "{words}");
        }
    }

    #[test]
    fn addresses() {
        for word in ["127.0.0.1:0", "localhost:65535", "[::1]:10055"] {
            assert_eq!(with_port(word.to_string()), Ok(word.to_string()));
        }
        for (word, wrong) in [
            ("127.0.0.1", "the port is missing"),
            ("127.0.0.1:", "the port is missing"),
            ("::1", "the port is missing"),
            ("[::1]", "the port is missing"),
            (":10055", "the address is missing"),
            ("127.0.0.1:65536", "the port is no number to 65535"),
        ] {
            let told = format!("--listen takes ADDRESS:PORT; in {word} {wrong}");
            assert_eq!(with_port(word.to_string()), Err(told));
        }
    }
}
