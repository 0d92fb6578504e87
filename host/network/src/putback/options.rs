//! The words behind `egrivundo putback`.

use std::ffi::OsString;
use std::path::PathBuf;
use std::time::Duration;

use crate::client::{self, Address};
use crate::words::Words;

/// Where the wish stands.
#[derive(Debug, PartialEq, Eq)]
pub enum From {
    /// In a saved room, as the values of these modules.
    Saved(Vec<String>),
    /// In a wish file.
    Wish(PathBuf),
}

#[derive(Debug, PartialEq, Eq)]
pub struct Options {
    pub address: Address,
    pub limit: Duration,
    /// The room file that has the modules.
    pub room: PathBuf,
    pub from: From,
    /// It is sent without a question.
    pub yes: bool,
    /// Nothing is sent.
    pub dry_run: bool,
    /// Where the list's bytes are put.
    pub list: Option<PathBuf>,
}

/// The options; nothing where help is asked for.
pub fn read(words: Vec<OsString>) -> Result<Option<Options>, String> {
    let valued = ["--from", "--module", "--list", "--timeout"];
    let Some(words) = Words::sort(words, &["--yes", "--dry-run"], &valued)? else {
        return Ok(None);
    };
    let text = |label: &OsString| label.to_string_lossy().into_owned();
    let labels: Vec<String> = words.all("--module").map(text).collect();
    let (host, room, from) = match (&words.plain[..], words.one("--from")?) {
        ([], _) => return Err("a host is needed".to_string()),
        ([host, room, wish], None) if labels.is_empty() => (host, room, From::Wish(wish.into())),
        (_, None) if !labels.is_empty() => {
            return Err("--module needs --from THEN.room".to_string());
        }
        (_, None) => {
            let message = "say what to put back: --from THEN.room --module LABEL, or a room file \
                           and a wish file";
            return Err(message.to_string());
        }
        ([_], Some(_)) if labels.is_empty() => {
            return Err("--from needs --module LABEL: say what shall be put back".to_string());
        }
        ([host], Some(then)) => (host, then, From::Saved(labels)),
        ([_, other, ..], Some(_)) => {
            let other = text(other);
            return Err(format!(
                "what is {other} for? Each label has its own --module, and --from has the modules"
            ));
        }
    };
    let (address, limit) = client::named(host, &words)?;
    Ok(Some(Options {
        address,
        limit,
        room: room.into(),
        from,
        yes: words.has("--yes"),
        dry_run: words.has("--dry-run"),
        list: words.one("--list")?.map(PathBuf::from),
    }))
}

#[cfg(test)]
mod tests {
    use super::*;

    fn given(words: &str) -> Result<Option<Options>, String> {
        read(words.split_whitespace().map(OsString::from).collect())
    }

    #[test]
    fn options() {
        let saved = given("box --from t.room --module A --module B --yes --list l --timeout 0.5");
        let expected = Options {
            address: Address::read("box").unwrap(),
            limit: Duration::from_millis(500),
            room: "t.room".into(),
            from: From::Saved(vec!["A".to_string(), "B".to_string()]),
            yes: true,
            dry_run: false,
            list: Some("l".into()),
        };
        assert_eq!(saved, Ok(Some(expected)));
        let wish = given("box:7 m.room w.wish --dry-run").unwrap().unwrap();
        assert_eq!(wish.from, From::Wish("w.wish".into()));
        assert!(wish.dry_run && !wish.yes && wish.limit == Duration::from_secs(5));
        assert_eq!(given("box --help"), Ok(None));
    }

    #[test]
    fn wrong_options() {
        for words in [
            "",
            "box",
            "box m.room",
            "box --from t.room",
            "box --module A",
            "box m.room w.wish --module A",
            "box m.room --from t.room --module A",
            "box --from t.room --module A --timeout 0",
            "box --from t.room --module A --timeout soon",
            "box:x --from t.room --module A",
            "box --from t.room --module A --force",
        ] {
            assert!(given(words).is_err(), "{words}");
        }
    }
}
