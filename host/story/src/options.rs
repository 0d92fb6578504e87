//! The words behind the program's name.

use std::ffi::OsString;
use std::path::PathBuf;

use files::words::counted;

pub const HELP: &str = include_str!("help.txt");

/// Where the wish stands.
#[derive(Debug, PartialEq, Eq)]
pub enum From {
    /// In a wish file.
    Wish(PathBuf),
    /// In a saved room, as the values of these modules.
    Saved(PathBuf, Vec<String>),
}

#[derive(Debug, PartialEq, Eq)]
pub struct Options {
    pub room: PathBuf,
    pub from: From,
    /// Every row is shown.
    pub all: bool,
    /// Where the list's bytes are put.
    pub list: Option<PathBuf>,
    /// Where the page is put.
    pub html: Option<PathBuf>,
}

/// The options; nothing where help is asked for.
pub fn read(words: impl Iterator<Item = OsString>) -> Result<Option<Options>, String> {
    let mut files: Vec<PathBuf> = Vec::new();
    let mut labels: Vec<String> = Vec::new();
    let (mut saved, mut list, mut html) = (None, None, None);
    let mut all = false;
    let mut words = words;
    while let Some(word) = words.next() {
        let option = word.to_string_lossy().into_owned();
        let mut behind = || {
            words
                .next()
                .ok_or(format!("{option} needs a word behind it"))
        };
        match &option[..] {
            "-h" | "--help" => return Ok(None),
            "--all" => all = true,
            "--from" => once(&mut saved, &option, behind()?)?,
            "--list" => once(&mut list, &option, behind()?)?,
            "--html" => once(&mut html, &option, behind()?)?,
            "--module" => labels.push(behind()?.to_string_lossy().into_owned()),
            _ if option.starts_with('-') => return Err(format!("unknown option: {option}")),
            _ => files.push(word.into()),
        }
    }
    let (room, from) = match (&files[..], saved) {
        ([room, wish], None) if labels.is_empty() => (room, From::Wish(wish.clone())),
        (_, None) if !labels.is_empty() => {
            return Err("--module needs --from THEN.room".to_string());
        }
        ([_], Some(_)) if labels.is_empty() => {
            return Err("--from needs --module LABEL: say what shall be put back".to_string());
        }
        ([room], Some(saved)) => (room, From::Saved(saved, labels)),
        ([_, wish, ..], Some(_)) => {
            let wish = wish.display();
            return Err(format!(
                "the wish is taken --from a saved room: what is {wish} for?"
            ));
        }
        _ => {
            let files = counted(files.len(), "file");
            return Err(format!("a room and a wish are needed ({files} given)"));
        }
    };
    Ok(Some(Options {
        room: room.clone(),
        from,
        all,
        list,
        html,
    }))
}

fn once(place: &mut Option<PathBuf>, option: &str, word: OsString) -> Result<(), String> {
    match place.replace(word.into()) {
        None => Ok(()),
        Some(_) => Err(format!("{option} is given twice")),
    }
}

#[cfg(test)]
mod tests {
    use super::*;

    fn given(words: &str) -> Result<Option<Options>, String> {
        read(words.split_whitespace().map(OsString::from))
    }

    #[test]
    fn options() {
        let plain = given("a.room b.wish").unwrap().unwrap();
        let expected = Options {
            room: "a.room".into(),
            from: From::Wish("b.wish".into()),
            all: false,
            list: None,
            html: None,
        };
        assert_eq!(plain, expected);
        let words = "--module A --from t.room --html p.html n.room --module B --list l --all";
        let expected = Options {
            room: "n.room".into(),
            from: From::Saved("t.room".into(), vec!["A".to_string(), "B".to_string()]),
            all: true,
            list: Some("l".into()),
            html: Some("p.html".into()),
        };
        assert_eq!(given(words), Ok(Some(expected)));
        assert_eq!(given("a.room --help --what"), Ok(None));
    }

    #[test]
    fn wrong_options() {
        for (words, message) in [
            ("", "a room and a wish are needed (0 files given)"),
            ("a b c", "a room and a wish are needed (3 files given)"),
            ("a b --what", "unknown option: --what"),
            ("a b -x", "unknown option: -x"),
            ("a b --list", "--list needs a word behind it"),
            ("a b --html x --html y", "--html is given twice"),
            ("a b --module M", "--module needs --from THEN.room"),
            (
                "a --from t",
                "--from needs --module LABEL: say what shall be put back",
            ),
            (
                "a b --from t --module M",
                "the wish is taken --from a saved room: what is b for?",
            ),
        ] {
            assert_eq!(given(words), Err(message.to_string()), "{words}");
        }
    }
}
