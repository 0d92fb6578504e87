//! `egrivundo capture`: the values of a box as a room file.

use std::ffi::OsString;
use std::path::PathBuf;
use std::time::Duration;

use egrivundo::Room;
use files::room_text;
use files::words::counted;

use crate::client::{self, parameters, Address, Link, Live};
use crate::clock;
use crate::progress;
use crate::status::{End, NETWORK, REFUSED};
use crate::words::{put, warn, Words};

pub const HELP: &str = include_str!("help.txt");

#[derive(Debug, PartialEq, Eq)]
pub struct Options {
    address: Address,
    limit: Duration,
    modules: PathBuf,
    /// Where the room file is put; standard output if nowhere.
    out: Option<PathBuf>,
}

/// The options; nothing where help is asked for.
pub fn read(words: Vec<OsString>) -> Result<Option<Options>, String> {
    let Some(words) = Words::sort(words, &[], &["-o", "--timeout"])? else {
        return Ok(None);
    };
    let [host, modules] = &words.plain[..] else {
        let given = counted(words.plain.len(), "word");
        return Err(format!("a host and a room file are needed ({given} given)"));
    };
    let (address, limit) = client::named(host, &words)?;
    Ok(Some(Options {
        address,
        limit,
        modules: modules.into(),
        out: words.one("-o")?.map(PathBuf::from),
    }))
}

pub fn run(options: Options) -> Result<(), End> {
    let room = files::read_room(&options.modules)?;
    let parameters = parameters(&room);
    let network = |lost: client::Lost| End(NETWORK, lost.to_string());
    let mut link = Link::open(&options.address, options.limit).map_err(network)?;
    let live = progress::read(&mut link, &parameters, &options.address, false);
    for line in live.reasons(&parameters) {
        warn(line);
    }
    if let Some(why) = &live.broken {
        return Err(End(NETWORK, format!("{why}. No room file is written.")));
    }
    let text = remarks(&options.address, &live) + &room_file(&room, &live);
    match &options.out {
        Some(path) => files::write(path, text.as_bytes())?,
        None => put(&text)?,
    }
    match live.missing() {
        0 => Ok(()),
        count => {
            let status = if live.silent { NETWORK } else { REFUSED };
            let stand = if count == 1 { "stands" } else { "stand" };
            let count = counted(count, "parameter");
            let message = format!("{count} gave no value, and {stand} as ? in the room file");
            Err(End(status, message))
        }
    }
}

/// What stands before the modules: time and host.
fn remarks(from: &Address, live: &Live) -> String {
    let time = clock::now();
    let read = live.values.iter().filter(|value| value.is_ok()).count();
    let all = counted(live.values.len(), "parameter");
    format!("# Captured from {from}, {time}: {read} of {all}.\n\n")
}

fn room_file(room: &Room, live: &Live) -> String {
    room_text::text_with(room, |place| live.values[place].clone())
}
