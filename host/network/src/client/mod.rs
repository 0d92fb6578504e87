//! What the commands share that talk to a box.

mod address;
mod link;
mod live;
mod parameters;
mod reply;

pub use address::Address;
pub use link::{Link, Lost};
pub use live::{read_all, Live};
pub use parameters::{parameters, Parameter};
pub use reply::{asked, nak, Said};

use std::ffi::OsString;
use std::time::Duration;

use crate::words::Words;

/// How long a box may take for a reply if nothing else is said, in seconds.
const LIMIT: f64 = 5.0;

/// The box, from the word that names it and the option `--timeout`.
pub fn named(word: &OsString, words: &Words) -> Result<(Address, Duration), String> {
    let address = Address::read(&word.to_string_lossy())?;
    let seconds = match words.one("--timeout")? {
        None => LIMIT,
        Some(text) => {
            let text = text.to_string_lossy();
            let number = text.parse().ok().filter(|s| (0.01..=3600.0).contains(s));
            number.ok_or(format!("--timeout takes seconds, 0.01 to 3600, not {text}"))?
        }
    };
    Ok((address, Duration::from_secs_f64(seconds)))
}
