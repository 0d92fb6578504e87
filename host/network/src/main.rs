//! `egrivundo`: the box on the network, and its clients. `help.txt` has the
//! commands, and each command's folder its own `help.txt`.

#![deny(unsafe_code)]

mod capture;
mod client;
mod clock;
mod progress;
mod putback;
mod serve;
mod shell;
mod status;
mod table;
mod words;

use std::env;
use std::ffi::OsString;
use std::process::ExitCode;

use status::{End, USAGE};
use words::{print, warn};

const HELP: &str = include_str!("help.txt");

fn main() -> ExitCode {
    let mut words = env::args_os().skip(1);
    let command = words.next().unwrap_or_default();
    let words: Vec<OsString> = words.collect();
    match &*command.to_string_lossy() {
        "serve" => with(
            serve::options::read(words),
            serve::options::HELP,
            serve::run,
        ),
        "capture" => with(capture::read(words), capture::HELP, |it| {
            told(capture::run(it))
        }),
        "putback" => with(putback::read(words), putback::HELP, |it| {
            told(putback::run(it))
        }),
        "shell" => with(shell::read(words), shell::HELP, |it| told(shell::run(it))),
        "table" => with(table::read(words), table::HELP, |it| told(table::run(it))),
        "-h" | "--help" | "help" => {
            print(HELP);
            ExitCode::SUCCESS
        }
        "" => {
            warn(HELP.trim_end());
            ExitCode::from(USAGE)
        }
        other => wrong(&format!("no such command: {other}"), ""),
    }
}

/// Runs a command with its options, or tells its help, or what is wrong.
fn with<T>(
    options: Result<Option<T>, String>,
    help: &str,
    run: impl FnOnce(T) -> ExitCode,
) -> ExitCode {
    match options {
        Ok(Some(options)) => run(options),
        Ok(None) => {
            print(help);
            ExitCode::SUCCESS
        }
        Err(message) => {
            let command = env::args_os().nth(1).unwrap_or_default();
            wrong(&message, &format!("{} ", command.to_string_lossy()))
        }
    }
}

/// Says why a command ended early, if it did.
fn told(done: Result<(), End>) -> ExitCode {
    match done {
        Ok(()) => ExitCode::SUCCESS,
        Err(End(status, message)) => {
            warn(message);
            ExitCode::from(status)
        }
    }
}

fn wrong(message: &str, command: &str) -> ExitCode {
    warn(format_args!(
        "{message} (egrivundo {command}--help tells more)"
    ));
    ExitCode::from(USAGE)
}
