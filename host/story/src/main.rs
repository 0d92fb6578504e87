//! The editor's question: bring one module back to its balance, with as few
//! bytes as can be, and move nothing else.
//!
//! `help.txt` has the options, `host/README.md` the form of the files.

mod answer;
mod html;
mod options;
mod paint;
mod text;

use std::io::Write;
use std::path::Path;
use std::process::ExitCode;
use std::{env, io};

use answer::Answer;
use files::words::counted;
use files::{room_file, saved, wish_file, Fault};
use options::{From, Options, HELP};

fn main() -> ExitCode {
    match options::read(env::args_os().skip(1)) {
        Ok(None) => {
            print(HELP);
            ExitCode::SUCCESS
        }
        Ok(Some(options)) => play(&options).unwrap_or_else(|message| {
            eprintln!("{message}");
            ExitCode::FAILURE
        }),
        Err(message) => {
            eprintln!("{message} (./run --help tells the options)");
            ExitCode::from(2)
        }
    }
}

/// Reads the files, asks, and tells the answer, or what is wrong.
fn play(options: &Options) -> Result<ExitCode, String> {
    let room = read_room(&options.room)?;
    let (wish, wish_name) = match &options.from {
        From::Wish(path) => {
            let (text, name) = files::read_text(path)?;
            let wish = wish_file::parse(&text, &room).map_err(|fault| told(&fault, &name))?;
            (wish, name)
        }
        From::Saved(path, labels) => {
            let then = read_room(path)?;
            let name = path.display().to_string();
            (saved::wish(&room, &then, labels, &name)?, name)
        }
    };
    let paint = paint::Paint::for_output();
    let answer = answer::ask(&room, &wish, |size| print(&text::size(size, paint)))?;
    print(&text::tell(&answer, &wish_name, options.all, paint));
    write(options, &answer)?;
    Ok(match answer {
        Answer::Yes(_) => ExitCode::SUCCESS,
        Answer::No(_) => ExitCode::FAILURE,
    })
}

/// The files that were asked for; where the answer is no there is no list.
fn write(options: &Options, answer: &Answer) -> Result<(), String> {
    if let (Some(path), Answer::Yes(yes)) = (&options.list, answer) {
        let bytes = yes.list.bytes();
        files::write(path, bytes)?;
        let bytes = counted(bytes.len(), "byte");
        print(&format!("\nThe list, {bytes}: {}\n", path.display()));
    }
    if let Some(path) = &options.html {
        files::write(path, html::page(answer, options.all).as_bytes())?;
        print(&format!("\nThe page: {}\n", path.display()));
    }
    Ok(())
}

/// To standard output, which a reader may have closed.
fn print(text: &str) {
    let _ = io::stdout().write_all(text.as_bytes());
}

fn read_room(path: &Path) -> Result<egrivundo::Room, String> {
    let (text, name) = files::read_text(path)?;
    room_file::parse(&text).map_err(|fault| told(&fault, &name))
}

/// A fault, with the order of the files where they are exchanged.
fn told(fault: &Fault, name: &str) -> String {
    let order = match fault.is_exchanged() {
        true => " The room comes first, the wish last: ./run ROOM WISH",
        false => "",
    };
    fault.in_file(name) + order
}
