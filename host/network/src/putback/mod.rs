//! `egrivundo putback`: chosen modules of a box as they were, and nothing else.

mod options;
mod send;
mod show;
mod since;
mod verdict;

use std::io::{self, BufRead};

use egrivundo::{Refusal, Room};
use files::{saved, wish_file, Hindrance, Wish};

use crate::client::{parameters, Link, Live, Lost, Parameter};
use crate::progress;
use crate::status::{End, MOVED, NETWORK, REFUSED};
use crate::words::print;
use options::From;
pub use options::{read, Options};
use since::{Since, Then};

pub const HELP: &str = include_str!("help.txt");

pub fn run(options: Options) -> Result<(), End> {
    let (modules, given) = files::read_given(&options.room)?;
    let then = Then {
        given: given.whole(&modules),
        room: modules,
    };
    let parameters = parameters(&then.room);
    checked(&options, &then, &parameters)?;
    let network = |lost: Lost| End(NETWORK, lost.to_string());
    let mut link = Link::open(&options.address, options.limit).map_err(network)?;
    let live = progress::read(&mut link, &parameters, &options.address, false);
    let present = present(&then.room, &parameters, live)?;

    let (wish, name) = wish(&options, &then.room, &present)?;
    let size = wish
        .core
        .size()
        .map_err(|refusal| hindered(refusal, &present, &wish, &name))?;
    print(&format!("This takes {size}.\n"));
    let list = wish.core.list().map_err(|refusal| refusal.to_string())?;
    let plan = show::Plan::new(&parameters, present.values(), wish.core.wanted(), &list);
    print(&plan.text());
    let since = match &options.from {
        From::Saved(labels) => then.since(&parameters, present.values(), labels),
        From::Wish(_) => Since::default(),
    };
    print(&since.text());
    if let Some(path) = &options.list {
        let written = files::write(path, list.bytes());
        written.map_err(|error| format!("{error}\nNothing was sent."))?;
        print(&format!("The list, {size}: {}\n", path.display()));
    }
    if options.dry_run {
        print("Nothing was sent.\n");
        return Ok(());
    }
    if !list.is_empty() && !options.yes {
        if !agreed() {
            return Err(End(REFUSED, "Nothing was sent.".to_string()));
        }
        // The person may have taken long, and the box have closed the connection.
        link.again()
            .map_err(|lost| End(NETWORK, format!("{lost}. Nothing was sent.")))?;
    }

    let stopped = send::send(&mut link, &plan);
    // Where a reply was lost it may yet come, and is not to be taken for another.
    if stopped.as_ref().is_some_and(send::Stopped::is_lost) {
        if let Err(lost) = link.again() {
            print(&send::told(&plan, stopped.as_ref(), None));
            let told = format!("{lost}. It could not be read again.");
            return Err(match since.reminder() {
                Some(reminder) => End(MOVED, format!("{told}\n{reminder}")),
                None => End(NETWORK, told),
            });
        }
    }
    let after = progress::read(&mut link, &parameters, &options.address, true);
    print(&send::told(&plan, stopped.as_ref(), Some(&after)));
    verdict::tell(&parameters, &plan, &after, stopped.as_ref(), &since)
}

/// Refuses what the files and labels alone show to be wrong, before the box is
/// asked for anything.
fn checked(options: &Options, then: &Then, parameters: &[Parameter]) -> Result<(), String> {
    let (_, name) = wish(options, &then.room, &then.room)?;
    let mut lacks = match &options.from {
        From::Saved(labels) => then.lacks(parameters, labels, &name),
        From::Wish(_) => Vec::new(),
    };
    if lacks.is_empty() {
        return Ok(());
    }
    lacks.push("Nothing was sent: a chosen module needs all of its values.".to_string());
    Err(lacks.join("\n"))
}

/// The room with its live values, every one of which is needed.
fn present(modules: &Room, parameters: &[Parameter], live: Live) -> Result<Room, End> {
    let Some(values) = live.whole() else {
        let reasons = live.reasons(parameters).join("\n");
        let status = if live.silent { NETWORK } else { REFUSED };
        let message = format!(
            "{reasons}\nNothing was sent: without every live value it is not known \
             what would move."
        );
        return Err(End(status, message));
    };
    let room = Room::from_parts(modules.table().to_vec(), values);
    Ok(room.map_err(|refusal| refusal.to_string())?)
}

/// The wish, and the file that has it.
fn wish<'a>(
    options: &Options,
    modules: &Room,
    present: &'a Room,
) -> Result<(Wish<'a>, String), String> {
    match &options.from {
        From::Saved(labels) => {
            let name = options.room.display().to_string();
            Ok((saved::wish(present, modules, labels, &name)?, name))
        }
        From::Wish(path) => {
            let (text, name) = files::read_text(path)?;
            let wish = wish_file::parse(&text, present).map_err(|fault| fault.in_file(&name))?;
            Ok((wish, name))
        }
    }
}

/// Why there is no list.
fn hindered(refusal: Refusal, present: &Room, wish: &Wish, name: &str) -> String {
    let mut lines: Vec<String> = match refusal {
        Refusal::Reach => Hindrance::all(present, wish)
            .iter()
            .map(|hindrance| hindrance.told(name))
            .collect(),
        _ => Vec::new(),
    };
    lines.push(format!("{refusal}. Nothing was sent."));
    lines.join("\n")
}

/// Asks the person; anything but yes is no.
fn agreed() -> bool {
    print("Send it? [y/N] ");
    let mut answer = String::new();
    let read = io::stdin().lock().read_line(&mut answer);
    read.is_ok() && ["y", "yes"].contains(&&answer.trim().to_lowercase()[..])
}
