//! `egrivundo putback` where something comes between.

use std::time::{Duration, Instant};

use egrivundo::Room;

use crate::fake::{Act, Fake};
use crate::program::{egrivundo, example, Folder, Told, LIMIT, LONG};

pub const FIRST: &str = "SA\"Commentary\">1=-4";
pub const SECOND: &str = "SA\"Commentary\">3=0.5";
pub const THIRD: &str = "SA\"Commentary\">4=F";
pub const FOURTH: &str = "SA\"Commentary\">5=-0.5";

/// Puts the commentary back on a box with this script, which answers.
pub fn putback(script: impl FnMut(&mut Room, &str) -> Act + Send + 'static) -> (Told, Fake) {
    putback_within(LONG, script)
}

/// The same, with a time limit for each reply.
fn putback_within(
    limit: &str,
    script: impl FnMut(&mut Room, &str) -> Act + Send + 'static,
) -> (Told, Fake) {
    let (_, now) = example("viewing-room.room");
    let fake = Fake::new(now, script);
    let folder = Folder::new(&fake.address.replace(':', "-"));
    let then = folder.commentary_then();
    let words = [
        "--from",
        &then,
        "--module",
        "Commentary",
        "--yes",
        "--timeout",
        limit,
    ];
    let words = [&["putback", &fake.address], &words[..]].concat();
    (egrivundo(&words), fake)
}

/// A script that does something else with the third line.
fn third(mut act: impl FnMut() -> Act + Send) -> impl FnMut(&mut Room, &str) -> Act + Send {
    move |_, line| if line == THIRD { act() } else { Act::Answer }
}

#[test]
fn a_nak() {
    let stopped = format!(
        "Stopped at line 3 of 4: NAK 03: the value is not permitted.\n  {FIRST}     stands\n  \
         {SECOND}    stands\n  {THIRD}      does not stand\n  {FOURTH}   does not stand: not sent\n\
         2 moved as wished, 2 not moved as wished, 52 unchanged.\n"
    );
    for nak in ["\x1503\r", "\x15 03\r"] {
        let (told, fake) = putback(third(|| Act::Say(nak.into())));
        assert!(told.1.ends_with(&stopped), "{}", told.1);
        assert!(told.2.ends_with("Not everything was put back.\n"));
        assert_eq!((told.0, fake.sets().len()), (Some(1), 3));
    }
    // A NAK with words is one at once, and not after the time limit.
    let (told, fake) = putback(third(|| Act::Say(b"\x15 busy\x1b\r".to_vec())));
    let stopped =
        "Stopped at line 3 of 4: NAK busy\\u{1b}: the protocol does not name this code.\n";
    assert!(told.1.contains(stopped), "{}", told.1);
    assert_eq!((told.0, fake.sets().len()), (Some(1), 3));
    let (told, _) = putback(third(|| Act::Say(b"\x15\r".to_vec())));
    let stopped = "Stopped at line 3 of 4: NAK without a code.\n";
    assert!(told.1.contains(stopped), "{}", told.1);
}

#[test]
fn a_time_out() {
    let start = Instant::now();
    let (told, fake) = putback_within(LIMIT, third(|| Act::Say(Vec::new())));
    assert!(
        told.1
            .contains("\nStopped at line 3 of 4: no reply within 1 s.\n"),
        "{}",
        told.1
    );
    assert!(told.1.contains(&format!("  {THIRD}      does not stand\n")));
    assert!(told
        .1
        .ends_with("\n2 moved as wished, 2 not moved as wished, 52 unchanged.\n"));
    assert_eq!((told.0, fake.sets().len()), (Some(3), 3));
    // The box did as it was told, and its ACK was lost.
    let (told, fake) = putback_within(LIMIT, third(|| Act::Swallow));
    assert!(
        told.1.contains(&format!("  {THIRD}      stands\n")),
        "{}",
        told.1
    );
    assert!(told
        .1
        .ends_with("\n3 moved as wished, 1 not moved as wished, 52 unchanged.\n"));
    assert_eq!((told.0, fake.sets().len()), (Some(3), 3));
    assert!(start.elapsed() < Duration::from_secs(30));
}

/// A reply that comes too late is not taken for that to a later line.
#[test]
fn a_late_reply() {
    let (told, fake) = putback_within(LIMIT, third(|| Act::Late(b"\x1503\r".to_vec())));
    assert!(
        told.1
            .ends_with("\n2 moved as wished, 2 not moved as wished, 52 unchanged.\n"),
        "{}",
        told.1
    );
    assert_eq!((told.0, fake.sets().len()), (Some(3), 3));
}

#[test]
fn a_dropped_connection() {
    let (told, fake) = putback(third(|| Act::Close));
    assert!(
        told.1
            .contains("\nStopped at line 3 of 4: the box closed the connection.\n"),
        "{}",
        told.1
    );
    assert!(told.1.contains(&format!(
        "  {SECOND}    stands\n  {THIRD}      does not stand\n"
    )));
    assert!(told
        .1
        .ends_with("\n2 moved as wished, 2 not moved as wished, 52 unchanged.\n"));
    assert_eq!((told.0, fake.sets().len()), (Some(3), 3));
}

#[test]
fn a_box_that_is_gone() {
    let (told, _) = putback(third(|| Act::Die));
    let stopped = format!(
        "Stopped at line 3 of 4: the box closed the connection.\n  {FIRST}     was acknowledged\n  \
         {SECOND}    was acknowledged\n  {THIRD}      was sent, and nothing is known of it\n  \
         {FOURTH}   was not sent\n"
    );
    assert!(told.1.contains(&stopped), "{}", told.1);
    assert_eq!(told.0, Some(3), "{}", told.2);
}
