//! docs/NETWORK.md: what it says of lines that are not spoken is what the core
//! answers.

use egrivundo::Port;

use crate::program::{example, root};

#[test]
fn replies_to_what_is_not_spoken() {
    let text = std::fs::read_to_string(root().join("docs/NETWORK.md")).unwrap();
    let (_, mut room) = example("viewing-room.room");
    let before = room.clone();
    let mut rows = 0;
    for row in text.lines().filter(|row| row.ends_with(" |")) {
        let cells: Vec<&str> = row.split(" | ").collect();
        let [_, line, reply] = cells[..] else {
            continue;
        };
        let Some(line) = line
            .strip_prefix('`')
            .and_then(|line| line.strip_suffix('`'))
        else {
            continue;
        };
        let told = room.line(line.as_bytes()).unwrap();
        let code = told.nak().expect("a NAK");
        assert_eq!(format!("NAK {code} |"), reply, "{line}");
        rows += 1;
    }
    assert_eq!((rows, room), (19, before));
}

/// A client that sends CR LF gets its first line answered, and then 99.
#[test]
fn line_feeds() {
    let (_, mut room) = example("viewing-room.room");
    let line = b"GA\"Commentary\">1\r\n".repeat(3);
    let replies = room.feed_all(&mut Port::new(), &line).unwrap();
    let texts: Vec<String> = replies.iter().map(|reply| reply.to_string()).collect();
    let fault = "NAK 99, no verb: no SA or GA at byte 0";
    assert_eq!(texts, ["GA\"Commentary\">1=-6.5", fault, fault]);
}
