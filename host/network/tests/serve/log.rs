//! The log: a line for each finished line.

use super::server::{Folder, Server};

const ROOM: &str = "module tone-control-eq \"T\"\n1 = -6.5\nmodule standard-mixer \"M\" 2x3\n";

#[test]
fn each_finished_line_is_told_with_its_label_reply_and_value() {
    let folder = Folder::new("log");
    let room = folder.file("room", ROOM);
    let server = Server::start(&folder, &room, &[]);
    let mut client = server.connect();
    let long = "x".repeat(70);
    let lines: [(&str, &str, &str, &str, &str); 9] = [
        ("SA\"T\">1=-4", "T", "ACK", "-6.5", "-4.0"),
        ("SA\"T\">1=-4", "T", "ACK", "-4.0", "-4.0"),
        ("SA\"T\">2=T", "T", "ACK", "off", "on"),
        ("GA\"T\">1", "T", "GA\"T\">1=-4", "-4.0", "-4.0"),
        ("SA\"T\">1=16", "T", "NAK 03", "-4.0", "-4.0"),
        ("SA\"M\">4>(2,3)=O", "M", "ACK", "off", "on"),
        ("GA\"T\">9", "T", "NAK 02", "", ""),
        ("GA\"Q\">1", "Q", "NAK 01", "", ""),
        (
            "SA\"T\">1",
            "T",
            "NAK 99, no `=`: the line ends at byte 7",
            "",
            "",
        ),
    ];
    let mut expected = Vec::new();
    for (line, label, reply, before, after) in lines {
        client.ask(line);
        expected.push(format!("0\t{label}\t{line}\t{reply}\t{before}\t{after}"));
    }
    client.ask("SA\n\\T");
    expected.push("0\t\tSA\\x0A\\\\T\tNAK 99, no opening quote at byte 2\t\t".to_string());
    client.ask(&long);
    let overrun = "NAK 99, overrun: byte 64 is one too many";
    expected.push(format!("0\t\t{}.. (70 bytes)\t{overrun}\t\t", &long[..64]));
    drop(client);
    server.await_log("0\tclosed by the client");
    let log = server.log();
    let mut told = log.lines().map(|line| {
        let (time, rest) = line.split_once('\t').expect("a time");
        assert!(time.len() == 24 && time.ends_with('Z'), "{time}");
        rest
    });
    assert!(told
        .next()
        .unwrap()
        .starts_with("-\tlistening on 127.0.0.1:"));
    assert!(told.next().unwrap().starts_with("0\topened by 127.0.0.1:"));
    let told: Vec<&str> = told.collect();
    assert_eq!(told[..told.len() - 1], expected[..]);
}
