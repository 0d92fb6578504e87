//! The script `run`, with other programs in place of `rt` and `cargo`: what it
//! says before the program answers.

mod common;

use std::fs;

use common::copy::Copy;
use common::root;

const ALL: [&str; 3] = ["rt", "cargo", "cc"];

#[test]
fn the_first_run_and_the_next() {
    let copy = Copy::new("first", &ALL);
    let (status, text, errors) = copy.run(&[], &[("TMPDIR", "/tmp")]);
    assert_eq!(status, Some(0), "{errors}");
    let expected =
        "Proving 4 of 5 crates, once; some 2 minutes. The checker's words go to target/log.\n\
                    1/4 low\n2/4 middle\n3/4 upper\n4/4 capi\n\
                    Building the program that plays the question; some seconds.\n";
    assert_eq!(errors, expected);
    // The checker's words are kept, and are not shown.
    assert!(copy.log().contains("fn upper::x: proved\n"));
    assert!(copy
        .log()
        .starts_with("arguments: lib, in the folder capi, temporary files: /tmp\n"));
    // The program is given the files of the example.
    let files: Vec<&str> = text.lines().rev().take(2).collect();
    assert!(files[1].ends_with("/examples/viewing-room.room"), "{text}");
    assert!(files[0].ends_with("/examples/commentary.wish"), "{text}");
    // Nothing has changed: nothing is proved, and nothing said.
    let (status, again, errors) = copy.run(&[], &[]);
    assert_eq!((status, &again, &errors[..]), (Some(0), &text, ""));
    // What stands above a change is proved again.
    copy.touch("crates/middle/src/lib.rt");
    let (_, _, errors) = copy.run(&[], &[("CHANGED", "middle upper")]);
    let expected =
        "Proving 3 of 5 crates, once; some 2 minutes. The checker's words go to target/log.\n\
                    1/3 middle\n2/3 upper\n3/3 capi\n";
    assert_eq!(errors, expected);
}

/// A file that is newer and says the same is not proved again, which only `rt`
/// can know. It tells nothing of such a crate.
#[test]
fn newer_files_that_say_the_same() {
    let copy = Copy::new("same", &ALL);
    copy.run(&[], &[]);
    copy.touch("crates/middle/src/lib.rt");
    let (_, _, errors) = copy.run(&[], &[("CHANGED", "upper")]);
    let lines: Vec<&str> = errors.lines().collect();
    assert!(
        lines[0].starts_with("Proving 3 of 5 crates, once; "),
        "{errors}"
    );
    assert_eq!(lines[1..], ["1/2 upper", "2/2 capi"]);
}

#[test]
fn more_crates_take_longer() {
    let copy = Copy::new("many", &ALL);
    let mut crates = String::from("low:\nmiddle: low\nupper: middle\n");
    for number in 0..10 {
        crates += &format!("c{number}: upper\n");
    }
    crates += "capi: c0 c1 c2 c3 c4 c5 c6 c7 c8 c9\n";
    copy.folder.file("crates.txt", crates);
    let (_, _, errors) = copy.run(&[], &[]);
    let first = "Proving 14 of 14 crates, once; some 7 minutes. ";
    assert!(errors.starts_with(first), "{errors}");
}

/// Temporary files are where the caller says, by the same rule as in the gate.
#[test]
fn temporary_files_where_the_caller_says() {
    for path in ["host/story/archive.sh", "host/archive.sh", ".ci/run"] {
        let text = fs::read_to_string(root().join(path)).unwrap();
        assert!(!text.contains("TMPDIR"), "{path}");
    }
    let copy = Copy::new("temporary", &ALL);
    copy.run(&[], &[]);
    let log = copy.log();
    let first = log.lines().next().unwrap();
    assert!(first.ends_with(": none"), "{first}");
}

#[test]
fn what_is_refused() {
    let copy = Copy::new("refused", &ALL);
    let (status, text, errors) = copy.run(&[], &[("WRONG", "middle")]);
    assert_eq!((status, &text[..]), (Some(1), ""));
    let last =
        "The core is not proved; refused: middle. What the checker said is in target/log/archive.";
    assert_eq!(errors.lines().last(), Some(last));
    assert!(copy.log().contains("fn middle::x: not proved\n"));
}

#[test]
fn missing_compilers() {
    for (compilers, message) in [
        (
            ["rt", "cc"],
            "cargo is not installed: it builds the program that plays the question\n",
        ),
        (
            ["cargo", "cc"],
            "rt is not installed: the Rattle kit has it, and it proves the core\n",
        ),
        (
            ["cargo", "rt"],
            "cc is not installed: cargo links with it\n",
        ),
    ] {
        let copy = Copy::new("missing", &compilers);
        let (status, text, errors) = copy.run(&[], &[]);
        assert_eq!((status, &text[..], &errors[..]), (Some(1), "", message));
    }
}

#[test]
fn told_before_anything_is_proved() {
    let copy = Copy::new("options", &[]);
    let help = fs::read_to_string(root().join("host/story/src/help.txt")).unwrap();
    for option in ["--help", "-h"] {
        let (status, text, errors) = copy.run(&[option], &[]);
        assert_eq!((status, &text, &errors[..]), (Some(0), &help, ""));
    }
    for (arguments, status, message) in [
        (
            &["--what"][..],
            2,
            "unknown option: --what (./run --help tells the options)\n",
        ),
        (
            &["--list"],
            2,
            "--list needs a word behind it (./run --help tells the options)\n",
        ),
        (&["a.room", "b.wish"], 1, "no such file: a.room\n"),
        (
            &["--from", "then.room", "--module", "M"],
            1,
            "no such file: then.room\n",
        ),
    ] {
        let (code, text, errors) = copy.run(arguments, &[]);
        assert_eq!((code, &text[..], &errors[..]), (Some(status), "", message));
    }
}

/// Each option of the help is one that the script and the program know.
#[test]
fn every_option_of_the_help() {
    let copy = Copy::new("known", &ALL);
    let help = fs::read_to_string(root().join("host/story/src/help.txt")).unwrap();
    let options: Vec<&str> = help
        .lines()
        .filter_map(|line| {
            line.trim()
                .split(' ')
                .next()
                .filter(|word| word.starts_with("--"))
        })
        .collect();
    assert_eq!(options.len(), 6);
    let then = copy.folder.file("then.room", "");
    for option in options.into_iter().filter(|option| *option != "--help") {
        let arguments: &[&str] = if option == "--all" {
            &[option]
        } else {
            &[option, &then]
        };
        let (status, text, errors) = copy.run(arguments, &[]);
        assert!(
            status == Some(0) && text.lines().any(|line| line == option),
            "{errors}"
        );
        let (_, _, errors) = common::story(arguments);
        assert!(!errors.contains("unknown option"), "{errors}");
    }
    // With a saved room, the room of the example alone is added.
    let (_, text, _) = copy.run(&["--from", &then, "--module", "M"], &[]);
    assert!(text.ends_with("/examples/viewing-room.room\n"), "{text}");
    let (_, text, _) = copy.run(&[&then, "--from", &then, "--module", "M"], &[]);
    assert!(text.ends_with("--module\nM\n"), "{text}");
}
