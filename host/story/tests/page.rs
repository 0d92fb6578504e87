//! The page that `--html` writes.

mod common;

use std::fs;

use common::{chromium, example, story, Folder};

/// The page of a room and a wish.
fn page(folder: &Folder, files: &[&str], status: i32) -> String {
    let page = folder.path("answer.html");
    let (code, text, errors) = story(&[files, &["--html", &page]].concat());
    assert_eq!((code, &errors[..]), (Some(status), ""));
    assert!(text.ends_with(&format!("\nThe page: {page}\n")), "{text}");
    fs::read_to_string(page).unwrap()
}

/// A room in which all is as long as it can be, and a wish that moves all of
/// its mixer, or some that cannot be moved.
fn long_files(folder: &Folder) -> [String; 3] {
    let label = "W".repeat(32);
    let mut wish = format!("module \"{label}\"\n");
    for channel in 1..=32 {
        let (level, mute) = (2 * channel - 1, 2 * channel);
        wish += &format!("1>{level} = -60.5\n1>{mute} = on\n2>{level} = 12\n2>{mute} = on\n");
        wish += &format!("3>{channel} = AAAAAAAA\n");
    }
    let other = "M".repeat(32);
    let room = format!("module 7 \"{label}\" 32x32\nmodule 5 \"{other}\"\nmodule 1 \"<i>&amp;\"\n");
    let no = format!("module \"{other}\"\n0>1 = 3\n0>8 = -3\nmodule \"<i>&amp;\"\n1 = 1\n");
    [
        folder.file("long.room", room),
        folder.file("long.wish", wish),
        folder.file("no.wish", no),
    ]
}

#[test]
fn the_same_as_the_text() {
    let folder = Folder::new("page");
    let files = [example("viewing-room.room"), example("commentary.wish")];
    let page = page(&folder, &[&files[0], &files[1]], 0);
    for part in [
        "<h1><b>Yes:</b> 4 parameters of Commentary moved, 52 others did not.</h1>",
        "<p>82 bytes, 4 lines.</p>",
        "<code>SA&quot;Commentary&quot;&gt;5=-0.5</code> <span class=\"reply\">ACK</span>",
        "<article class=\"card moved\">\n<h3>Commentary</h3>\n<p class=\"type\">Tone Control EQ</p>",
        "<s>-6.5</s> <i>\u{2192}</i> <b>-4.0</b>",
        "<s>on</s> <i>\u{2192}</i> <b>off</b>",
        "<details>\n<summary>2 others as before</summary>",
        "<article class=\"card\">\n<h3>Microphones</h3>",
        "<summary>1 parameter as before</summary>",
        "<div><dt>2&gt;17</dt><dd>-60.5</dd></div>",
    ] {
        assert!(page.contains(part), "{part}");
    }
    assert_eq!(page.matches("<article").count(), 7);
    assert_eq!(page.matches("class=\"card moved\"").count(), 1);
    assert_eq!(page.matches("class=\"row\"").count(), 4);
    assert_eq!(page.matches("<dt>").count(), 52);
}

#[test]
fn one_file_without_a_script() {
    let folder = Folder::new("alone");
    let [room, wish, no] = long_files(&folder);
    for (wish, status) in [(&wish, 0), (&no, 1)] {
        let page = page(&folder, &[&room, wish], status);
        for part in [
            "<script", "<link", "<img", "src=", "href=", "url(", "@import", "://",
        ] {
            assert!(!page.contains(part), "{part}");
        }
        for media in [
            "(prefers-color-scheme: dark)",
            "(max-width: 30rem)",
            "print",
        ] {
            assert!(page.contains(&format!("@media {media} {{")), "{media}");
        }
    }
}

/// A label is shown as it is, whatever it would mean in a page.
#[test]
fn labels_as_they_are() {
    let folder = Folder::new("labels");
    let [room, wish, _] = long_files(&folder);
    let page = page(&folder, &[&room, &wish], 0);
    assert!(page.contains("<h3>&lt;i&gt;&amp;amp;</h3>"));
}

#[test]
fn a_page_that_says_no() {
    let folder = Folder::new("says-no");
    let [room, _, no] = long_files(&folder);
    let page = page(&folder, &[&room, &no], 1);
    assert!(page.contains("<header class=\"no\">"));
    assert!(page.contains("<b>No:</b> 2 parameters cannot be reached. The first is 0&gt;1 of MMM"));
    assert!(page.contains("<p>It is 0, and 3 is wanted; but it is read-only.</p>"));
    assert!(!page.contains("The list"));
}

/// A phone, a desktop, and a sheet of paper, on which the print rules hold.
#[test]
fn nothing_is_cut() {
    let Some(chromium) = chromium::installed() else {
        return;
    };
    let folder = Folder::new("cut");
    let [room, wish, no] = long_files(&folder);
    let example = [example("viewing-room.room"), example("commentary.wish")];
    for (files, status) in [
        ([&example[0], &example[1]], 0),
        ([&room, &wish], 0),
        ([&room, &no], 1),
    ] {
        let page = page(&folder, &[files[0], files[1], "--all"], status);
        let print = page.replace("@media print", "@media all");
        for (page, width) in [(&page, 360), (&page, 1280), (&print, 700)] {
            let measured = chromium::measure(chromium, &folder, page, width);
            assert_eq!(measured.width, width);
            assert!(measured.letters > 200, "{measured:?}");
            assert_eq!(measured.cut, 0, "{files:?} {measured:?}");
        }
    }
}

/// What is too wide is found, so that nothing else passes for it.
#[test]
fn what_is_cut_is_found() {
    let Some(chromium) = chromium::installed() else {
        return;
    };
    let folder = Folder::new("found");
    let files = [example("viewing-room.room"), example("commentary.wish")];
    let page = page(&folder, &[&files[0], &files[1]], 0);
    let long = "x".repeat(200);
    for wide in [
        "<p style=\"width: 1400px\">x</p>".to_string(),
        format!("<p style=\"white-space: nowrap\">{long}</p>"),
        format!("<p style=\"white-space: nowrap; overflow: hidden\">{long}</p>"),
    ] {
        let page = page.replace("</main>", &format!("{wide}</main>"));
        let measured = chromium::measure(chromium, &folder, &page, 360);
        assert!(measured.cut > 0, "{wide}");
    }
}
