//! Pages in headless Chromium.

use std::io::Write;
use std::process::Command;
use std::{env, fs, io};

use super::Folder;

/// Names what is cut: what stands out of the frame, and what is wider than
/// the box that holds it. The dots of a track stand out of it by design.
const MEASURE: &str = r#"<script>
addEventListener("load", () => {
    const width = document.documentElement.clientWidth;
    const cut = [];
    for (const one of document.querySelectorAll("body, body *:not(.track)")) {
        const box = one.getBoundingClientRect();
        const out = box.width > 0 && (box.left < -0.5 || box.right > width + 0.5);
        const over = one.clientWidth > 0 && one.scrollWidth > one.clientWidth + 1;
        if (out || over) cut.push(one.tagName + "." + one.className);
    }
    const seen = document.body.innerText.length;
    parent.document.body.dataset.measured = [width, seen, cut.length, cut[0] || ""].join(" ");
});
</script>
</body>"#;

/// What was measured of a page.
#[derive(Debug)]
pub struct Measured {
    /// The frame's width.
    pub width: usize,
    /// Letters that are shown.
    pub letters: usize,
    /// How many elements are cut.
    pub cut: usize,
    /// The first of them.
    pub first: String,
}

/// Chromium's name, or nothing and a note where it is not installed.
pub fn installed() -> Option<&'static str> {
    let path = env::var("PATH").unwrap_or_default();
    let found = ["chromium", "chromium-browser", "google-chrome"]
        .into_iter()
        .find(|name| {
            path.split(':')
                .any(|folder| fs::metadata(format!("{folder}/{name}")).is_ok())
        });
    if found.is_none() {
        // Not by a macro, so that it is shown although the test passes.
        let _ = writeln!(
            io::stderr(),
            "SKIPPED: no page is rendered, chromium is not installed"
        );
    }
    found
}

/// Renders a page in a frame of this width, since a window has a least one, and
/// measures it.
pub fn measure(chromium: &str, folder: &Folder, page: &str, width: usize) -> Measured {
    assert_eq!(page.matches("</body>").count(), 1);
    let inner = page.replace("</body>", MEASURE);
    let inner = inner.replace('&', "&amp;").replace('"', "&quot;");
    let frame = format!(
        "<!DOCTYPE html><body><iframe style=\"border: 0; width: {width}px; height: 900px\" \
         srcdoc=\"{inner}\"></iframe></body>"
    );
    let file = folder.file("page.html", frame);
    let output = Command::new("timeout")
        .args([
            "60",
            chromium,
            "--headless",
            "--no-sandbox",
            "--disable-gpu",
        ])
        .args(["--hide-scrollbars", "--no-first-run", "--dump-dom"])
        .arg(format!("--user-data-dir={}", folder.path("profile")))
        .arg("--window-size=1400,1000")
        .arg(format!("file://{file}"))
        .output()
        .expect("chromium runs");
    let page = String::from_utf8_lossy(&output.stdout);
    let told = page
        .split_once("data-measured=\"")
        .and_then(|(_, rest)| rest.split_once('"'));
    let Some((told, _)) = told else {
        let errors = String::from_utf8_lossy(&output.stderr);
        panic!("chromium measured nothing: {errors}");
    };
    let mut words = told.splitn(4, ' ');
    let mut number = || words.next().unwrap().parse().unwrap();
    let (width, letters, cut) = (number(), number(), number());
    let first = words.next().unwrap_or("").to_string();
    Measured {
        width,
        letters,
        cut,
        first,
    }
}
