//! What brings the log to its reader: a thread of its own behind a bounded
//! buffer, so that a reader who takes no more of it holds up nobody.

use std::fmt::Write as _;
use std::io::Write;
use std::mem;
use std::sync::{Arc, Condvar, Mutex, MutexGuard, PoisonError};
use std::thread;
use std::time::Duration;

use crate::clock;
use crate::words::warn;

/// The most bytes that wait for the thread.
const MOST: usize = 4 << 20;
/// How long the thread rests after each text, so that busy rounds share one.
const REST: Duration = Duration::from_millis(5);
/// How long the end waits for the reader.
const FAREWELL: Duration = Duration::from_secs(1);

/// Ends with a bounded wait for what is not written yet.
pub struct Outlet(Arc<Shared>);

#[derive(Default)]
struct Shared {
    waiting: Mutex<Waiting>,
    changed: Condvar,
}

/// What the thread has not taken yet.
#[derive(Default)]
struct Waiting {
    text: String,
    /// How many lines found no room behind the text.
    left_out: u64,
    /// The thread waits for a text.
    idle: bool,
    /// No more lines come.
    ended: bool,
    /// The thread has ended.
    done: bool,
}

impl Shared {
    fn waiting(&self) -> MutexGuard<'_, Waiting> {
        self.waiting.lock().unwrap_or_else(PoisonError::into_inner)
    }
}

impl Outlet {
    pub fn to(out: impl Write + Send + 'static) -> Outlet {
        let shared = Arc::<Shared>::default();
        let outlet = Outlet(Arc::clone(&shared));
        thread::spawn(move || write(&shared, out));
        outlet
    }

    /// Takes a line, or counts it where there is no room.
    pub fn put(&self, line: &str) {
        let mut waiting = self.0.waiting();
        if waiting.left_out == 0 && waiting.text.len() + line.len() <= MOST {
            waiting.text.push_str(line);
        } else {
            waiting.left_out += 1;
        }
    }

    /// Lets the thread see what was put.
    pub fn wake(&self) {
        let mut waiting = self.0.waiting();
        if waiting.idle && !waiting.text.is_empty() {
            waiting.idle = false;
            self.0.changed.notify_all();
        }
    }
}

impl Drop for Outlet {
    fn drop(&mut self) {
        self.0.waiting().ended = true;
        self.0.changed.notify_all();
        let wait = |waiting: &mut Waiting| !waiting.done;
        let _ = self
            .0
            .changed
            .wait_timeout_while(self.0.waiting(), FAREWELL, wait);
    }
}

/// Writes what waits, until the end. The first error is told.
fn write(shared: &Shared, mut out: impl Write) {
    let (mut text, mut failed) = (String::new(), false);
    while let Some(left_out) = take(shared, &mut text) {
        if left_out > 0 {
            let now = clock::now();
            // Writing to a String does not fail.
            let _ = writeln!(
                text,
                "{now}\t-\tlines left out here, as the log was not taken: {left_out}"
            );
        }
        let written = out.write_all(text.as_bytes()).and_then(|()| out.flush());
        if let (Err(error), false) = (written, failed) {
            failed = true;
            warn(format_args!("the log cannot be written: {error}"));
        }
        thread::sleep(REST);
    }
    shared.waiting().done = true;
    shared.changed.notify_all();
}

/// Waits for a text, and tells how many lines are left out behind it; nothing
/// where no more comes.
fn take(shared: &Shared, text: &mut String) -> Option<u64> {
    text.clear();
    let mut waiting = shared.waiting();
    waiting.idle = true;
    let wait = |waiting: &mut Waiting| waiting.text.is_empty() && !waiting.ended;
    let waiting = shared.changed.wait_while(waiting, wait);
    let mut waiting = waiting.unwrap_or_else(PoisonError::into_inner);
    waiting.idle = false;
    mem::swap(text, &mut waiting.text);
    let left_out = mem::take(&mut waiting.left_out);
    (!text.is_empty()).then_some(left_out)
}
