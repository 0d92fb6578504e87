//! One call on two cores, with everything compared.
//!
//! Beside the comparison, each call is held to what can be said without any
//! reference: a refusal changes nothing, nothing is written beside a lent
//! slice or past what is told, and the counts fit the bytes.

use crate::lent::Lent;
use crate::tally::Tally;
use cores::Calls;

/// Stops with a difference where a condition does not hold.
macro_rules! ensure {
    ($condition:expr, $($what:tt)+) => {
        if !$condition {
            return Err(format!($($what)+));
        }
    };
}

mod panel;
mod port;
mod restore;
mod row;
mod table;
mod turn;
mod written;

pub use restore::Wish;
pub use row::Rows;
pub use turn::Waiting;

/// What went wrong, in words.
pub type Difference = String;

pub struct Compare<'a> {
    left: &'a Calls,
    right: &'a Calls,
    pub tally: Tally,
}

impl<'a> Compare<'a> {
    pub fn new(left: &'a Calls, right: &'a Calls) -> Compare<'a> {
        Compare {
            left,
            right,
            tally: Tally::default(),
        }
    }
}

/// The port and the values of both sides.
#[derive(Clone, PartialEq)]
pub struct Sides {
    left: Side,
    right: Side,
}

#[derive(Clone, PartialEq)]
struct Side {
    values: Lent<i64>,
    port: Lent<u8>,
}

impl Sides {
    pub fn new(values: &[i64], port: &[u8; 66]) -> Sides {
        let side = Side {
            values: Lent::new(values, 77),
            port: Lent::new(port, 0xA5),
        };
        Sides {
            left: side.clone(),
            right: side,
        }
    }

    /// The values, which are the same on both sides.
    pub fn values(&self) -> &[i64] {
        self.right.values.view()
    }

    /// The second core's port.
    pub fn port(&self) -> &[u8] {
        self.right.port.view()
    }

    pub fn set_port(&mut self, port: &[u8; 66]) {
        self.left.port = Lent::new(port, 0xA5);
        self.right.port = Lent::new(port, 0xA5);
    }
}

/// What an accepted port call did, or that of a turn.
pub struct Fed {
    pub consumed: usize,
    pub reply: Vec<u8>,
    pub cause: usize,
}

/// Bytes of a usual reply buffer.
pub const USUAL: usize = 64;

fn number(answer: u8) -> &'static str {
    match answer {
        0 => "0",
        1 => "1",
        2 => "2",
        3 => "3",
        4 => "4",
        5 => "5",
        6 => "6",
        7 => "7",
        8 => "8",
        9 => "9",
        10 => "10",
        _ => "unknown",
    }
}

/// How many values differ.
fn changed(old: &[i64], new: &[i64]) -> usize {
    let pairs = old.iter().zip(new);
    pairs.filter(|(old, new)| old != new).count()
}

/// A list of values for a message, cut where it is long.
fn short(values: &[i64]) -> String {
    let shown = &values[..values.len().min(80)];
    format!("{} of {shown:?}", values.len())
}

/// What a set line or the answer to a get line speaks of: a routing word or one
/// of its cross-points, or a value of another kind.
fn form(line: &[u8]) -> &'static str {
    // A label may hold anything but a quote.
    let groups = line.rsplit(|&byte| byte == b'"').next().unwrap_or(line);
    if groups.starts_with(b">3>") {
        "word"
    } else if groups.starts_with(b">4>(") {
        "pair"
    } else {
        "value"
    }
}
