//! Sending a list line by line.

use crate::client::{nak, Link, Live, Lost};

use super::show::Plan;

/// Why sending stopped before the end, and at which line, from 0.
pub struct Stopped {
    at: usize,
    why: Why,
}

enum Why {
    /// The code of a NAK.
    Nak(String),
    /// No reply.
    Lost(Lost),
}

impl Stopped {
    /// Whether it is not known what the box did with the line.
    pub fn is_lost(&self) -> bool {
        matches!(self.why, Why::Lost(_))
    }

    /// How many lines were acknowledged before.
    pub fn acknowledged(&self) -> usize {
        self.at
    }
}

/// Sends each line and waits for its ACK.
pub fn send(link: &mut Link, plan: &Plan) -> Option<Stopped> {
    for (at, step) in plan.steps.iter().enumerate() {
        let why = match link.set(&step.line) {
            Ok(None) => continue,
            Ok(Some(code)) => Why::Nak(code),
            Err(lost) => Why::Lost(lost),
        };
        return Some(Stopped { at, why });
    }
    None
}

/// Which lines stand and which don't, where sending stopped; `after` is what
/// was read again.
pub fn told(plan: &Plan, stopped: Option<&Stopped>, after: Option<&Live>) -> String {
    let Some(Stopped { at, why }) = stopped else {
        return String::new();
    };
    let why = match why {
        Why::Nak(code) => nak(code),
        Why::Lost(lost) => lost.to_string(),
    };
    let mut out = format!(
        "Stopped at line {} of {}: {why}.\n",
        at + 1,
        plan.steps.len()
    );
    let width = plan.width();
    for (number, step) in plan.steps.iter().enumerate() {
        let value = after.and_then(|after| after.values[step.place].as_ref().ok());
        let state = match (value, number.cmp(at)) {
            (Some(value), _) if *value == plan.wanted[step.place] => "stands",
            (Some(_), std::cmp::Ordering::Greater) => "does not stand: not sent",
            (Some(_), std::cmp::Ordering::Less) => "does not stand, and was acknowledged",
            (Some(_), _) => "does not stand",
            (None, std::cmp::Ordering::Less) => "was acknowledged",
            (None, std::cmp::Ordering::Equal) if stopped.is_some_and(Stopped::is_lost) => {
                "was sent, and nothing is known of it"
            }
            (None, std::cmp::Ordering::Equal) => "does not stand",
            (None, std::cmp::Ordering::Greater) => "was not sent",
        };
        out += &format!("  {:width$}   {state}\n", step.text());
    }
    out
}
