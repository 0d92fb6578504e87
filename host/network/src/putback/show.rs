//! What will be sent, and what it changes.

use egrivundo::List;

use crate::client::Parameter;

/// One line of the list, and the parameter that it moves.
pub struct Step {
    /// Without its end.
    pub line: Vec<u8>,
    pub place: usize,
    /// `-6.5 → -4.0`
    change: String,
}

impl Step {
    pub fn text(&self) -> String {
        String::from_utf8_lossy(&self.line).into_owned()
    }
}

/// The list with the values before it and those that are wanted.
pub struct Plan {
    pub steps: Vec<Step>,
    pub before: Vec<i64>,
    pub wanted: Vec<i64>,
}

impl Plan {
    /// A list has one line for each parameter that differs, in their order.
    pub fn new(parameters: &[Parameter], before: &[i64], wanted: &[i64], list: &List) -> Plan {
        let differing = (0..before.len()).filter(|&place| before[place] != wanted[place]);
        let steps = differing.zip(list.texts()).map(|(place, line)| {
            let text = |value| parameters[place].text(value);
            Step {
                line: line.to_vec(),
                place,
                change: format!("{} \u{2192} {}", text(before[place]), text(wanted[place])),
            }
        });
        Plan {
            steps: steps.collect(),
            before: before.to_vec(),
            wanted: wanted.to_vec(),
        }
    }

    /// The widest line.
    pub fn width(&self) -> usize {
        self.steps
            .iter()
            .map(|step| step.line.len())
            .max()
            .unwrap_or(0)
    }

    pub fn text(&self) -> String {
        let width = self.width();
        let lines = self.steps.iter().map(|step| {
            let (line, change) = (step.text(), &step.change);
            format!("  {line:width$}   {change}\n")
        });
        lines.collect()
    }
}
