//! What moved between the capture and the first reading.

use egrivundo::Room;
use files::words::counted;

use crate::client::Parameter;

/// A captured room file.
pub struct Then {
    pub room: Room,
    /// By place: whether the file gives the value.
    pub given: Vec<bool>,
}

impl Then {
    /// The places of chosen modules, or of those that are not, with values that
    /// the file gives or does not.
    fn places<'a>(
        &'a self,
        parameters: &'a [Parameter],
        labels: &'a [String],
        chosen: bool,
        given: bool,
    ) -> impl Iterator<Item = usize> + 'a {
        (0..parameters.len()).filter(move |&place| {
            labels.contains(&parameters[place].label) == chosen && self.given[place] == given
        })
    }

    /// Names each value of a chosen module that the file does not give: it is
    /// not known what to put back there.
    pub fn lacks(&self, parameters: &[Parameter], labels: &[String], name: &str) -> Vec<String> {
        let told = |place: usize| format!("{name}: no value of {}", parameters[place].name());
        self.places(parameters, labels, true, false)
            .map(told)
            .collect()
    }

    /// What is other than captured, and not chosen. What the file does not give
    /// is not compared.
    pub fn since(&self, parameters: &[Parameter], now: &[i64], labels: &[String]) -> Since {
        let then = self.room.values();
        let moved = self
            .places(parameters, labels, false, true)
            .filter(|&place| now[place] != then[place]);
        let told = |place: usize| {
            let parameter = &parameters[place];
            let (was, is) = (parameter.text(then[place]), parameter.text(now[place]));
            format!("  {}: it was {was}, and is {is}\n", parameter.name())
        };
        Since(moved.map(told).collect())
    }
}

/// What moved since the capture, by name.
#[derive(Default)]
pub struct Since(Vec<String>);

impl Since {
    /// As it is told before the question.
    pub fn text(&self) -> String {
        match self.0.len() {
            0 => String::new(),
            _ => format!(
                "Moved since the capture, and left as it is:\n{}",
                self.0.concat()
            ),
        }
    }

    /// As it is told at the end, if anything moved.
    pub fn reminder(&self) -> Option<String> {
        let count = counted(self.0.len(), "parameter");
        let told = format!("Something else moved since the capture: {count}, named above");
        (!self.0.is_empty()).then_some(told)
    }
}
