//! The live values of a box: every parameter is asked for.

use super::reply::{nak, number};
use super::{Link, Lost, Parameter};

/// So many parameters in a row without a reply, and the box is given up.
const SILENT: usize = 3;

/// What was read.
pub struct Live {
    /// By place: the value, or why there is none.
    pub values: Vec<Result<i64, String>>,
    /// A reply was missing, so that some values may be had at another time.
    pub silent: bool,
    /// Why the reading was broken off, where it was.
    pub broken: Option<String>,
}

impl Live {
    /// All values, where none is missing.
    pub fn whole(&self) -> Option<Vec<i64>> {
        let values = self.values.iter().map(|value| value.as_ref().ok().copied());
        values.collect()
    }

    /// How many values are missing.
    pub fn missing(&self) -> usize {
        self.values.iter().filter(|value| value.is_err()).count()
    }

    /// Names each parameter that gave no value, and says why; those of a module
    /// that follow each other, for the same reason, as `1 to 6 of Screen`.
    pub fn reasons(&self, parameters: &[Parameter]) -> Vec<String> {
        let mut runs: Vec<(usize, usize)> = Vec::new();
        for place in (0..parameters.len()).filter(|&place| self.values[place].is_err()) {
            let joins = |last: usize| {
                last + 1 == place
                    && parameters[last].module == parameters[place].module
                    && self.values[last] == self.values[place]
            };
            match runs.last_mut() {
                Some((_, last)) if joins(*last) => *last = place,
                _ => runs.push((place, place)),
            }
        }
        let named = runs.into_iter().filter_map(|(first, last)| {
            let why = self.values[first].as_ref().err()?;
            let name = parameters[last].name();
            Some(match first == last {
                true => format!("no value of {name}: {why}"),
                false => format!(
                    "no value of {} to {name}: {why}",
                    parameters[first].row.index
                ),
            })
        });
        named.collect()
    }
}

/// Asks for each parameter in turn; `step` is told how many are done.
pub fn read_all(link: &mut Link, parameters: &[Parameter], mut step: impl FnMut(usize)) -> Live {
    let mut live = Live {
        values: Vec::new(),
        silent: false,
        broken: None,
    };
    let mut silent = 0;
    for parameter in parameters {
        let mut asked = ask(link, parameter);
        // Where the connection broke, asking once more does no harm.
        if matches!(asked, Err(Lost::Broken(_))) && link.again().is_ok() {
            asked = ask(link, parameter);
        }
        silent = match asked {
            Ok(_) => 0,
            Err(_) => silent + 1,
        };
        let value = asked.unwrap_or_else(|lost| Err(lost.to_string()));
        let why = value.as_ref().err().cloned().unwrap_or_default();
        live.values.push(value);
        step(live.values.len());
        if silent == 0 {
            continue;
        }
        live.silent = true;
        let again = match silent {
            SILENT => Err(Lost::Broken(why)),
            _ => link.again(),
        };
        if let Err(lost) = again {
            live.broken = Some(lost.to_string());
            break;
        }
    }
    let unasked = || Err("not asked for".to_string());
    live.values.resize_with(parameters.len(), unasked);
    live
}

fn ask(link: &mut Link, parameter: &Parameter) -> Result<Result<i64, String>, Lost> {
    let row = &parameter.row;
    let text = match link.get(&parameter.label, row.index)? {
        Ok(text) => text,
        Err(code) => return Ok(Err(nak(&code))),
    };
    let value = number(row.kind, &text).filter(|&value| row.permits(value));
    let shown = text.escape_default();
    Ok(value.ok_or(format!("the box says {shown}, which is not permitted")))
}
