//! What moved: the values before, the wanted ones, and those after.

use crate::client::{Live, Parameter};
use crate::status::{End, MOVED, NETWORK, REFUSED};
use crate::words::print;

use super::send::Stopped;
use super::show::Plan;
use super::since::Since;

/// Counts what moved as wished and what stayed, and names everything else.
#[derive(Debug, Default, PartialEq, Eq)]
struct Verdict {
    wished: usize,
    unchanged: usize,
    /// How many were wanted to move, and did not.
    still: usize,
    /// Those of them whose line was acknowledged, by name.
    not_there: Vec<String>,
    /// Moved otherwise, by name.
    others: Vec<String>,
    /// Not read again, by name.
    unread: Vec<String>,
}

/// Says what moved; the end is early where it is not just what was wished.
/// That something else moved counts more than that a line was refused or lost.
pub fn tell(
    parameters: &[Parameter],
    plan: &Plan,
    after: &Live,
    stopped: Option<&Stopped>,
    since: &Since,
) -> Result<(), End> {
    let acknowledged = stopped.map_or(plan.steps.len(), Stopped::acknowledged);
    let verdict = Verdict::of(parameters, plan, after, acknowledged);
    print(&format!("{}.\n", verdict.counts()));
    let named = |head: &str, names: &[String]| {
        (!names.is_empty()).then(|| format!("{head}:\n{}", names.join("\n")))
    };
    let stop = stopped.map(|stopped| match stopped.is_lost() {
        true => NETWORK,
        false => REFUSED,
    });
    let found = [
        stop.map(|status| (status, "Not everything was put back.".to_string())),
        named("Not read again", &verdict.unread).map(|told| (NETWORK, told)),
        named("Acknowledged, and not there", &verdict.not_there).map(|told| (MOVED, told)),
        since.reminder().map(|told| (MOVED, told)),
        named("Something else moved", &verdict.others).map(|told| (MOVED, told)),
    ];
    let (statuses, told): (Vec<u8>, Vec<String>) = found.into_iter().flatten().unzip();
    match statuses.into_iter().max() {
        Some(status) => Err(End(status, told.join("\n"))),
        None => Ok(()),
    }
}

impl Verdict {
    /// The first lines of the plan were acknowledged, so many as is said.
    fn of(parameters: &[Parameter], plan: &Plan, after: &Live, acknowledged: usize) -> Verdict {
        let done = &plan.steps[..acknowledged];
        let mut verdict = Verdict::default();
        for (place, parameter) in parameters.iter().enumerate() {
            let (before, wanted) = (plan.before[place], plan.wanted[place]);
            let name = parameter.name();
            match &after.values[place] {
                Err(why) => verdict.unread.push(format!("  {name}: {why}")),
                Ok(value) if *value == wanted && wanted == before => verdict.unchanged += 1,
                Ok(value) if *value == wanted => verdict.wished += 1,
                Ok(value) if *value == before => {
                    verdict.still += 1;
                    if done.iter().any(|step| step.place == place) {
                        let (is, wish) = (parameter.text(before), parameter.text(wanted));
                        let told = format!("  {name}: it is {is}, and not {wish}");
                        verdict.not_there.push(told);
                    }
                }
                Ok(value) => {
                    let (from, to) = (parameter.text(before), parameter.text(*value));
                    let wish = match wanted == before {
                        true => String::new(),
                        false => format!(", and not to {}", parameter.text(wanted)),
                    };
                    verdict
                        .others
                        .push(format!("  {name}: {from} \u{2192} {to}{wish}"));
                }
            }
        }
        verdict
    }

    /// `4 moved as wished, 52 unchanged`
    fn counts(&self) -> String {
        let mut parts = vec![format!("{} moved as wished", self.wished)];
        for (count, words) in [
            (self.still, "not moved as wished"),
            (self.others.len(), "moved otherwise"),
            (self.unread.len(), "not read again"),
        ] {
            if count > 0 {
                parts.push(format!("{count} {words}"));
            }
        }
        parts.push(format!("{} unchanged", self.unchanged));
        parts.join(", ")
    }
}
