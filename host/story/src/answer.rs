//! The answer: what the core says to a wish, and what its list does.

use egrivundo::{Index, Kind, List, Port, Refusal, Reply, Room, Size, Type};
use files::words::{counted, listed};
use files::{Hindrance, Wish};

pub enum Answer {
    Yes(Yes),
    No(Vec<Hindrance>),
}

/// A list that was played.
pub struct Yes {
    pub list: List,
    pub replies: Vec<Reply>,
    pub modules: Vec<Changed>,
}

/// A module before and after.
pub struct Changed {
    pub label: String,
    pub kind: Type,
    pub rows: Vec<Row>,
}

/// A parameter before and after.
pub struct Row {
    pub index: Index,
    pub kind: Kind,
    pub low: i64,
    pub high: i64,
    pub old: i64,
    pub new: i64,
}

impl Row {
    pub fn moved(&self) -> bool {
        self.old != self.new
    }
}

impl Changed {
    pub fn moved(&self) -> impl Iterator<Item = &Row> {
        self.rows.iter().filter(|row| row.moved())
    }
}

/// Asks the core for the size of the list and shows it; then asks for the list
/// and plays it.
pub fn ask(room: &Room, wish: &Wish, show: impl FnOnce(Size)) -> Result<Answer, String> {
    let size = match wish.core.size() {
        Ok(size) => size,
        Err(Refusal::Reach) => {
            return Ok(Answer::No(Hindrance::all(room, wish)));
        }
        Err(refusal) => return Err(refusal.to_string()),
    };
    show(size);
    let list = wish.core.list().map_err(|refusal| refusal.to_string())?;
    if list.size() != size {
        return Err("the list is not as long as was told".to_string());
    }
    let mut after = room.clone();
    let mut port = Port::new();
    let fed = after.feed_all(&mut port, list.bytes());
    let replies = fed.map_err(|refusal| refusal.to_string())?;
    if replies.len() != list.lines() || !replies.iter().all(Reply::is_ack) || !port.is_fresh() {
        return Err("not every line of the list was acknowledged".to_string());
    }
    if after.values() != wish.core.wanted() {
        return Err("the list does not fulfil the wish".to_string());
    }
    Ok(Answer::Yes(Yes {
        list,
        replies,
        modules: changes(room, &after),
    }))
}

fn changes(before: &Room, after: &Room) -> Vec<Changed> {
    let modules = before.modules().zip(after.modules());
    let changed = modules.map(|(module, later)| {
        let values = module.values.iter().zip(later.values);
        let rows = module.kind.rows().into_iter().zip(values);
        Changed {
            label: String::from_utf8_lossy(module.label).into_owned(),
            kind: module.kind,
            rows: rows
                .map(|(row, (&old, &new))| Row {
                    index: row.index,
                    kind: row.kind,
                    low: row.low,
                    high: row.high,
                    old,
                    new,
                })
                .collect(),
        }
    });
    changed.collect()
}

impl Answer {
    /// The answer's first word.
    pub fn word(&self) -> &'static str {
        match self {
            Answer::Yes(_) => "Yes",
            Answer::No(_) => "No",
        }
    }

    /// What follows `Yes: ` or `No: `.
    pub fn sentence(&self) -> String {
        match self {
            Answer::Yes(yes) => yes.moves(),
            Answer::No(hindrances) => refused(hindrances),
        }
    }

    /// What it takes.
    pub fn measure(&self) -> String {
        match self {
            Answer::Yes(yes) => format!("{}.", yes.list.size()),
            Answer::No(_) => "Nothing was sent, and nothing moved.".to_string(),
        }
    }
}

impl Yes {
    fn moves(&self) -> String {
        let rows: usize = self.modules.iter().map(|module| module.rows.len()).sum();
        let moved: usize = self.modules.iter().map(|m| m.moved().count()).sum();
        let labels = self.modules.iter().filter(|m| m.moved().next().is_some());
        let labels: Vec<String> = labels.map(|module| module.label.clone()).collect();
        match (moved, rows - moved) {
            (0, 0) => "the room is empty, and nothing moved.".to_string(),
            (0, 1) => "it is so already, and the 1 parameter did not move.".to_string(),
            (0, all) => format!("it is so already, and none of {all} parameters moved."),
            (_, others) => {
                let moved = counted(moved, "parameter");
                let others = match others {
                    0 => "there are no others".to_string(),
                    _ => format!("{} did not", counted(others, "other")),
                };
                format!("{moved} of {} moved, {others}.", listed(&labels))
            }
        }
    }
}

fn refused(hindrances: &[Hindrance]) -> String {
    match hindrances {
        [] => "a wanted change cannot be reached.".to_string(),
        [only] => format!("{} cannot be reached: {}.", only.what, only.why),
        [first, ..] => format!(
            "{} cannot be reached. The first is {}: {}.",
            counted(hindrances.len(), "parameter"),
            first.what,
            first.why
        ),
    }
}
