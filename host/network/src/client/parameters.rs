//! The parameters of a room, one by one.

use egrivundo::{Room, Row};
use files::value::value_text;

/// One parameter, in the order of values.
#[derive(Clone, Debug)]
pub struct Parameter {
    /// The module's number, from 0.
    pub module: usize,
    pub label: String,
    pub row: Row,
}

impl Parameter {
    /// `1>2 of Desk`
    pub fn name(&self) -> String {
        format!("{} of {}", self.row.index, self.label)
    }

    pub fn text(&self, value: i64) -> String {
        value_text(self.row.kind, value)
    }
}

pub fn parameters(room: &Room) -> Vec<Parameter> {
    let modules = room.modules().enumerate().flat_map(|(number, module)| {
        let label = String::from_utf8_lossy(module.label).into_owned();
        let of = move |row| Parameter {
            module: number,
            label: label.clone(),
            row,
        };
        module.kind.rows().into_iter().map(of)
    });
    modules.collect()
}
