//! The module table and the values that belong to it.

use super::layout::{Layout, MIXER};
use super::mixer;

/// Bytes of a label's field.
const FIELD: usize = 32;
const MOST_MODULES: usize = 64;
const QUOTE: u8 = b'"';

/// A sound table.
#[derive(Clone, Copy)]
pub struct Table<'a> {
    bytes: &'a [u8],
    count: usize,
}

/// One module of a sound table.
#[derive(Clone, Copy)]
pub struct Module<'a> {
    /// Place of the label in the table's bytes.
    pub label_start: usize,
    /// The label and its zero bytes.
    field: &'a [u8],
    pub layout: Layout,
    /// Place of the first value.
    pub start: usize,
}

impl<'a> Module<'a> {
    pub fn label(&self) -> &'a [u8] {
        &self.field[..label_length(self.field)]
    }
}

impl<'a> Table<'a> {
    /// The table of these bytes, if they are sound.
    pub fn new(bytes: &'a [u8]) -> Option<Table<'a>> {
        let mut rest = bytes;
        let mut count = 0;
        while !rest.is_empty() {
            let (first, others) = split_record(rest)?;
            if count == MOST_MODULES || !sound_record(first) {
                return None;
            }
            count += 1;
            rest = others;
        }
        Some(Table { bytes, count })
    }

    /// The modules in table order.
    pub fn modules(self) -> impl Iterator<Item = Module<'a>> {
        let mut rest = self.bytes;
        let mut start = 0;
        std::iter::from_fn(move || {
            let (record, others) = split_record(rest)?;
            let module = Module {
                label_start: self.bytes.len() - rest.len() + 1,
                field: &record[1..1 + FIELD],
                layout: layout(record),
                start,
            };
            start += module.layout.count();
            rest = others;
            Some(module)
        })
    }

    /// The one module that bears a label, if exactly one does.
    pub fn bearer(self, label: &[u8]) -> Option<Module<'a>> {
        let mut bearers = self.modules().filter(|module| bears(module.field, label));
        match (bearers.next(), bearers.next()) {
            (Some(module), None) => Some(module),
            _ => None,
        }
    }

    /// Whether the values have the right length and are all permitted.
    pub fn takes(self, values: &[i64]) -> bool {
        let rest = self
            .modules()
            .try_fold(values, |rest, module| module.layout.pass(rest));
        rest.is_some_and(|rest| rest.is_empty())
    }

    /// How many modules there are.
    pub fn count(self) -> usize {
        self.count
    }
}

/// Bytes of a record's body: a label's field, and a mixer's two sizes.
fn body_length(kind: u8) -> Option<usize> {
    match kind {
        1..=6 => Some(FIELD),
        MIXER => Some(FIELD + 2),
        _ => None,
    }
}

/// The first record and the bytes after it, where its kind is known and it is
/// not cut.
fn split_record(bytes: &[u8]) -> Option<(&[u8], &[u8])> {
    let length = 1 + body_length(*bytes.first()?)?;
    bytes.split_at_checked(length)
}

/// The layout of a whole record.
fn layout(record: &[u8]) -> Layout {
    match record[1 + FIELD..] {
        [inputs, outputs] => Layout::mixer(inputs, outputs),
        _ => Layout::of(record[0]),
    }
}

/// Whether a whole record's body is sound.
fn sound_record(record: &[u8]) -> bool {
    let (field, sizes) = record[1..].split_at(FIELD);
    let (label, zeros) = field.split_at(label_length(field));
    !label.is_empty()
        && label
            .iter()
            .all(|&byte| (0x20..=0x7E).contains(&byte) && byte != QUOTE)
        && zeros.iter().all(|&byte| byte == 0)
        && sizes.iter().all(|size| (1..=mixer::MOST).contains(size))
}

/// The bytes before the first zero.
fn label_length(field: &[u8]) -> usize {
    field
        .iter()
        .position(|&byte| byte == 0)
        .unwrap_or(field.len())
}

/// Whether a label field holds exactly this label. The last byte is asked
/// for zero, since the text of a line may hold zero bytes and a label not.
fn bears(field: &[u8], label: &[u8]) -> bool {
    match label.last() {
        None | Some(0) => false,
        Some(_) => field.starts_with(label) && field.get(label.len()).is_none_or(|&byte| byte == 0),
    }
}
