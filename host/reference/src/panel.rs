//! A change at a wall panel, by module and row number.

use super::control::Control;
use super::table::{Module, Table};
use super::text::Writer;
use super::Refusal;

/// Bytes that a reply buffer must have.
const REPLY: usize = 64;

/// Sets one value, and tells the length of the notice: 0 for none.
pub fn call(
    table: &[u8],
    values: &mut [i64],
    owner: u64,
    row: u64,
    value: i64,
    reply: &mut [u8],
) -> Result<[usize; 1], Refusal> {
    let table = Table::new(table).ok_or(1u8)?;
    if !table.takes(values) {
        return Err(2);
    }
    if reply.len() < REPLY {
        return Err(3);
    }
    let module = nth(table.modules(), owner).ok_or(9u8)?;
    let (place, row) = nth(module.layout.rows().enumerate(), row).ok_or(9u8)?;
    if !row.settable || !row.permits(value) {
        return Err(9);
    }
    let present = std::mem::replace(&mut values[module.start + place], value);
    if present == value || !is_told(&module) {
        return Ok([0]);
    }
    let mut writer = Writer {
        buffer: reply,
        length: 0,
    };
    // A word is told whole, however many of its outputs have changed.
    Control::whole(row).write_line(&mut writer, b"GA", module.label(), value);
    Ok([writer.length])
}

/// The item with this number, from 0.
fn nth<T>(mut items: impl Iterator<Item = T>, number: u64) -> Option<T> {
    items.nth(usize::try_from(number).ok()?)
}

/// Whether a module's changes are told that no line has made.
fn is_told(module: &Module) -> bool {
    module.label().starts_with(b"#")
}
