//! The restore list: its size, and the list itself.

use super::catalogue::Row;
use super::control::Control;
use super::table::{Module, Table};
use super::text::{Count, Sink, Writer};
use super::Refusal;

/// Tells the bytes and lines of the shortest list.
pub fn size(
    table: &[u8],
    present: &[i64],
    selection: &[u8],
    wanted: &[i64],
) -> Result<[usize; 2], Refusal> {
    let wish = Wish::new(table, present, selection, wanted)?;
    Ok(wish.measure())
}

/// Writes the shortest list and tells its bytes and lines.
pub fn write(
    table: &[u8],
    present: &[i64],
    selection: &[u8],
    wanted: &[i64],
    list: &mut [u8],
) -> Result<[usize; 2], Refusal> {
    let wish = Wish::new(table, present, selection, wanted)?;
    let [bytes, _] = wish.measure();
    if bytes > list.len() {
        return Err(8);
    }
    let mut writer = Writer {
        buffer: list,
        length: 0,
    };
    let lines = wish.put(&mut writer);
    Ok([writer.length, lines])
}

/// A wish that lines can fulfil.
#[derive(Clone, Copy)]
struct Wish<'a> {
    table: Table<'a>,
    present: &'a [i64],
    selection: &'a [u8],
    wanted: &'a [i64],
}

impl<'a> Wish<'a> {
    /// The tests that both calls make.
    fn new(
        table: &'a [u8],
        present: &'a [i64],
        selection: &'a [u8],
        wanted: &'a [i64],
    ) -> Result<Wish<'a>, Refusal> {
        let table = Table::new(table).ok_or(1u8)?;
        if !table.takes(present) {
            return Err(2);
        }
        if selection.len() != table.count() || selection.iter().any(|&byte| byte > 1) {
            return Err(5);
        }
        if wanted.len() != present.len() {
            return Err(6);
        }
        let wish = Wish {
            table,
            present,
            selection,
            wanted,
        };
        if !wish.chosen().all(|module| wish.permitted(module)) {
            return Err(6);
        }
        if wish.chosen().any(|module| wish.beyond_reach(module)) {
            return Err(7);
        }
        Ok(wish)
    }

    /// The chosen modules in table order.
    fn chosen(self) -> impl Iterator<Item = Module<'a>> {
        self.table
            .modules()
            .zip(self.selection)
            .filter(|&(_, &byte)| byte == 1)
            .map(|(module, _)| module)
    }

    /// Whether a module's wanted values are permitted.
    fn permitted(self, module: Module) -> bool {
        let wanted = &self.wanted[module.start..];
        module.layout.pass(wanted).is_some()
    }

    /// The rows of a module that differ.
    fn changes(self, module: Module) -> impl Iterator<Item = Change> + 'a {
        let mut start = module.start;
        module.layout.parts().into_iter().flat_map(move |rows| {
            let places = start..start + rows.len();
            start = places.end;
            let values = self.present[places.clone()]
                .iter()
                .zip(&self.wanted[places]);
            rows.iter()
                .zip(values)
                .filter(|(_, (present, wanted))| present != wanted)
                .map(|(row, (&present, &wanted))| Change {
                    row,
                    present,
                    wanted,
                })
        })
    }

    /// Whether a change of this module cannot be made by a line.
    fn beyond_reach(self, module: Module) -> bool {
        let any = self.changes(module).next().is_some();
        let read_only = self.changes(module).any(|change| !change.row.settable);
        read_only || (any && self.table.bearer(module.label()).is_none())
    }

    /// The bytes and lines of the list.
    fn measure(self) -> [usize; 2] {
        let mut count = Count(0);
        let lines = self.put(&mut count);
        [count.0, lines]
    }

    /// Puts down a line for each change, and tells how many.
    fn put(self, sink: &mut impl Sink) -> usize {
        let mut lines = 0;
        for module in self.chosen() {
            let label = module.label();
            self.changes(module).for_each(|change| {
                let control = Control::of_change(change.row, change.present, change.wanted);
                control.write_line(sink, b"SA", label, change.wanted);
                lines += 1;
            });
        }
        lines
    }
}

/// A parameter that differs.
struct Change {
    row: &'static Row,
    present: i64,
    wanted: i64,
}
