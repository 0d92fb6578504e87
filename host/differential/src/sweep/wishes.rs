//! Wishes: what is refused, buffers of each length, and long lists.

use super::module;
use crate::compare::{Compare, Difference, Wish};
use crate::rng::Rng;
use reference::catalogue::Row;
use reference::layout::Layout;

/// What a wish is given, to be spoilt.
struct Given {
    table: Vec<u8>,
    present: Vec<i64>,
    selection: Vec<u8>,
    wanted: Vec<i64>,
}

impl Given {
    /// A tone control, a router, two modules that share a label, and a mixer;
    /// of each of the first two and of the mixer a value shall change.
    fn right() -> Given {
        let modules = [
            module(Layout::of(1), b"T"),
            module(Layout::of(5), b"R"),
            module(Layout::of(2), b"D"),
            module(Layout::of(3), b"D"),
            module(Layout::mixer(1, 2), b"M"),
        ];
        let (tables, values): (Vec<_>, Vec<_>) = modules.into_iter().unzip();
        let present = values.concat();
        let mut wanted = present.clone();
        wanted[0] = -40;
        wanted[6 + 6] = 5;
        *wanted.last_mut().expect("a mixer's word") = 0x8000_0000;
        Given {
            table: tables.concat(),
            present,
            selection: vec![1; 5],
            wanted,
        }
    }

    fn wish(&self) -> Wish<'_> {
        Wish {
            table: &self.table,
            present: &self.present,
            selection: &self.selection,
            wanted: &self.wanted,
        }
    }
}

/// What is wrong with a wish, in the order of the refusals.
const WRONGS: [fn(&mut Given); 11] = [
    |given| given.table[0] = 8,
    |given| given.present[6 + 5] = -55,
    |given| given.present.push(0),
    |given| given.selection[1] = 2,
    |given| given.selection.push(0),
    |given| given.selection.truncate(4),
    |given| given.wanted[1] = 2,
    |given| given.wanted.push(0),
    |given| given.wanted.truncate(40),
    |given| given.wanted[6] = 1,
    |given| given.wanted[39] = 1,
];

/// Each set of wrong things, with each module chosen and with each one alone
/// left out.
pub fn refusals(compare: &mut Compare) -> Result<(), Difference> {
    let rng = &mut Rng::new(7, 7);
    for (wrong, left_out) in (0..1 << WRONGS.len()).flat_map(|n| (0..6).map(move |m| (n, m))) {
        let mut given = Given::right();
        if let Some(byte) = given.selection.get_mut(left_out) {
            *byte = 0;
        }
        for (place, spoil) in WRONGS.iter().enumerate() {
            if wrong >> place & 1 == 1 {
                spoil(&mut given);
            }
        }
        let _ = compare.restore(rng, given.wish(), &[9, 1000])?;
    }
    Ok(())
}

/// Each length of a buffer up to twice the list's and more, for each selection.
pub fn lengths(compare: &mut Compare) -> Result<(), Difference> {
    let rng = &mut Rng::new(8, 8);
    let lengths: Vec<usize> = (0..140).collect();
    for chosen in 0..1 << 5 {
        let mut given = Given::right();
        for (place, byte) in given.selection.iter_mut().enumerate() {
            *byte = chosen >> place & 1;
        }
        let _ = compare.restore(rng, given.wish(), &lengths)?;
    }
    Ok(())
}

/// All values of one module, and of as many as there may be, with labels of 32
/// bytes.
pub fn long(compare: &mut Compare) -> Result<(), Difference> {
    let rng = &mut Rng::new(9, 9);
    for (size, count) in [(2, 1), (32, 1), (2, 64), (32, 64)] {
        let layout = Layout::mixer(size, size);
        let modules = (0..count).map(|number| module(layout, format!("{number:032}").as_bytes()));
        let (tables, values): (Vec<_>, Vec<_>) = modules.unzip();
        let wish = Wish {
            table: &tables.concat(),
            present: &values.concat(),
            selection: &vec![1; count],
            wanted: &layout.rows().map(other).collect::<Vec<_>>().repeat(count),
        };
        let _ = compare.restore(rng, wish, &[])?;
    }
    Ok(())
}

/// A value that a row does not start with.
fn other(row: &Row) -> i64 {
    match row.start() == row.high {
        true => row.low,
        false => row.high,
    }
}
