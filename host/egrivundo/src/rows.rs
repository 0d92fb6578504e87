//! What the core tells of a table's values and rows. All that this crate knows
//! of them comes through here.

use crate::calls;
use crate::{Index, Kind, Row};

/// How many values a sound table has.
pub fn value_count(table: &[u8]) -> Option<usize> {
    let mut told = [0];
    let answer = calls::value_count(table, &mut told);
    (answer == 0).then_some(told[0] as usize)
}

/// The values that a room of a sound table starts with.
pub fn starts(table: &[u8]) -> Option<Vec<i64>> {
    let mut values = vec![0; value_count(table)?];
    let answer = calls::starts(table, &mut values);
    (answer == 0).then_some(values)
}

/// Where the value of a module's row stands; module and row count from 0.
pub fn place(table: &[u8], module: usize, row: usize) -> Option<usize> {
    let mut told = [0];
    let answer = calls::place(table, module as u64, row as u64, &mut told);
    (answer == 0).then_some(told[0] as usize)
}

/// A module's row, both counted from 0.
///
/// # Panics
///
/// On numbers that no call tells.
pub fn row(table: &[u8], module: usize, row: usize) -> Option<Row> {
    let mut told = [0; 7];
    let answer = calls::row(table, module as u64, row as u64, &mut told);
    let [first, second, kind, low, high, step, settable] = told;
    let small = |index: i64| u16::try_from(index).expect("an index of three digits");
    (answer == 0).then(|| Row {
        index: match second {
            -1 => Index::One(small(first)),
            _ => Index::Two(small(first), small(second)),
        },
        kind: match kind {
            0 => Kind::Level,
            1 => Kind::Switch,
            2 => Kind::Number,
            3 => Kind::Word,
            _ => panic!("the archive told {kind}, which is no kind"),
        },
        low,
        high,
        step,
        settable: settable == 1,
    })
}
