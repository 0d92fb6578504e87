//! Wrong tables and lists of values.

use super::{record, spoiled, Room};
use crate::rng::Rng;
use reference::catalogue::Row;

/// Spoils a room's table in one of many ways; a few of them leave it sound.
pub fn spoil_table(rng: &mut Rng, room: &mut Room) {
    let records: Vec<Vec<u8>> = room
        .modules
        .iter()
        .map(|(layout, label)| record(*layout, label))
        .collect();
    let table = &mut room.table;
    if records.is_empty() || rng.once_in(10) {
        let added = 1 + rng.below(40);
        table.extend((0..added).map(|_| rng.byte()));
        return;
    }
    match rng.below(8) {
        0 => table.truncate(table.len() - 1 - rng.below(table.len().min(35))),
        1 => *table = repeated(&records, 65),
        2 => *table = repeated(&records, 66 + rng.below(3)),
        3 => {
            table.remove(rng.below(table.len()));
        }
        4 => {
            let place = rng.below(table.len());
            table[place] = rng.byte();
        }
        _ => {
            let number = rng.below(records.len());
            let start = records[..number].iter().flatten().count();
            let mut spoiled = records[number].clone();
            spoil_record(rng, &mut spoiled);
            table.splice(start..start + records[number].len(), spoiled);
        }
    }
}

/// Spoils a record: its kind, its label or its sizes.
fn spoil_record(rng: &mut Rng, record: &mut Vec<u8>) {
    let zero = record[1..33].iter().position(|&byte| byte == 0);
    let length = zero.unwrap_or(32);
    match rng.below(10) {
        0 => record[0] = rng.pick(&[0, 8, 255, 0x11, 0x81]),
        1 => record[0] = rng.pick(&[1, 6, 7]),
        2 if length < 31 => record[2 + length + rng.below(31 - length)] = b'A',
        3 => record[1 + rng.below(length)] = b'"',
        4 => record[1 + rng.below(length)] = rng.pick(&[0x1F, 0x7F, 0x80, 0xFF, 0x0D]),
        5 => record[1] = 0,
        6 => record[1..33].fill(0),
        // Of a mixer these are its sizes, wrong or exchanged or left out; any
        // other record gets bytes that it should not have.
        7 if record.len() > 33 => record.swap(33, 34),
        8 if record.len() > 33 => record.truncate(33),
        7 | 8 => record.extend([1, 1]),
        _ => match record.get_mut(33 + rng.below(2)) {
            Some(size) => *size = rng.pick(&[0, 33, 255, 34, 64, 128]),
            None => record[0] = 7,
        },
    }
}

/// The records again and again, up to a count.
fn repeated(records: &[Vec<u8>], count: usize) -> Vec<u8> {
    let repeated = records.iter().cycle().take(count);
    repeated.flatten().copied().collect()
}

/// Spoils a list of values: its length, or an entry.
pub fn spoil_values(rng: &mut Rng, room: &Room, values: &mut Vec<i64>) {
    if values.is_empty() || rng.once_in(4) {
        match rng.below(4) {
            0 => values.clear(),
            1 => {
                values.pop();
            }
            2 => values.push(0),
            _ => values.extend([0; 40]),
        }
        return;
    }
    for _ in 0..1 + rng.below(2) {
        let mut place = rng.below(values.len());
        if rng.once_in(2) {
            // The read-only rows are few, but they are judged as well.
            let fixed = |&place: &usize| all_rows(room).nth(place).is_some_and(|row| !row.settable);
            place = (place..values.len()).find(fixed).unwrap_or(place);
            place = (place + rng.below(6)).min(values.len() - 1);
        }
        let row = all_rows(room).nth(place).expect("one row for each value");
        values[place] = spoiled(rng, row, values[place]);
    }
}

/// The rows of all modules, in value order.
fn all_rows(room: &Room) -> impl Iterator<Item = &'static Row> + '_ {
    room.modules.iter().flat_map(|(layout, _)| layout.rows())
}
