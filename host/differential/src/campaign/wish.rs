//! A wish, the size of its restore list, the list, and the list played.

use super::turns;
use crate::compare::{Compare, Difference, Sides, Wish, USUAL};
use crate::rng::Rng;
use crate::rooms;

/// Asks for a list's size and for the list, with buffers around its length,
/// and plays it.
pub fn ask(
    rng: &mut Rng,
    compare: &mut Compare,
    room: &rooms::Room,
    present: &[i64],
) -> Result<(), Difference> {
    let selection = rooms::selection(rng, room);
    let wanted = rooms::wanted(rng, room, present, &selection);
    let wish = Wish {
        table: &room.table,
        present,
        selection: &selection,
        wanted: &wanted,
    };
    // No list is longer than this.
    let longest = present.len() * 51;
    let other = match rng.below(6) {
        0 => rng.below(100),
        1 => rng.below(longest + 1),
        _ => longest + rng.below(3),
    };
    let Ok((list, count)) = compare.restore(rng, wish, &[other])? else {
        return Ok(());
    };
    // A long list on a large room is played only now and then.
    if count * present.len() > 20_000 && !rng.once_in(20) {
        return Ok(());
    }
    let expected = fulfilled(&room.table, present, &selection, &wanted);
    let (acks, fresh, values) = match rng.once_in(4) {
        true => turns::play_list(rng, compare, &room.table, present, &list)?,
        false => {
            let mut sides = Sides::new(present, &[0; 66]);
            let acks = play(rng, compare, &room.table, &mut sides, &list)?;
            (acks, sides.port()[..2] == [0, 0], sides.values().to_vec())
        }
    };
    if acks != count || !fresh || values != expected {
        return Err(format!(
            "restore: the list does not fulfil the wish: {}",
            list.escape_ascii()
        ));
    }
    compare.tally.played += 1;
    Ok(())
}

/// Feeds a list until it is consumed, and counts its lines.
fn play(
    rng: &mut Rng,
    compare: &mut Compare,
    table: &[u8],
    sides: &mut Sides,
    list: &[u8],
) -> Result<usize, Difference> {
    let mut rest = list;
    let mut acks = 0;
    while !rest.is_empty() {
        let fed = compare.port(rng, table, sides, rest, USUAL)?;
        let Some(fed) = fed else {
            return Err("restore: the port refused the list".to_string());
        };
        if fed.reply != b"\x06\r" {
            let line = rest[..fed.consumed].escape_ascii();
            return Err(format!("restore: no ACK for the line {line}"));
        }
        acks += 1;
        rest = &rest[fed.consumed..];
    }
    Ok(acks)
}

/// The values after the wish: wanted for chosen modules, else present.
fn fulfilled(table: &[u8], present: &[i64], selection: &[u8], wanted: &[i64]) -> Vec<i64> {
    let mut expected = present.to_vec();
    let mut start = 0;
    for ((layout, _), chosen) in rooms::records(table).iter().zip(selection) {
        let end = start + layout.count();
        if *chosen == 1 {
            expected[start..end].copy_from_slice(&wanted[start..end]);
        }
        start = end;
    }
    expected
}
