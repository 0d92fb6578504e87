//! Changes at a wall panel.

use super::room_for_reply;
use crate::compare::{Compare, Difference, Sides, USUAL};
use crate::rng::Rng;
use crate::rooms;

/// Turns some knobs, one after the other.
pub fn turn(
    rng: &mut Rng,
    compare: &mut Compare,
    room: &rooms::Room,
    values: &[i64],
) -> Result<(), Difference> {
    let mut sides = Sides::new(values, &[0; 66]);
    for _ in 0..1 + rng.below(6) {
        turn_one(rng, compare, room, &mut sides)?;
    }
    Ok(())
}

/// Turns one knob. What is told of it must be what a get line is answered,
/// where lines reach the module.
pub fn turn_one(
    rng: &mut Rng,
    compare: &mut Compare,
    room: &rooms::Room,
    sides: &mut Sides,
) -> Result<(), Difference> {
    let knob = rooms::knob(rng, room, sides.values());
    let length = room_for_reply(rng);
    let notice = compare.panel(rng, &room.table, sides, knob, length)?;
    let notice = notice.filter(|notice| !notice.is_empty());
    if let Some(notice) = notice.filter(|_| rng.once_in(4)) {
        let mut after = Sides::new(sides.values(), &[0; 66]);
        let end = notice.iter().rposition(|&byte| byte == b'=');
        let line = [&notice[..end.unwrap_or(0)], b"\r"].concat();
        let fed = compare.port(rng, &room.table, &mut after, &line, USUAL)?;
        let reply = fed.map(|fed| fed.reply).unwrap_or_default();
        if reply != notice && reply != b"\x1501\r" {
            let told = notice.escape_ascii();
            let reply = reply.escape_ascii();
            return Err(format!("panel: told {told}, and a get line is {reply}"));
        }
        compare.tally.asked += 1;
    }
    Ok(())
}
