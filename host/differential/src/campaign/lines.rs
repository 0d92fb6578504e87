//! Lines on a port.

use super::{panel, room_for_reply};
use crate::compare::{Compare, Difference, Sides};
use crate::grammar;
use crate::rng::Rng;
use crate::rooms;

/// Feeds a stream of lines in pieces, with knobs turned between them now and
/// then.
pub fn feed(
    rng: &mut Rng,
    compare: &mut Compare,
    room: &rooms::Room,
    values: &[i64],
) -> Result<(), Difference> {
    let first = grammar::line(rng, room);
    let mut sides = Sides::new(values, &rooms::port(rng, &first));
    // Mostly the stream goes on where the port's line was cut.
    let held = usize::from(sides.port()[0]);
    let mut stream = match first.get(held..) {
        Some(rest) if rng.below(4) > 0 => rest.to_vec(),
        _ => first,
    };
    for _ in 0..rng.below(8) {
        stream.push(b'\r');
        if rng.once_in(20) {
            stream.push(b'\n');
        }
        if rng.once_in(25) {
            let length = rng.pick(&[64, 65, 66, 130, 300]);
            stream.extend((0..length).map(|_| rng.pick(b"GSA\"T>1= ")));
        } else {
            stream.extend(grammar::line(rng, room));
        }
    }
    if !rng.once_in(4) {
        stream.push(b'\r');
    }
    let mut rest = &stream[..];
    let whole = rng.once_in(3);
    while !rest.is_empty() {
        let length = match rng.below(4) {
            _ if whole => rest.len(),
            0 => rng.below(4),
            _ => rng.below(90),
        };
        if rng.once_in(16) {
            panel::turn_one(rng, compare, room, &mut sides)?;
        }
        let piece = &rest[..length.min(rest.len())];
        let reply = room_for_reply(rng);
        match compare.port(rng, &room.table, &mut sides, piece, reply)? {
            Some(fed) => rest = &rest[fed.consumed..],
            None => {
                if rng.once_in(3) {
                    return Ok(());
                }
                // Refused: go on with another port if this one was wrong.
                if sides.port()[0] > 64 || rng.once_in(6) {
                    let port = rooms::port(rng, rest);
                    sides.set_port(&port);
                }
            }
        }
    }
    Ok(())
}
