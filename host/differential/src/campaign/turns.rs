//! Turns over a row of connections that open and close meanwhile.

use super::room_for_reply;
use crate::compare::{Compare, Difference, Rows, Waiting, USUAL};
use crate::grammar;
use crate::rng::Rng;
use crate::rooms;

/// A row, what waits at each connection, and who was served last.
struct Run<'a> {
    room: &'a rooms::Room,
    rows: Rows,
    queues: [Vec<u8>; 32],
    last: usize,
    /// How many accepted turns each has waited for, open.
    waited: [usize; 32],
}

/// A run of turns.
pub fn play(
    rng: &mut Rng,
    compare: &mut Compare,
    room: &rooms::Room,
    values: &[i64],
) -> Result<(), Difference> {
    let line = grammar::line(rng, room);
    let any = rng.below(32);
    let mut own = Run {
        room,
        rows: Rows::new(values, &rooms::row(rng, &line)),
        queues: [const { Vec::new() }; 32],
        last: rng.pick(&[31, 31, 0, 30, any]),
        waited: [0; 32],
    };
    let busy = rng.pick(&[1, 2, 8, 64]);
    let turns = rng.pick(&[4, 12, 24, 60]);
    let quiet = rng.once_in(4);
    for _ in 0..turns {
        if !quiet {
            own.others(rng, compare)?;
        }
        for _ in 0..busy {
            if rng.once_in(2) {
                let number = rng.below(32);
                let bytes = bytes(rng, room);
                own.queues[number].extend(bytes);
            }
        }
        if rng.once_in(6) {
            own.spoilt(rng, compare)?;
        }
        if !own.turn(rng, compare)? && rng.once_in(3) {
            return Ok(());
        }
    }
    Ok(())
}

/// What comes to a connection at once: a line, a part of one, or several.
fn bytes(rng: &mut Rng, room: &rooms::Room) -> Vec<u8> {
    let mut bytes = match rng.below(20) {
        0 => return vec![rng.pick(b"xG\"\n\r"); 250 + rng.below(20)],
        1 => return vec![b'\r'; 1 + rng.below(3)],
        2 => return vec![b'x'; 63 + rng.below(4)],
        _ => grammar::line(rng, room),
    };
    match rng.below(6) {
        0 => bytes.truncate(rng.below(bytes.len() + 1)),
        1 => {
            bytes.push(b'\r');
            bytes.extend(grammar::line(rng, room));
        }
        _ => bytes.push(b'\r'),
    }
    bytes
}

impl Run<'_> {
    /// Connections open, close, or get another port, whoever they are.
    fn others(&mut self, rng: &mut Rng, compare: &mut Compare) -> Result<(), Difference> {
        for _ in 0..rng.below(3) {
            let (number, open) = (rooms::connection(rng), rng.below(3) > 0);
            compare.switch(&mut self.rows, number, open)?;
        }
        if rng.once_in(20) {
            let at = rooms::CONNECTION * rng.below(32);
            let flag = if rng.once_in(3) { 0 } else { rooms::flag(rng) };
            let mut port = rooms::port(rng, b"GA\"T\">1");
            if !rng.once_in(8) {
                port[0] = port[0].min(64);
            }
            self.rows.replace(|row| {
                row[at] = flag;
                row[at + 1..at + rooms::CONNECTION].copy_from_slice(&port);
            });
        }
        if rng.once_in(30) {
            self.last = rng.below(32);
            self.waited = [0; 32];
        }
        Ok(())
    }

    fn counts(&self) -> Vec<u64> {
        let lengths = self.queues.iter().map(Vec::len);
        lengths.map(|length| length as u64).collect()
    }

    /// A turn with the last served as it stands; whether it was accepted. Who
    /// is open with bytes waiting 32 times over has been served.
    fn turn(&mut self, rng: &mut Rng, compare: &mut Compare) -> Result<bool, Difference> {
        let counts = self.counts();
        let waiting = Waiting {
            last: self.last as u64,
            given: &self.queues.concat(),
            counts: &counts,
        };
        let waits = |number: usize| self.rows.is_open(number) && counts[number] > 0;
        let waits: Vec<bool> = (0..32).map(waits).collect();
        let reply = room_for_reply(rng);
        let table = &self.room.table;
        let Ok(served) = compare.turn(rng, table, &mut self.rows, &waiting, reply)? else {
            // Where a claim was too high, go on with a lower one.
            self.rows.replace(|row| {
                let claims = row.iter_mut().skip(1).step_by(rooms::CONNECTION);
                claims.for_each(|claim| *claim = (*claim).min(64));
            });
            return Ok(false);
        };
        for (waited, waits) in self.waited.iter_mut().zip(waits) {
            *waited = if waits { *waited + 1 } else { 0 };
        }
        if let Some((number, fed)) = served {
            self.queues[number].drain(..fed.consumed);
            self.last = number;
            self.waited[number] = 0;
        }
        if let Some(number) = self.waited.iter().position(|&waited| waited == 32) {
            return Err(format!("turn: {number} waits for 32 turns"));
        }
        if self.waited.contains(&31) {
            compare.tally.note("waited", "31");
        }
        Ok(true)
    }

    /// A turn, or opening or closing, with something wrong, from which the run
    /// does not go on.
    fn spoilt(&self, rng: &mut Rng, compare: &mut Compare) -> Result<(), Difference> {
        let mut rows = self.rows.clone();
        let mut last = self.last as u64;
        let mut counts = self.counts();
        let mut given = self.queues.concat();
        for _ in 0..1 + rng.below(2) {
            let (one, other) = (rng.below(32), rng.below(32));
            match rng.below(12) {
                0 => last = rooms::connection(rng),
                1 => given.push(b'\r'),
                2 => {
                    given.pop();
                }
                3 => counts.resize(rng.pick(&[0, 31, 33, 64]), 0),
                4 => {
                    let length = rooms::ROW + 68;
                    let length = length - rng.pick(&[0, 1, 67, 69, 135, length]);
                    rows.replace(|row| row.resize(length, 0));
                }
                5 if counts.len() == 32 => {
                    // A byte becomes another connection's, which may be right.
                    counts[one] = counts[one].wrapping_sub(1);
                    counts[other] = counts[other].wrapping_add(1);
                }
                6 if counts.len() == 32 => {
                    let much = 1 << rng.pick(&[8, 16, 31, 32, 63]);
                    counts[one] = counts[one].wrapping_add(much);
                    counts[other] = counts[other].wrapping_sub(much);
                }
                7 if counts.len() == 32 => {
                    counts[one] = counts[one].wrapping_add(1 << rng.below(64));
                }
                8 if counts.len() == 32 => counts[one] = 0,
                9 => switch_some(rng, compare, &mut rows.clone())?,
                _ => {
                    let claim = rng.pick(&[65, 66, 127, 128, 255]);
                    rows.replace(|row| {
                        if let Some(byte) = row.get_mut(rooms::CONNECTION * one + 1) {
                            *byte = claim;
                        }
                    });
                }
            }
        }
        let waiting = Waiting {
            last,
            given: &given,
            counts: &counts,
        };
        let reply = room_for_reply(rng);
        let _ = compare.turn(rng, &self.room.table, &mut rows, &waiting, reply)?;
        switch_some(rng, compare, &mut rows)
    }
}

/// Opens and closes one.
fn switch_some(rng: &mut Rng, compare: &mut Compare, rows: &mut Rows) -> Result<(), Difference> {
    let number = rooms::connection(rng);
    for open in [rng.once_in(2), rng.once_in(2)] {
        compare.switch(rows, number, open)?;
    }
    Ok(())
}

/// Plays a list by turns that serve one connection alone, while bytes wait at
/// closed ones: the lines, whether its port is fresh, and the values.
pub fn play_list(
    rng: &mut Rng,
    compare: &mut Compare,
    table: &[u8],
    present: &[i64],
    list: &[u8],
) -> Result<(usize, bool, Vec<i64>), Difference> {
    let own = rng.below(32);
    let mut rows = Rows::new(present, &[0; rooms::ROW]);
    compare.switch(&mut rows, own as u64, true)?;
    let mut queues = [const { Vec::new() }; 32];
    queues[rng.below(32)] = b"GA\r".to_vec();
    queues[own] = list.to_vec();
    let mut last = rng.below(32) as u64;
    let mut acks = 0;
    while !queues[own].is_empty() {
        let waiting = Waiting {
            last,
            given: &queues.concat(),
            counts: &queues.each_ref().map(|queue| queue.len() as u64),
        };
        match compare.turn(rng, table, &mut rows, &waiting, USUAL)? {
            Ok(Some((number, fed))) if number == own && fed.reply == b"\x06\r" => {
                queues[own].drain(..fed.consumed);
            }
            _ => return Err("turn: no ACK for a line of a restore list".to_string()),
        }
        last = own as u64;
        acks += 1;
    }
    let port = &rows.row()[rooms::CONNECTION * own..][1..3];
    Ok((acks, port == [0, 0], rows.values().to_vec()))
}
