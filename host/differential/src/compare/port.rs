//! The port call.

use super::written::{Output, Written};
use super::{changed, form, number, short, Compare, Difference, Fed, Side, Sides};
use crate::rng::Rng;
use cores::Calls;

impl Compare<'_> {
    /// One port call on both, with so many bytes for the reply; nothing for a
    /// refusal.
    pub fn port(
        &mut self,
        rng: &mut Rng,
        table: &[u8],
        sides: &mut Sides,
        given: &[u8],
        room: usize,
    ) -> Result<Option<Fed>, Difference> {
        let old = sides.clone();
        let mut written = Written::new(rng, room, 4);
        let call = |core: &Calls, side: &mut Side, output: &mut Output| {
            (core.port)(
                table,
                side.values.lend(),
                side.port.block(),
                given,
                output.buffer.lend(),
                output.told.block(),
            )
        };
        let answers = (
            call(self.left, &mut sides.left, &mut written.left),
            call(self.right, &mut sides.right, &mut written.right),
        );
        self.tally.count("port", number(answers.1));
        let fed = judge(answers, given, &old, sides, &written).map_err(|what| {
            format!(
                "port: {what}\n  given {}\n  port {}\n  reply buffer {room}\n  values {}\n  \
                 table {}\n  answers {answers:?}, told {:?} and {:?}\n  replies {} and {}\n  \
                 ports {} and {}",
                given.escape_ascii(),
                old.port().escape_ascii(),
                short(old.values()),
                table.escape_ascii(),
                written.left.told.view(),
                written.right.told.view(),
                written.left.buffer.view().escape_ascii(),
                written.right.buffer.view().escape_ascii(),
                sides.left.port.view().escape_ascii(),
                sides.right.port.view().escape_ascii(),
            )
        })?;
        if let Some(fed) = fed.as_ref().filter(|fed| !fed.reply.is_empty()) {
            self.tally.note("reply", kind(&fed.reply));
            self.tally.note("cause", &fed.cause.to_string());
            if kind(&fed.reply) == "GA" {
                self.tally.note("told", form(&fed.reply));
            }
        }
        Ok(fed)
    }
}

/// What both calls did, where nothing is wrong with it.
fn judge(
    answers: (u8, u8),
    given: &[u8],
    old: &Sides,
    new: &Sides,
    written: &Written,
) -> Result<Option<Fed>, Difference> {
    written.same(answers, "reply buffers")?;
    let (left, right) = (&new.left, &new.right);
    ensure!(left.values.view() == right.values.view(), "values differ");
    let guarded = |side: &Side| side.values.guarded() && side.port.guarded();
    ensure!(
        guarded(left) && guarded(right) && written.guarded(),
        "wrote beside a lent slice"
    );
    if answers.1 != 0 {
        written.refused()?;
        ensure!(old == new, "a refusal changed something");
        return Ok(None);
    }
    ensure!(
        same_port(left.port.view(), right.port.view()),
        "the ports are not the same"
    );
    let end = given.iter().position(|&byte| byte == b'\r');
    let [consumed, length, cause, place] = written.counts();
    ensure!(
        consumed == end.map_or(given.len(), |end| end + 1),
        "consumed"
    );
    let reply = written.right.buffer.view();
    ensure!(
        if end.is_some() {
            (2..=64).contains(&length) && reply[length - 1] == b'\r'
        } else {
            length == 0
        },
        "reply length"
    );
    ensure!(written.ends_by(length), "wrote past the reply");
    if end.is_some() {
        ensure!(new.port()[..2] == [0, 0], "not fresh after a line");
    } else if given.is_empty() {
        ensure!(old == new, "no bytes changed something");
    } else {
        ensure!(new.port()[1] <= 1, "an overrun byte over 1 is stored");
    }
    let reply = &reply[..length];
    ensure!((cause != 0) == (reply == b"\x1599\r"), "a cause without 99");
    ensure!(cause <= 5 && place <= 64, "no cause, or no place");
    ensure!(cause != 0 || place == 0, "a place without a cause");
    let changed = changed(old.values(), new.values());
    ensure!(
        changed == 0 || (changed == 1 && reply == b"\x06\r"),
        "{changed} values changed"
    );
    Ok(Some(Fed {
        consumed,
        reply: reply.to_vec(),
        cause,
    }))
}

/// The paper's rule for ports that count as the same.
pub fn same_port(left: &[u8], right: &[u8]) -> bool {
    match (left[1] != 0, right[1] != 0) {
        (true, true) => left[0] <= 64 && right[0] <= 64,
        (false, false) => {
            let held = usize::from(left[0]);
            held <= 64 && left[0] == right[0] && left[2..2 + held] == right[2..2 + held]
        }
        _ => false,
    }
}

fn kind(reply: &[u8]) -> &'static str {
    match reply {
        b"\x06\r" => "ACK",
        b"\x1501\r" => "01",
        b"\x1502\r" => "02",
        b"\x1503\r" => "03",
        b"\x1599\r" => "99",
        [b'G', b'A', ..] => "GA",
        _ => "unknown",
    }
}
