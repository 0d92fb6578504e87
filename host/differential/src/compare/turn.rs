//! A turn over a row of connections.

use super::port::same_port;
use super::row::{RowSide, Rows};
use super::written::{Output, Written};
use super::{changed, number, short, Compare, Difference, Fed};
use crate::lent::Lent;
use crate::rng::Rng;
use cores::Calls;

/// What a turn is given beside room, row and reply buffer.
pub struct Waiting<'a> {
    pub last: u64,
    pub given: &'a [u8],
    pub counts: &'a [u64],
}

impl Compare<'_> {
    /// One turn on both, with so many bytes for the reply: the refusal, or
    /// whom it served and what the port call did, if it served anyone.
    pub fn turn(
        &mut self,
        rng: &mut Rng,
        table: &[u8],
        rows: &mut Rows,
        waiting: &Waiting,
        room: usize,
    ) -> Result<Result<Option<(usize, Fed)>, u8>, Difference> {
        let old = rows.clone();
        let mut written = Written::new(rng, room, 6);
        let call = |core: &Calls, side: &mut RowSide, output: &mut Output| {
            (core.turn)(
                table,
                side.values.lend(),
                side.row.lend(),
                waiting.last,
                waiting.given,
                waiting.counts,
                output.buffer.lend(),
                output.told.block(),
            )
        };
        let answers = (
            call(self.left, &mut rows.left, &mut written.left),
            call(self.right, &mut rows.right, &mut written.right),
        );
        self.tally.count("turn", number(answers.1));
        let judged = judge(answers, waiting, &old, rows, &written);
        let judged = judged.and_then(|served| {
            if let Some((number, _)) = &served {
                self.as_port(table, waiting, *number, &old, rows, &written)?;
            }
            Ok(served)
        });
        let served = judged.map_err(|what| {
            format!(
                "turn: {what}\n  last {}, counts {:?}\n  given {}\n  {}\n  reply buffer {room}\n  \
                 values {}\n  table {}\n  answers {answers:?}, told {:?} and {:?}\n  \
                 replies {} and {}\n  rows after: {}\n  and {}",
                waiting.last,
                waiting.counts,
                waiting.given.escape_ascii(),
                old.right,
                short(old.right.values.view()),
                table.escape_ascii(),
                written.left.told.view(),
                written.right.told.view(),
                written.left.buffer.view().escape_ascii(),
                written.right.buffer.view().escape_ascii(),
                rows.left,
                rows.right,
            )
        })?;
        if answers.1 != 0 {
            return Ok(Err(answers.1));
        }
        let told = served
            .as_ref()
            .map_or("nobody", |(_, fed)| match fed.reply[..] {
                [] => "unfinished",
                _ => "line",
            });
        self.tally.note("served", told);
        Ok(Ok(served))
    }

    /// A turn that serves a connection is a port call of the second core on
    /// that connection's part.
    fn as_port(
        &self,
        table: &[u8],
        waiting: &Waiting,
        number: usize,
        old: &Rows,
        new: &Rows,
        written: &Written,
    ) -> Result<(), Difference> {
        let mut values = old.right.values.view().to_vec();
        let mut port = old.right.port(number);
        let mut buffer = written.untouched();
        let mut told = [0; 4];
        let answer = (self.right.port)(
            table,
            &mut values,
            &mut port,
            waiting.part(number),
            &mut buffer,
            &mut told,
        );
        ensure!(answer == 0, "the port call is refused with {answer}");
        ensure!(
            told == written.right.told.view()[2..],
            "not the port call's counts"
        );
        ensure!(
            values == new.right.values.view(),
            "not the port call's values"
        );
        ensure!(
            buffer == written.right.buffer.view(),
            "not the port call's reply"
        );
        ensure!(
            same_port(&port, &new.right.port(number)),
            "not the port call's port"
        );
        Ok(())
    }
}

impl Waiting<'_> {
    /// A connection's own bytes, where the counts are right.
    fn part(&self, number: usize) -> &[u8] {
        let start: u64 = self.counts[..number].iter().sum();
        &self.given[start as usize..][..self.counts[number] as usize]
    }

    /// How many are looked at before this one.
    fn ahead(&self, number: usize) -> usize {
        (number + 31 - self.last as usize) % 32
    }
}

/// What both calls did, where nothing is wrong with it.
fn judge(
    answers: (u8, u8),
    waiting: &Waiting,
    old: &Rows,
    new: &Rows,
    written: &Written,
) -> Result<Option<(usize, Fed)>, Difference> {
    written.same(answers, "reply buffers")?;
    let (left, right) = (&new.left, &new.right);
    ensure!(left.values.view() == right.values.view(), "values differ");
    ensure!(
        left.guarded() && right.guarded() && written.guarded(),
        "wrote beside a lent slice"
    );
    if answers.1 != 0 {
        written.refused()?;
        ensure!(old == new, "a refusal changed something");
        return Ok(None);
    }
    let counts: &Lent<u64> = &written.right.told;
    let [served, number, consumed, length, cause, _] = written.counts();
    let waits = |number: usize| old.right.is_open(number) && waiting.counts[number] > 0;
    if served == 0 {
        ensure!(counts.view() == [0; 6], "counts of nobody");
        ensure!(written.ends_by(0), "nobody served, and a reply written");
        ensure!(old == new, "nobody served, and something changed");
        ensure!(!(0..32).any(waits), "one that waits is not served");
        return Ok(None);
    }
    ensure!(served == 1 && number < 32, "no connection");
    ensure!(waits(number), "one is served that does not wait");
    let before = |other: &usize| waiting.ahead(*other) < waiting.ahead(number);
    ensure!(
        !(0..32).filter(before).any(waits),
        "another was next in the round"
    );
    new.only(number, old)?;
    ensure!(
        right.flag(number) == 1,
        "the one served is not stored as open"
    );
    let part = waiting.part(number);
    let end = part.iter().position(|&byte| byte == b'\r');
    ensure!(
        consumed == end.map_or(part.len(), |end| end + 1),
        "consumed"
    );
    ensure!(written.ends_by(length), "wrote past the reply");
    let overrun = right.port(number)[1];
    ensure!(overrun <= 1, "an overrun byte over 1 is stored");
    ensure!(
        changed(old.right.values.view(), right.values.view()) <= 1,
        "more than one value changed"
    );
    let reply = written.right.buffer.view()[..length].to_vec();
    let fed = Fed {
        consumed,
        reply,
        cause,
    };
    Ok(Some((number, fed)))
}
