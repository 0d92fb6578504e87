//! The panel call.

use super::written::{Output, Written};
use super::{form, number, short, Compare, Difference, Side, Sides};
use crate::rng::Rng;
use crate::rooms::{records, Knob};
use cores::Calls;

impl Compare<'_> {
    /// One panel change on both, with so many bytes for the notice; nothing
    /// for a refusal, and nothing in the notice where none is told.
    pub fn panel(
        &mut self,
        rng: &mut Rng,
        table: &[u8],
        sides: &mut Sides,
        knob: Knob,
        room: usize,
    ) -> Result<Option<Vec<u8>>, Difference> {
        let old = sides.clone();
        let mut written = Written::new(rng, room, 1);
        let call = |core: &Calls, side: &mut Side, output: &mut Output| {
            (core.panel)(
                table,
                side.values.lend(),
                knob.owner,
                knob.row,
                knob.value,
                output.buffer.lend(),
                output.told.block(),
            )
        };
        let answers = (
            call(self.left, &mut sides.left, &mut written.left),
            call(self.right, &mut sides.right, &mut written.right),
        );
        self.tally.count("panel", number(answers.1));
        let notice = judge(answers, table, knob, &old, sides, &written).map_err(|what| {
            format!(
                "panel: {what}\n  {knob:?}\n  reply buffer {room}\n  values {}\n  table {}\n  \
                 answers {answers:?}, told {:?} and {:?}\n  replies {} and {}\n  \
                 values {} and {}",
                short(old.values()),
                table.escape_ascii(),
                written.left.told.view(),
                written.right.told.view(),
                written.left.buffer.view().escape_ascii(),
                written.right.buffer.view().escape_ascii(),
                short(sides.left.values.view()),
                short(sides.right.values.view()),
            )
        })?;
        if let Some(notice) = &notice {
            let told = match &notice[..] {
                [] => "none",
                line => form(line),
            };
            self.tally.note("notice", told);
        }
        Ok(notice)
    }
}

/// What both calls did, where nothing is wrong with it.
fn judge(
    answers: (u8, u8),
    table: &[u8],
    knob: Knob,
    old: &Sides,
    new: &Sides,
    written: &Written,
) -> Result<Option<Vec<u8>>, Difference> {
    written.same(answers, "reply buffers")?;
    let (left, right) = (&new.left, &new.right);
    ensure!(left.values.view() == right.values.view(), "values differ");
    ensure!(
        left.values.guarded() && right.values.guarded() && written.guarded(),
        "wrote beside a lent slice"
    );
    if answers.1 != 0 {
        written.refused()?;
        ensure!(old == new, "a refusal changed something");
        return Ok(None);
    }
    let Some((place, marked)) = parameter(table, knob) else {
        return Err("what is not there was changed".to_string());
    };
    let mut expected = old.values().to_vec();
    expected[place] = knob.value;
    ensure!(
        new.values() == expected,
        "another value than the one was set"
    );
    let [length] = written.counts();
    ensure!(written.ends_by(length), "wrote past the notice");
    let notice = &written.right.buffer.view()[..length];
    let due = marked && old.values()[place] != knob.value;
    ensure!(due != notice.is_empty(), "a notice without cause, or none");
    ensure!(
        !due || (notice.starts_with(b"GA\"#") && notice.ends_with(b"\r")),
        "no answer to a get line"
    );
    ensure!(!due || form(notice) != "pair", "a word told by one output");
    Ok(Some(notice.to_vec()))
}

/// The place of a knob's value over a sound table, and whether its module's
/// label begins with `#`.
fn parameter(table: &[u8], knob: Knob) -> Option<(usize, bool)> {
    let records = records(table);
    let owner = usize::try_from(knob.owner).ok()?;
    let row = usize::try_from(knob.row).ok()?;
    let (layout, record) = records.get(owner)?;
    let before = records[..owner].iter();
    let first: usize = before.map(|(layout, _)| layout.count()).sum();
    (row < layout.count()).then(|| (first + row, record[1] == b'#'))
}
