//! A row of connections on two cores, and opening and closing.

use std::fmt;

use super::port::same_port;
use super::{number, Compare, Difference};
use crate::lent::Lent;

/// The row and the values of both sides.
#[derive(Clone, PartialEq)]
pub struct Rows {
    pub(super) left: RowSide,
    pub(super) right: RowSide,
}

#[derive(Clone, PartialEq)]
pub(super) struct RowSide {
    pub values: Lent<i64>,
    pub row: Lent<u8>,
}

/// Bytes of a connection.
const BYTES: usize = 67;

impl Rows {
    pub fn new(values: &[i64], row: &[u8]) -> Rows {
        let side = RowSide {
            values: Lent::new(values, 77),
            row: Lent::new(row, 0xA5),
        };
        Rows {
            left: side.clone(),
            right: side,
        }
    }

    /// The values, which are the same on both sides.
    pub fn values(&self) -> &[i64] {
        self.right.values.view()
    }

    /// The second core's row.
    pub fn row(&self) -> &[u8] {
        self.right.row.view()
    }

    pub fn is_open(&self, number: usize) -> bool {
        self.right.is_open(number)
    }

    /// Another connection in the place of one, or a cut row in the place of a
    /// whole one.
    pub fn replace(&mut self, change: impl Fn(&mut Vec<u8>)) {
        for side in [&mut self.left, &mut self.right] {
            let mut row = side.row.view().to_vec();
            change(&mut row);
            side.row = Lent::new(&row, 0xA5);
        }
    }

    /// Nothing but one connection changed, and both sides agree on it.
    pub(super) fn only(&self, number: usize, old: &Rows) -> Result<(), Difference> {
        for (old, new) in [(&old.left, &self.left), (&old.right, &self.right)] {
            let (old, new) = (old.row.view(), new.row.view());
            let own = BYTES * number..BYTES * (number + 1);
            ensure!(
                old[..own.start] == new[..own.start] && old[own.end..] == new[own.end..],
                "another connection's bytes changed"
            );
        }
        ensure!(
            self.left.flag(number) == self.right.flag(number),
            "the flags differ"
        );
        ensure!(
            same_port(&self.left.port(number), &self.right.port(number)),
            "the ports are not the same"
        );
        Ok(())
    }
}

impl RowSide {
    pub fn guarded(&self) -> bool {
        self.values.guarded() && self.row.guarded()
    }

    pub fn flag(&self, number: usize) -> u8 {
        self.row.view()[BYTES * number]
    }

    pub fn is_open(&self, number: usize) -> bool {
        self.flag(number) != 0
    }

    pub fn port(&self, number: usize) -> [u8; 66] {
        let port = &self.row.view()[BYTES * number + 1..][..66];
        port.try_into().expect("a port has its size")
    }
}

/// The connections that are not all zero.
impl fmt::Display for RowSide {
    fn fmt(&self, out: &mut fmt::Formatter) -> fmt::Result {
        let row = self.row.view();
        write!(out, "row of {} bytes", row.len())?;
        for (number, connection) in row.chunks(BYTES).enumerate() {
            if connection.iter().any(|&byte| byte != 0) {
                write!(out, "\n    {number}: {}", connection.escape_ascii())?;
            }
        }
        Ok(())
    }
}

impl Compare<'_> {
    /// Opens a connection on both, or closes it; tells whether it was done.
    pub fn switch(&mut self, rows: &mut Rows, which: u64, open: bool) -> Result<bool, Difference> {
        let old = rows.clone();
        let (name, left, right) = match open {
            true => ("open", self.left.open, self.right.open),
            false => ("close", self.left.close, self.right.close),
        };
        let answers = (
            left(rows.left.row.lend(), which),
            right(rows.right.row.lend(), which),
        );
        self.tally.count(name, number(answers.1));
        judge(answers, which, open, &old, rows).map_err(|what| {
            format!(
                "{name}: {what}\n  number {which}\n  {}\n  answers {answers:?}\n  \
                 rows after: {}\n  and {}",
                old.right, rows.left, rows.right,
            )
        })
    }
}

/// Whether both calls were accepted, where nothing is wrong with them.
fn judge(
    answers: (u8, u8),
    which: u64,
    open: bool,
    old: &Rows,
    new: &Rows,
) -> Result<bool, Difference> {
    ensure!(answers.0 == answers.1, "answers differ");
    ensure!(
        new.left.guarded() && new.right.guarded(),
        "wrote beside the row"
    );
    if answers.1 != 0 {
        ensure!(old == new, "a refusal changed something");
        return Ok(false);
    }
    ensure!(new.row().len() == 32 * BYTES && which < 32, "not refused");
    let number = which as usize;
    ensure!(old.is_open(number) != open, "open or closed already");
    new.only(number, old)?;
    ensure!(
        new.right.flag(number) == u8::from(open),
        "another flag is stored"
    );
    ensure!(
        new.right.port(number)[..2] == [0, 0],
        "the port is not fresh"
    );
    Ok(true)
}
