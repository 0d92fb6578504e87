//! The table call and the log call.

use super::{Compare, Difference};
use crate::lent::Lent;
use crate::rng::Rng;

impl Compare<'_> {
    pub fn table(&mut self, table: &[u8]) -> Result<u8, Difference> {
        let left = (self.left.table)(table);
        let right = (self.right.table)(table);
        self.tally.count("table", &right.to_string());
        ensure!(
            left == right,
            "table: answers {left} and {right}\n  table {}",
            table.escape_ascii()
        );
        Ok(right)
    }

    pub fn log(&mut self, rng: &mut Rng, table: &[u8], line: &[u8]) -> Result<(), Difference> {
        let mut left = Lent::new(&[rng.next(), rng.next(), rng.next()], 99);
        let mut right = left.clone();
        (self.left.log)(table, line, left.block());
        (self.right.log)(table, line, right.block());
        self.tally.count("log", &right.view()[0].to_string());
        let inputs = || {
            format!(
                "\n  line {}\n  table {}",
                line.escape_ascii(),
                table.escape_ascii()
            )
        };
        ensure!(
            left.view() == right.view(),
            "log: told {:?} and {:?}{}",
            left.view(),
            right.view(),
            inputs()
        );
        ensure!(
            left.guarded() && right.guarded(),
            "log: wrote beside told{}",
            inputs()
        );
        let whole = match right.view()[0] {
            0 => line,
            1 => table,
            other => return Err(format!("log: a part of {other}{}", inputs())),
        };
        let part = &right.view()[1..];
        ensure!(
            part[0]
                .checked_add(part[1])
                .is_some_and(|end| end <= whole.len() as u64),
            "log: a part {part:?} that is not there{}",
            inputs()
        );
        Ok(())
    }
}
