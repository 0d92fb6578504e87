//! Changes at a wall panel.

use super::Room;
use crate::{calls, Refusal, Reply};

impl Room {
    /// Sets one value as a knob on the wall does, without a line. Where the
    /// module's label begins with `#` and the value did change, the reply is
    /// what a get line would be answered, to be sent to whoever listens; else
    /// it is empty.
    ///
    /// Module and row are given by their numbers, from 0, and not by label and
    /// index: a knob also turns modules that share a label, which no line
    /// reaches. [`Type::find`] tells the row of an index. A routing word is set
    /// as a whole.
    ///
    /// Refused with [`Refusal::Row`] where there is no such module or row,
    /// where the row is read-only, also for its present value, and where it
    /// does not permit the value.
    ///
    /// [`Type::find`]: crate::Type::find
    ///
    /// ```
    /// use egrivundo::{Index, Refusal, Room, Type};
    ///
    /// let mut room = Room::new(&[
    ///     (Type::SmartBass, "Subwoofer"),
    ///     (Type::ToneControlEq, "#Hall"),
    /// ])?;
    /// let (row, _) = Type::ToneControlEq.find(Index::One(3)).unwrap();
    /// assert_eq!(room.panel(1, row, -40)?.bytes(), b"GA\"#Hall\">3=-4\r");
    /// assert_eq!(room.values(), [0, 0, 0, -40, 0, 0, 0]);
    ///
    /// // The value did not change; the label has no `#`.
    /// assert!(room.panel(1, row, -40)?.is_empty());
    /// assert!(room.panel(0, 0, 1)?.is_empty());
    ///
    /// assert_eq!(room.panel(1, row, 151), Err(Refusal::Row));
    /// # Ok::<(), Refusal>(())
    /// ```
    pub fn panel(&mut self, module: usize, row: usize, value: i64) -> Result<Reply, Refusal> {
        let mut reply = Reply::empty();
        let mut told = [0];
        Refusal::check(calls::panel(
            &self.table,
            &mut self.values,
            module as u64,
            row as u64,
            value,
            &mut reply.buffer,
            &mut told,
        ))?;
        reply.length = told[0] as usize;
        Ok(reply)
    }
}
