use crate::Index;

/// What the number of a parameter means.
#[derive(Clone, Copy, Debug, PartialEq, Eq)]
#[non_exhaustive]
pub enum Kind {
    /// Tenths of a dB.
    Level,
    /// 0 off, 1 on.
    Switch,
    /// A plain whole number.
    Number,
    /// A mixer's routing word: a bit for each output, output 1 the highest.
    Word,
}

/// One parameter of a module type, as the core has it.
#[derive(Clone, Copy, Debug, PartialEq, Eq)]
#[non_exhaustive]
pub struct Row {
    /// How a line names it.
    pub index: Index,
    /// What its number means.
    pub kind: Kind,
    /// The least value; of a word 0.
    pub low: i64,
    /// The greatest value; of a word all outputs.
    pub high: i64,
    /// A value's distance from low is a multiple of it.
    pub step: i64,
    /// Whether a line may set it.
    pub settable: bool,
}

impl Row {
    /// Whether a value may stand in this row.
    ///
    /// ```
    /// use egrivundo::Type;
    ///
    /// let row = Type::RoomCombiner.rows()[1];
    /// assert_eq!((row.low, row.high, row.step), (-605, 120, 5));
    /// assert!(row.permits(-30) && !row.permits(-32) && !row.permits(125));
    /// ```
    #[must_use]
    pub fn permits(&self, value: i64) -> bool {
        (self.low..=self.high).contains(&value) && (value - self.low) % self.step == 0
    }
}

/// The bit of an output in a routing word.
///
/// ```
/// assert_eq!(egrivundo::bit(1), 0x8000_0000);
/// assert_eq!(egrivundo::bit(32), 1);
/// ```
///
/// # Panics
///
/// On an output that is not from 1 to 32.
#[must_use]
pub fn bit(output: u16) -> i64 {
    assert!((1..=32).contains(&output), "outputs are from 1 to 32");
    1 << (32 - output)
}
