//! Rows, and the fifty of the six module types whose rows are fixed.

/// What the number of a parameter means.
#[derive(Clone, Copy, Debug, PartialEq, Eq)]
pub enum Kind {
    /// Tenths of a dB.
    Level,
    /// 0 off, 1 on.
    Switch,
    /// A plain whole number.
    Number,
    /// A mixer's routing word: a bit for each output.
    Word,
}

/// Index 1, and index 2 where the row has one.
pub type Index = (u16, Option<u16>);

/// One parameter of a module type.
#[derive(Clone, Copy, Debug, PartialEq, Eq)]
pub struct Row {
    pub index: Index,
    pub kind: Kind,
    pub low: i64,
    pub high: i64,
    pub step: u32,
    pub settable: bool,
}

impl Row {
    /// Whether a value may stand in this row.
    pub fn permits(&self, value: i64) -> bool {
        if value < self.low || self.high < value {
            return false;
        }
        match self.kind {
            // The highest word has the bits of all outputs.
            Kind::Word => value & !self.high == 0,
            // In range, the distance from low is below 2^32.
            _ => self.step == 1 || ((value - self.low) as u32).is_multiple_of(self.step),
        }
    }

    /// The value that a program starts with: 0 if it may, else low.
    pub fn start(&self) -> i64 {
        if self.permits(0) {
            0
        } else {
            self.low
        }
    }
}

/// The rows of a kind, where they are fixed; else none.
pub fn rows(kind: u8) -> &'static [Row] {
    match kind {
        1 => &TONE,
        2 => &BASS,
        3 => &DYNAMIC,
        4 => &COMBINER,
        5 => &ROUTER,
        6 => &SUPPRESSOR,
        _ => &[],
    }
}

const fn one(index1: u16) -> Index {
    (index1, None)
}

pub(super) const fn two(index1: u16, index2: u16) -> Index {
    (index1, Some(index2))
}

pub(super) const fn row(index: Index, kind: Kind, low: i64, high: i64, step: u32) -> Row {
    Row {
        index,
        kind,
        low,
        high,
        step,
        settable: true,
    }
}

pub(super) const fn switch(index: Index) -> Row {
    row(index, Kind::Switch, 0, 1, 1)
}

const fn number(index: Index, low: i64, high: i64) -> Row {
    row(index, Kind::Number, low, high, 1)
}

const fn tone(index: Index) -> Row {
    row(index, Kind::Level, -150, 150, 1)
}

pub(super) const fn fader(index: Index) -> Row {
    row(index, Kind::Level, -605, 120, 5)
}

const fn read_only(row: Row) -> Row {
    Row {
        settable: false,
        ..row
    }
}

static TONE: [Row; 6] = [
    tone(one(1)),
    switch(one(2)),
    tone(one(3)),
    switch(one(4)),
    tone(one(5)),
    switch(one(6)),
];

static BASS: [Row; 1] = [switch(one(1))];

static DYNAMIC: [Row; 1] = [switch(one(1))];

static COMBINER: [Row; 7] = [
    number(two(1, 1), 0, 9),
    fader(two(1, 2)),
    switch(two(1, 3)),
    fader(two(1, 4)),
    switch(two(1, 5)),
    fader(two(1, 6)),
    switch(two(1, 7)),
];

static ROUTER: [Row; 33] = [
    read_only(number(two(0, 1), 0, 8)),
    read_only(number(two(0, 2), 0, 32)),
    read_only(number(two(0, 3), 0, 16)),
    read_only(switch(two(0, 4))),
    read_only(number(two(0, 5), 0, 6)),
    read_only(row(two(0, 8), Kind::Level, -60, -30, 10)),
    fader(two(1, 1)),
    switch(two(1, 2)),
    fader(two(1, 3)),
    switch(two(1, 4)),
    fader(two(1, 5)),
    switch(two(1, 6)),
    fader(two(1, 7)),
    switch(two(1, 8)),
    number(two(1, 9), 1, 6),
    fader(two(2, 1)),
    switch(two(2, 2)),
    fader(two(2, 3)),
    switch(two(2, 4)),
    fader(two(2, 5)),
    switch(two(2, 6)),
    fader(two(2, 7)),
    switch(two(2, 8)),
    fader(two(2, 9)),
    switch(two(2, 10)),
    fader(two(2, 11)),
    switch(two(2, 12)),
    fader(two(2, 13)),
    switch(two(2, 14)),
    fader(two(2, 15)),
    switch(two(2, 16)),
    fader(two(2, 17)),
    switch(two(2, 18)),
];

static SUPPRESSOR: [Row; 2] = [switch(two(0, 2)), number(two(1, 1), 1, 43200)];
