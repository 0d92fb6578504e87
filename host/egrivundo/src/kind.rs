use std::fmt;

use crate::{rows, Index, Kind, Row};

/// The module types, a mixer with its size.
#[derive(Clone, Copy, Debug, PartialEq, Eq)]
#[non_exhaustive]
pub enum Type {
    /// Tone Control EQ: levels at 1, 3, 5, switches at 2, 4, 6.
    ToneControlEq,
    /// SmartBass: one switch.
    SmartBass,
    /// Dynamic EQ: one switch.
    DynamicEq,
    /// Standard Room Combiner: 1>1 to 1>7.
    RoomCombiner,
    /// Conference Room Router: 0>1 to 0>8 (read-only), 1>1 to 1>9, 2>1 to 2>18.
    ConferenceRouter,
    /// Predictive Feedback Suppression: 0>2 and 1>1.
    FeedbackSuppression,
    /// Standard Mixer: level and mute of each input at 1>1, 1>2 and so on, of
    /// each output at 2>1, 2>2 and so on, and the routing word of each input at
    /// 3>1 and so on. A line sets one output of a word at 4>(input,output).
    StandardMixer {
        /// From 1 to 32.
        inputs: u8,
        /// From 1 to 32.
        outputs: u8,
    },
}

/// Bytes of a label's field.
const FIELD: usize = 32;

impl Type {
    /// Those whose rows are fixed, by their number.
    pub const FIXED: [Type; 6] = [
        Type::ToneControlEq,
        Type::SmartBass,
        Type::DynamicEq,
        Type::RoomCombiner,
        Type::ConferenceRouter,
        Type::FeedbackSuppression,
    ];

    /// The record's kind byte.
    #[must_use]
    pub fn number(self) -> u8 {
        match self {
            Type::ToneControlEq => 1,
            Type::SmartBass => 2,
            Type::DynamicEq => 3,
            Type::RoomCombiner => 4,
            Type::ConferenceRouter => 5,
            Type::FeedbackSuppression => 6,
            Type::StandardMixer { .. } => 7,
        }
    }

    /// The type's name.
    #[must_use]
    pub fn name(self) -> &'static str {
        match self {
            Type::ToneControlEq => "Tone Control EQ",
            Type::SmartBass => "SmartBass",
            Type::DynamicEq => "Dynamic EQ",
            Type::RoomCombiner => "Standard Room Combiner",
            Type::ConferenceRouter => "Conference Room Router",
            Type::FeedbackSuppression => "Predictive Feedback Suppression",
            Type::StandardMixer { .. } => "Standard Mixer",
        }
    }

    /// The record of a module with this label; none where no record could hold
    /// it. What else is wrong with label or size the archive tells.
    ///
    /// ```
    /// use egrivundo::Type;
    ///
    /// let desk = Type::StandardMixer { inputs: 8, outputs: 4 };
    /// let record = desk.record("Desk").unwrap();
    /// assert_eq!(record.len(), 35);
    /// assert_eq!(record[..5], *b"\x07Desk");
    /// assert_eq!(record[33..], [8, 4]);
    /// assert_eq!(Type::SmartBass.record("S").unwrap().len(), 33);
    /// assert_eq!(Type::SmartBass.record(&"x".repeat(33)), None);
    /// ```
    #[must_use]
    pub fn record(self, label: &str) -> Option<Vec<u8>> {
        // A zero byte would be taken for the label's end.
        if label.len() > FIELD || label.contains('\0') {
            return None;
        }
        let mut record = vec![self.number()];
        record.extend_from_slice(label.as_bytes());
        record.resize(1 + FIELD, 0);
        if let Type::StandardMixer { inputs, outputs } = self {
            record.extend([inputs, outputs]);
        }
        Some(record)
    }

    /// Type, label and record of the first module of a sound table.
    pub(crate) fn first(table: &[u8]) -> Option<(Type, &[u8], &[u8])> {
        let kind = match *table.first()? {
            7 => Type::StandardMixer {
                inputs: table[33],
                outputs: table[34],
            },
            number => Type::FIXED[usize::from(number) - 1],
        };
        let field = &table[1..1 + FIELD];
        let zero = field.iter().position(|&byte| byte == 0);
        let length = match kind {
            Type::StandardMixer { .. } => 35,
            _ => 33,
        };
        Some((kind, &field[..zero.unwrap_or(FIELD)], &table[..length]))
    }

    /// The values that a module starts with, row by row: 0 where it is
    /// permitted, else the row's low. A mixer of a size that there is not has
    /// none.
    ///
    /// ```
    /// use egrivundo::Type;
    ///
    /// assert_eq!(Type::FeedbackSuppression.start(), [0, 1]);
    /// assert_eq!(Type::ConferenceRouter.start().len(), 33);
    /// let desk = Type::StandardMixer { inputs: 8, outputs: 4 };
    /// assert_eq!(desk.start(), [0; 32]);
    /// ```
    #[must_use]
    pub fn start(self) -> Vec<i64> {
        rows::starts(&self.alone()).unwrap_or_default()
    }

    /// The rows of a module, in the order of its values. A mixer of a size that
    /// there is not has none.
    ///
    /// ```
    /// use egrivundo::{Kind, Type};
    ///
    /// let rows = Type::FeedbackSuppression.rows();
    /// assert_eq!(rows[0].index.to_string(), "0>2");
    /// assert_eq!(rows[0].kind, Kind::Switch);
    /// assert_eq!((rows[1].low, rows[1].high), (1, 43_200));
    /// assert!(!Type::ConferenceRouter.rows()[0].settable);
    /// let desk = Type::StandardMixer { inputs: 8, outputs: 33 };
    /// assert!(desk.rows().is_empty());
    /// ```
    #[must_use]
    pub fn rows(self) -> Vec<Row> {
        let table = self.alone();
        (0..).map_while(|row| rows::row(&table, 0, row)).collect()
    }

    /// The number of the row that an index names, and the output where it
    /// names one output of a word.
    ///
    /// ```
    /// use egrivundo::{Index, Type};
    ///
    /// let desk = Type::StandardMixer { inputs: 2, outputs: 3 };
    /// assert_eq!(desk.find(Index::Two(3, 1)), Some((10, None)));
    /// let last = Index::Crosspoint { input: 2, output: 3 };
    /// assert_eq!(desk.find(last), Some((11, Some(3))));
    /// assert_eq!(desk.find(Index::One(3)), None);
    /// ```
    #[must_use]
    pub fn find(self, index: Index) -> Option<(usize, Option<u16>)> {
        let (sought, output) = match index {
            Index::Crosspoint { input, output } => (Index::Two(3, input), Some(output)),
            whole => (whole, None),
        };
        let has = |row: &Row| match output {
            None => true,
            Some(output) => {
                row.kind == Kind::Word
                    && (1..=32).contains(&output)
                    && row.permits(crate::bit(output))
            }
        };
        let rows = self.rows();
        let number = rows
            .iter()
            .position(|row| row.index == sought && has(row))?;
        Some((number, output))
    }

    /// A table of one such module.
    fn alone(self) -> Vec<u8> {
        self.record("x").expect("a short label")
    }
}

/// The name, a mixer's with its size: `Standard Mixer 8x4`.
impl fmt::Display for Type {
    fn fmt(&self, out: &mut fmt::Formatter) -> fmt::Result {
        let name = self.name();
        match self {
            Type::StandardMixer { inputs, outputs } => {
                out.pad(&format!("{name} {inputs}x{outputs}"))
            }
            _ => out.pad(name),
        }
    }
}
