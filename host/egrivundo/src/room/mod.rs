use crate::{calls, rows, Port, Refusal, Type};

mod feed;
mod panel;
mod restore;

pub use feed::Fed;

/// A sound table with permitted values.
#[derive(Clone, Debug, PartialEq, Eq)]
pub struct Room {
    table: Vec<u8>,
    values: Vec<i64>,
    /// Where the values of each module start.
    starts: Vec<usize>,
}

/// One module of a room.
#[derive(Clone, Copy, Debug, PartialEq, Eq)]
pub struct Module<'a> {
    /// Its type.
    pub kind: Type,
    /// Its label.
    pub label: &'a [u8],
    /// The place of its first value.
    pub start: usize,
    /// Its values, row by row: levels in tenths of a dB, switches 0 or 1,
    /// numbers as they are, routing words with output 1 as bit 31.
    pub values: &'a [i64],
}

impl Room {
    /// The most bytes of a table.
    pub const TABLE: usize = 2_240;
    /// The most values.
    pub const VALUES: usize = 10_240;

    /// A room of modules with the values that they start with.
    ///
    /// ```
    /// use egrivundo::{Refusal, Room, Type};
    ///
    /// let room = Room::new(&[(Type::FeedbackSuppression, "Microphones")])?;
    /// assert_eq!(room.values(), [0, 1]);
    ///
    /// let quoted = Room::new(&[(Type::SmartBass, "a \" in it")]);
    /// assert_eq!(quoted, Err(Refusal::Table));
    ///
    /// let size = |inputs, outputs| Type::StandardMixer { inputs, outputs };
    /// assert_eq!(Room::new(&[(size(32, 32), "Desk")])?.values().len(), 160);
    /// assert_eq!(Room::new(&[(size(32, 33), "Desk")]), Err(Refusal::Table));
    /// # Ok::<(), Refusal>(())
    /// ```
    pub fn new(modules: &[(Type, &str)]) -> Result<Room, Refusal> {
        let mut table = Vec::new();
        for (kind, label) in modules {
            table.extend(kind.record(label).ok_or(Refusal::Table)?);
        }
        let values = rows::starts(&table).ok_or(Refusal::Table)?;
        Room::from_parts(table, values)
    }

    /// A room of a table's bytes and a list of values; tells 1 or 2.
    ///
    /// ```
    /// use egrivundo::{Refusal, Room};
    ///
    /// let mut table = vec![0; 33];
    /// table[..2].copy_from_slice(&[2, b'S']);
    /// assert!(Room::from_parts(table.clone(), vec![1]).is_ok());
    /// assert_eq!(Room::from_parts(table.clone(), vec![2]), Err(Refusal::Values));
    /// table.pop();
    /// assert_eq!(Room::from_parts(table, vec![1]), Err(Refusal::Table));
    /// ```
    pub fn from_parts(table: Vec<u8>, values: Vec<i64>) -> Result<Room, Refusal> {
        let starts = (0..)
            .map_while(|module| rows::place(&table, module, 0))
            .collect();
        let mut room = Room {
            table,
            values,
            starts,
        };
        // Zero bytes given change nothing, and are refused as any others.
        let _ = room.feed(&mut Port::new(), &[])?;
        Ok(room)
    }

    /// The table's bytes.
    pub fn table(&self) -> &[u8] {
        &self.table
    }

    /// The values, module by module, row by row.
    pub fn values(&self) -> &[i64] {
        &self.values
    }

    /// Table and values, for a call that changes values.
    pub(crate) fn lend(&mut self) -> (&[u8], &mut [i64]) {
        (&self.table, &mut self.values)
    }

    /// The modules in table order.
    pub fn modules(&self) -> impl Iterator<Item = Module<'_>> {
        let mut rest = &self.table[..];
        let ends = self.starts.iter().skip(1).copied();
        let ends = ends.chain([self.values.len()]);
        self.starts
            .iter()
            .zip(ends)
            .map_while(move |(&start, end)| {
                let (kind, label, record) = Type::first(rest)?;
                rest = &rest[record.len()..];
                Some(Module {
                    kind,
                    label,
                    start,
                    values: &self.values[start..end],
                })
            })
    }

    /// The label that a line means, for a log: as it stands in the table
    /// where exactly one module bears it, else as it stands in the line.
    ///
    /// ```
    /// # use egrivundo::{Room, Type};
    /// let room = Room::new(&[(Type::SmartBass, "S")])?;
    /// assert_eq!(room.log(b"SA\"S\">1=O"), b"S");
    /// assert_eq!(room.log(b"SA\"Other\">1=O"), b"Other");
    /// assert_eq!(room.log(b"SA"), b"");
    /// # Ok::<(), egrivundo::Refusal>(())
    /// ```
    pub fn log<'a>(&'a self, line: &'a [u8]) -> &'a [u8] {
        let mut told = [0; 3];
        calls::log(&self.table, line, &mut told);
        let [in_table, start, length] = told.map(|number| number as usize);
        let whole = if in_table == 1 { &self.table } else { line };
        &whole[start..start + length]
    }
}
