//! Wishes by label and index.

use std::convert::Infallible;

use crate::{bit, Index, List, Module, Refusal, Room, Size};

mod error;
mod reach;

pub use error::WishError;
pub use reach::{Beyond, Why};

/// What shall be put back: chosen modules of a room, and the values that they
/// shall have. A value that is not set stays as it is.
///
/// ```
/// use egrivundo::{Port, Room, Type, Wish};
///
/// let mut room = Room::new(&[(Type::ToneControlEq, "Commentary"), (Type::SmartBass, "Bass")])?;
/// let list = Wish::from_present(&room)
///     .set("Commentary", "1", -40)?
///     .set("Commentary", 3, 5)?
///     .list()?;
/// assert_eq!(list.bytes(), b"SA\"Commentary\">1=-4\rSA\"Commentary\">3=0.5\r");
///
/// let replies = room.feed_all(&mut Port::new(), list.bytes())?;
/// assert!(replies.iter().all(|reply| reply.is_ack()));
///
/// let wrong = Wish::from_present(&room).set("Commentary", "1", 151).unwrap_err();
/// assert_eq!(wrong.to_string(), "1 of \"Commentary\" cannot be 151: it is from -150 to 150");
/// # Ok::<(), Box<dyn std::error::Error>>(())
/// ```
#[derive(Clone, Debug, PartialEq, Eq)]
#[must_use = "a wish does nothing until its list is asked for and sent"]
pub struct Wish<'a> {
    room: &'a Room,
    selection: Vec<u8>,
    wanted: Vec<i64>,
}

impl<'a> Wish<'a> {
    /// The wish that chooses no module.
    pub fn from_present(room: &'a Room) -> Wish<'a> {
        Wish {
            room,
            selection: vec![0; room.modules().count()],
            wanted: room.values().to_vec(),
        }
    }

    /// Chooses the module that bears a label, and sets one of its parameters.
    /// The value is as in [`Module::values`], of a cross-point 0 or 1.
    pub fn set<I>(self, label: &str, index: I, value: i64) -> Result<Wish<'a>, WishError>
    where
        I: TryInto<Index>,
        WishError: From<I::Error>,
    {
        let number = bearer(self.room, label)?;
        self.set_at(number, index, value)
    }

    /// As [`Wish::set`], of the module with this number, from 0.
    pub fn set_at<I>(mut self, number: usize, index: I, value: i64) -> Result<Wish<'a>, WishError>
    where
        I: TryInto<Index>,
        WishError: From<I::Error>,
    {
        let index = index.try_into()?;
        self = self.choose_at(number)?;
        let module = self.module(number);
        let label = || String::from_utf8_lossy(module.label).into_owned();
        let Some((row, output)) = module.kind.find(index) else {
            return Err(WishError::NoRow {
                label: label(),
                index,
            });
        };
        let limits = module.kind.rows()[row];
        let place = module.start + row;
        let wanted = match (output, value) {
            (Some(output), 1) => self.wanted[place] | bit(output),
            (Some(output), 0) => self.wanted[place] & !bit(output),
            _ => value,
        };
        let crosspoint_fits = output.is_none() || value == 0 || value == 1;
        if !crosspoint_fits || !limits.permits(wanted) {
            return Err(WishError::Value {
                label: label(),
                index,
                value,
                row: limits,
            });
        }
        self.wanted[place] = wanted;
        Ok(self)
    }

    /// Chooses the module that bears a label; its values stay until they are
    /// set.
    pub fn choose(self, label: &str) -> Result<Wish<'a>, WishError> {
        let number = bearer(self.room, label)?;
        self.choose_at(number)
    }

    /// As [`Wish::choose`], of the module with this number, from 0.
    pub fn choose_at(mut self, number: usize) -> Result<Wish<'a>, WishError> {
        let modules = self.selection.len();
        match self.selection.get_mut(number) {
            Some(byte) => *byte = 1,
            None => return Err(WishError::NoNumber { number, modules }),
        }
        Ok(self)
    }

    /// Chooses the module that bears a label, with the values that it has in
    /// another room, as it was saved.
    ///
    /// ```
    /// use egrivundo::{Room, Type, Wish};
    ///
    /// let room = Room::new(&[(Type::SmartBass, "Bass"), (Type::DynamicEq, "Loudness")])?;
    /// let mut then = Room::new(&[(Type::SmartBass, "Bass")])?;
    /// assert!(then.line(b"SA\"Bass\">1=O")?.is_ack());
    /// let list = Wish::from_present(&room).as_in(&then, "Bass")?.list()?;
    /// assert_eq!(list.bytes(), b"SA\"Bass\">1=O\r");
    /// # Ok::<(), Box<dyn std::error::Error>>(())
    /// ```
    pub fn as_in(self, then: &Room, label: &str) -> Result<Wish<'a>, WishError> {
        let number = bearer(self.room, label)?;
        let saved = then
            .modules()
            .nth(bearer(then, label).map_err(WishError::in_saved)?);
        let saved = saved.expect("a module of the room");
        let mut wish = self.choose_at(number)?;
        let module = wish.module(number);
        if module.kind != saved.kind {
            return Err(WishError::OtherType {
                label: label.to_string(),
                present: module.kind,
                saved: saved.kind,
            });
        }
        wish.wanted[module.start..][..saved.values.len()].copy_from_slice(saved.values);
        Ok(wish)
    }

    /// The size of the shortest list that fulfils the wish, for which no buffer
    /// is taken. Refused as the list is.
    ///
    /// ```
    /// use egrivundo::{Room, Type, Wish};
    ///
    /// let room = Room::new(&[(Type::SmartBass, "Bass")])?;
    /// let wish = Wish::from_present(&room).set("Bass", 1, 1)?;
    /// assert_eq!(wish.size()?.to_string(), "13 bytes, 1 line");
    /// # Ok::<(), Box<dyn std::error::Error>>(())
    /// ```
    pub fn size(&self) -> Result<Size, Refusal> {
        self.room.restore_size(&self.selection, &self.wanted)
    }

    /// The shortest list that fulfils the wish and moves nothing else.
    ///
    /// Refused with [`Refusal::Reach`] where [`Wish::beyond_reach`] is not
    /// empty.
    pub fn list(&self) -> Result<List, Refusal> {
        self.room.put_back(&self.selection, &self.wanted)
    }

    /// One byte for each module: 1 for a chosen one.
    #[must_use]
    pub fn selection(&self) -> &[u8] {
        &self.selection
    }

    /// The wanted values, of modules that are not chosen the present ones.
    #[must_use]
    pub fn wanted(&self) -> &[i64] {
        &self.wanted
    }

    fn module(&self, number: usize) -> Module<'a> {
        let found = self.room.modules().nth(number);
        found.expect("a module of the room")
    }
}

/// The number of the one module that bears a label.
fn bearer(room: &Room, label: &str) -> Result<usize, WishError> {
    let named = |module: &Module| module.label == label.as_bytes();
    let modules = room.modules().enumerate();
    let bearers: Vec<usize> = modules.filter(|(_, m)| named(m)).map(|(n, _)| n).collect();
    match bearers[..] {
        [number] => Ok(number),
        [] => Err(WishError::NoModule {
            label: label.to_string(),
            saved: false,
        }),
        _ => Err(WishError::Shared {
            label: label.to_string(),
            bearers: bearers.len(),
            saved: false,
        }),
    }
}

impl From<Infallible> for WishError {
    fn from(never: Infallible) -> WishError {
        match never {}
    }
}
