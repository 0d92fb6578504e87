//! The restore list of a room: its size, and the list itself.

use super::Room;
use crate::{calls, List, Refusal, Size};

impl Room {
    /// The size of the shortest list that brings the chosen modules to the
    /// wanted values and moves nothing else. `selection` has 1 for a chosen
    /// module and 0 for any other; only the wanted entries of chosen modules
    /// count. No buffer is needed for this, and [`Refusal::List`] is no answer
    /// of it.
    ///
    /// ```
    /// use egrivundo::{Refusal, Room, Size, Type};
    ///
    /// let room = Room::new(&[(Type::ToneControlEq, "T"), (Type::SmartBass, "S")])?;
    /// let size = room.restore_size(&[1, 1], &[-40, 1, 5, 0, 0, 0, 1])?;
    /// assert_eq!(size, Size { bytes: 43, lines: 4 });
    /// assert_eq!(size.to_string(), "43 bytes, 4 lines");
    /// # Ok::<(), Refusal>(())
    /// ```
    pub fn restore_size(&self, selection: &[u8], wanted: &[i64]) -> Result<Size, Refusal> {
        let mut told = [0; 2];
        Refusal::check(calls::restore_size(
            &self.table,
            &self.values,
            selection,
            wanted,
            &mut told,
        ))?;
        Ok(Size::told(told))
    }

    /// Writes that list to the start of a lent buffer. Of the same wish it is
    /// refused as [`Room::restore_size`] is; else it is refused, with
    /// [`Refusal::List`], exactly where the buffer has fewer bytes than were
    /// told, and what it tells is the same.
    ///
    /// ```
    /// # use egrivundo::{Refusal, Room, Type};
    /// let room = Room::new(&[(Type::SmartBass, "S")])?;
    /// let mut list = [0; 12];
    /// let size = room.restore_write(&[1], &[1], &mut list)?;
    /// assert_eq!(size, room.restore_size(&[1], &[1])?);
    /// assert_eq!(&list, b"SA\"S\">1=O\r\0\0");
    /// assert_eq!(room.restore_write(&[1], &[1], &mut list[..9]), Err(Refusal::List));
    /// # Ok::<(), Refusal>(())
    /// ```
    pub fn restore_write(
        &self,
        selection: &[u8],
        wanted: &[i64],
        list: &mut [u8],
    ) -> Result<Size, Refusal> {
        let mut told = [0; 2];
        Refusal::check(calls::restore_write(
            &self.table,
            &self.values,
            selection,
            wanted,
            list,
            &mut told,
        ))?;
        Ok(Size::told(told))
    }

    /// The list in a buffer of its own: asks its size, takes a buffer of that
    /// size, and writes. To be sent to the box; the room itself stays.
    ///
    /// ```
    /// use egrivundo::{Port, Refusal, Room, Type};
    ///
    /// let mut room = Room::new(&[
    ///     (Type::ToneControlEq, "T"),
    ///     (Type::SmartBass, "S"),
    /// ])?;
    /// let wanted = [-40, 1, 5, 0, 0, 0, 1];
    /// let list = room.put_back(&[1, 1], &wanted)?;
    /// assert_eq!((list.bytes().len(), list.lines()), (43, 4));
    ///
    /// let replies = room.feed_all(&mut Port::new(), list.bytes())?;
    /// assert!(replies.len() == 4 && replies.iter().all(|reply| reply.is_ack()));
    /// assert_eq!(room.values(), wanted);
    ///
    /// // One differing output of a word is said by its cross-point, more by the word.
    /// let desk = Type::StandardMixer { inputs: 2, outputs: 2 };
    /// let room = Room::new(&[(desk, "M")])?;
    /// let list = room.put_back(&[1], &[0, 0, 0, 0, 0, 0, 0, 0, 0x4000_0000, 0xC000_0000])?;
    /// assert_eq!(list.bytes(), b"SA\"M\">4>(1,2)=O\rSA\"M\">3>2=C0000000\r");
    /// # Ok::<(), Refusal>(())
    /// ```
    pub fn put_back(&self, selection: &[u8], wanted: &[i64]) -> Result<List, Refusal> {
        let size = self.restore_size(selection, wanted)?;
        let mut bytes = vec![0; size.bytes];
        let Size { lines, .. } = self.restore_write(selection, wanted, &mut bytes)?;
        Ok(List { bytes, lines })
    }
}
