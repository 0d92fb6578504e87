//! A row of connections with a queue of bytes for each.

use super::Room;

pub const BYTES: usize = 32 * 67;

pub struct Panels {
    pub row: Vec<u8>,
    pub last: u64,
    pub queues: [Vec<u8>; 32],
}

/// Whom an accepted turn served, the bytes consumed and the reply; or the
/// refusal.
pub type Served = Result<Option<(usize, usize, Vec<u8>)>, u8>;

impl Panels {
    /// The fresh row.
    pub fn new() -> Panels {
        Panels {
            row: vec![0; BYTES],
            last: 31,
            queues: [const { Vec::new() }; 32],
        }
    }

    /// A row in which these are open.
    pub fn with(open: impl IntoIterator<Item = usize>) -> Panels {
        let mut panels = Panels::new();
        for number in open {
            assert_eq!(panels.open(number as u64), 0);
        }
        panels
    }

    /// The 67 bytes of a connection.
    pub fn at(&mut self, number: usize) -> &mut [u8] {
        &mut self.row[67 * number..][..67]
    }

    /// The held bytes of a connection that has not overrun.
    pub fn held(&mut self, number: usize) -> &[u8] {
        let connection = self.at(number);
        assert_eq!(connection[2], 0);
        let end = 3 + usize::from(connection[1]);
        &connection[3..end]
    }

    pub fn open(&mut self, number: u64) -> u8 {
        switch(&mut self.row, number, reference::open)
    }

    pub fn close(&mut self, number: u64) -> u8 {
        switch(&mut self.row, number, reference::close)
    }

    pub fn counts(&self) -> Vec<u64> {
        self.queues.iter().map(|queue| queue.len() as u64).collect()
    }

    /// A turn over the queues. The last served and the queue of the one served
    /// move on.
    pub fn turn(&mut self, room: &mut Room) -> Served {
        let given = self.queues.concat();
        let served = self.turn_of(room, &given, &self.counts(), 64);
        if let Ok(Some((number, consumed, _))) = served {
            self.last = number as u64;
            self.queues[number].drain(..consumed);
        }
        served
    }

    /// A turn over these bytes, with so many for the reply.
    pub fn turn_of(
        &mut self,
        room: &mut Room,
        given: &[u8],
        counts: &[u64],
        buffer: usize,
    ) -> Served {
        let before = (self.row.clone(), room.values.clone());
        let mut reply = vec![0xEE; buffer];
        let mut told = [9; 6];
        let answer = reference::turn(
            &room.table,
            &mut room.values,
            &mut self.row,
            self.last,
            given,
            counts,
            &mut reply,
            &mut told,
        );
        let [served, number, consumed, length, cause, place] = told.map(|number| number as usize);
        room.fault = [cause as u64, place as u64];
        if answer != 0 || served == 0 {
            assert_eq!(told, [0; 6]);
            assert_eq!((&self.row, &room.values), (&before.0, &before.1));
            assert!(reply.iter().all(|&byte| byte == 0xEE));
            return if answer == 0 { Ok(None) } else { Err(answer) };
        }
        assert!(served == 1 && number < 32);
        // The others are as they were, to the byte.
        let own = 67 * number..67 * number + 67;
        assert_eq!(self.row[..own.start], before.0[..own.start]);
        assert_eq!(self.row[own.end..], before.0[own.end..]);
        assert_eq!(self.row[own.start], 1);
        let (written, rest) = reply.split_at(length);
        assert!(rest.iter().all(|&byte| byte == 0xEE));
        Ok(Some((number, consumed, written.to_vec())))
    }
}

/// Opens or closes. A refusal changes nothing, and nothing else changes.
fn switch(row: &mut [u8], number: u64, call: fn(&mut [u8], u64) -> u8) -> u8 {
    let before = row.to_vec();
    let answer = call(row, number);
    if answer != 0 {
        assert_eq!(row, before);
        return answer;
    }
    let own = 67 * number as usize;
    assert_eq!(row[own + 1..own + 3], [0, 0]);
    assert_eq!(row[..own], before[..own]);
    assert_eq!(row[own + 67..], before[own + 67..]);
    answer
}
