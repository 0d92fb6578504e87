//! What turns, opening and closing are refused for, and in which order.

mod common;
use common::panels::{Panels, BYTES};
use common::{Room, ACK};

/// Everything that a turn is given.
struct Given {
    room: Room,
    panels: Panels,
    bytes: Vec<u8>,
    counts: Vec<u64>,
    buffer: usize,
}

impl Given {
    /// A get line waits at 3, or nobody waits.
    fn new(waiting: bool) -> Given {
        let mut panels = Panels::with([3, 20]);
        if waiting {
            panels.queues[3] = b"GA\"T\">1\r".to_vec();
        }
        panels.queues[4] = b"xyz".to_vec();
        Given {
            room: Room::a(),
            bytes: panels.queues.concat(),
            counts: panels.counts(),
            panels,
            buffer: 64,
        }
    }

    fn answer(&mut self) -> u8 {
        let given = (&self.bytes, &self.counts);
        let turned = self
            .panels
            .turn_of(&mut self.room, given.0, given.1, self.buffer);
        turned.err().unwrap_or(0)
    }

    /// The things that a turn is refused for, from the last tested to the
    /// first, each with its number.
    fn spoil(&mut self, wrong: usize) {
        match wrong {
            0 => self.panels.at(20)[1] = 65,
            1 => self.panels.at(31)[1] = 255,
            2 => self.buffer = 63,
            3 => self.room.values[0] = 151,
            4 => self.room.table[0] = 8,
            5 => self.panels.last = 32,
            6 => self.bytes.push(b'x'),
            7 => self.counts.push(0),
            _ => self.panels.row.push(0),
        }
    }
}

const NUMBERS: [u8; 9] = [4, 4, 3, 2, 1, 10, 10, 10, 10];

#[test]
fn order() {
    // Every set of things wrong gives the first number of 10, 1, 2, 3, 4, with
    // one waiting and with nobody.
    for (set, waiting) in (0..1 << 9).flat_map(|set| [(set, true), (set, false)]) {
        let mut given = Given::new(waiting);
        let wrong: Vec<usize> = (0..9).filter(|wrong| set >> wrong & 1 == 1).collect();
        for &wrong in &wrong {
            given.spoil(wrong);
        }
        let expected = wrong.last().map_or(0, |&wrong| NUMBERS[wrong]);
        assert_eq!(given.answer(), expected, "{wrong:?} {waiting}");
    }
}

#[test]
fn claims() {
    // 4 is over all 32 ports, open and closed, overrun or not.
    for (number, waiting) in (0..32).flat_map(|number| [(number, true), (number, false)]) {
        for (open, overrun) in [(0, 0), (0, 1), (1, 0), (1, 1), (7, 200)] {
            for (claim, expected) in [(64, 0), (65, 4), (128, 4), (255, 4)] {
                let mut given = Given::new(waiting);
                given.panels.at(number)[..3].copy_from_slice(&[open, claim, overrun]);
                assert_eq!(given.answer(), expected, "{number} {open} {claim}");
            }
        }
    }
}

#[test]
fn counts() {
    let answer = |change: &dyn Fn(&mut Given)| {
        let mut given = Given::new(true);
        change(&mut given);
        given.answer()
    };
    assert_eq!(answer(&|_| ()), 0);
    for number in 0..32 {
        assert_eq!(answer(&|given| given.counts[number] += 1), 10);
        assert_eq!(answer(&|given| given.counts[number] = u64::MAX), 10);
        // The sum is exact: neither 64 nor 32 bits of it.
        for bits in [8, 16, 32, 63] {
            assert_eq!(answer(&|given| given.counts[number] += 1 << bits), 10);
        }
    }
    assert_eq!(answer(&|given| given.counts[3] -= 1), 10);
    assert_eq!(answer(&|given| given.bytes.clear()), 10);
    // These come to the bytes' number where a sum wraps.
    let wraps = |given: &mut Given| {
        given.counts[0] = u64::MAX;
        given.counts[1] = 1;
    };
    assert_eq!(answer(&wraps), 10);
    let halves = |given: &mut Given| {
        given.counts[30] = 1 << 63;
        given.counts[31] = 1 << 63;
    };
    assert_eq!(answer(&halves), 10);
    let all = |given: &mut Given| {
        given.counts.fill(1 << 59);
        given.counts[3] += 11;
    };
    assert_eq!(answer(&all), 10);
    for length in (0..70).filter(|&length| length != 32) {
        assert_eq!(answer(&|given| given.counts.resize(length, 0)), 10);
    }
}

#[test]
fn rows_and_last() {
    for length in (0..70).chain(BYTES - 70..BYTES + 70).chain([2 * BYTES]) {
        let mut given = Given::new(true);
        given.panels.row.resize(length, 0);
        let expected = if length == BYTES { 0 } else { 10 };
        assert_eq!(given.answer(), expected);
        for number in [0, 31] {
            let mut row = vec![0; length];
            assert_eq!(reference::open(&mut row, number), expected);
            row.fill(1);
            assert_eq!(reference::close(&mut row, number), expected);
        }
    }
    let far = (5..64).flat_map(|bit| [1 << bit, (1 << bit) + 3, u64::MAX << bit]);
    for last in (0..70).chain(far).chain([u64::MAX]) {
        let mut given = Given::new(true);
        given.panels.last = last;
        let expected = if last <= 31 { 0 } else { 10 };
        assert_eq!(given.answer(), expected, "{last}");
        let mut panels = Panels::new();
        assert_eq!(panels.close(last), 10);
        assert_eq!(panels.open(last), expected);
        assert_eq!(panels.open(last), 10);
        assert_eq!(panels.close(last), expected);
        assert_eq!(panels.close(last), 10);
    }
}

#[test]
fn a_fresh_port() {
    // Whatever the port was; its claim is not looked at.
    for (flag, claim, overrun) in [(0, 5, 0), (0, 255, 1), (1, 64, 7), (2, 65, 0), (255, 0, 1)] {
        let mut panels = Panels::new();
        let mut room = Room::a();
        panels.at(9).fill(b'\r');
        panels.at(9)[..3].copy_from_slice(&[flag, claim, overrun]);
        panels.at(10)[..2].copy_from_slice(&[0, 255]);
        if flag != 0 {
            assert_eq!(panels.open(9), 10);
            assert_eq!(panels.close(9), 0);
            assert_eq!(panels.at(9)[..3], [0, 0, 0]);
        }
        assert_eq!(panels.close(9), 10);
        assert_eq!(panels.open(9), 0);
        assert_eq!(panels.at(9)[..3], [1, 0, 0]);
        assert_eq!(panels.open(9), 10);
        panels.at(10)[1] = 0;
        panels.queues[9] = b"SA\"T\">1=1\r".to_vec();
        assert_eq!(panels.turn(&mut room), Ok(Some((9, 10, ACK.to_vec()))));
    }
    // The last served stays what it was: it is no part of the row.
    let mut panels = Panels::with([0, 1]);
    panels.queues.fill(b"\r".to_vec());
    assert_eq!(panels.turn(&mut Room::a()).unwrap().unwrap().0, 0);
    assert_eq!((panels.close(0), panels.open(0)), (0, 0));
    assert_eq!(panels.turn(&mut Room::a()).unwrap().unwrap().0, 1);
}
