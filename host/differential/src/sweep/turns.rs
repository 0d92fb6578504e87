//! Turns over a row of connections, opening and closing.

use super::module;
use crate::compare::{Compare, Difference, Rows, Waiting, USUAL};
use crate::rng::Rng;
use crate::rooms::{CONNECTION, ROW};
use reference::layout::Layout;

/// All that a turn takes.
#[derive(Clone)]
struct Given {
    table: Vec<u8>,
    values: Vec<i64>,
    row: Vec<u8>,
    last: u64,
    queues: [Vec<u8>; 32],
    /// Added to the counts that fit the queues.
    counted: [u64; 32],
    /// How many counts there are.
    count: usize,
    /// A byte too many waits.
    over: bool,
    reply: usize,
}

impl Given {
    /// A row in which these are open, with nothing waiting.
    fn new(open: impl IntoIterator<Item = usize>) -> Given {
        let (table, values) = module(Layout::of(2), b"S");
        let mut row = vec![0; ROW];
        for number in open {
            row[CONNECTION * number] = 1;
        }
        Given {
            table,
            values,
            row,
            last: 31,
            queues: [const { Vec::new() }; 32],
            counted: [0; 32],
            count: 32,
            over: false,
            reply: USUAL,
        }
    }

    fn waits(mut self, number: usize, bytes: &[u8]) -> Given {
        self.queues[number] = bytes.to_vec();
        self
    }

    fn at(&mut self, number: usize) -> &mut [u8] {
        &mut self.row[CONNECTION * number..][..CONNECTION]
    }

    /// One turn, and opening and closing each of some.
    fn turn(&self, compare: &mut Compare) -> Result<(), Difference> {
        let mut given = self.queues.concat();
        given.extend(self.over.then_some(b'\r'));
        let counts = self.queues.iter().zip(self.counted);
        let counts = counts.map(|(queue, more)| (queue.len() as u64).wrapping_add(more));
        let mut counts: Vec<u64> = counts.collect();
        counts.resize(self.count, 0);
        let waiting = Waiting {
            last: self.last,
            given: &given,
            counts: &counts,
        };
        let mut rows = Rows::new(&self.values, &self.row);
        let rng = &mut Rng::new(7, 7);
        let _ = compare.turn(rng, &self.table, &mut rows, &waiting, self.reply)?;
        Ok(())
    }

    /// Opening and closing one.
    fn switch(&self, compare: &mut Compare, number: u64) -> Result<(), Difference> {
        for first in [true, false] {
            let mut rows = Rows::new(&self.values, &self.row);
            for open in [first, !first, first, first] {
                compare.switch(&mut rows, number, open)?;
            }
        }
        Ok(())
    }
}

const GET: &[u8] = b"GA\"S\">1\r";

/// Every set of things wrong that a turn is refused for, with one waiting, with
/// nobody, and with no bytes at all.
pub fn refusals(compare: &mut Compare) -> Result<(), Difference> {
    let nothing = Given::new([3, 20]);
    let nobody = nothing.clone().waits(4, b"xyz");
    let one = nobody.clone().waits(3, GET);
    for (right, set) in [nothing, nobody, one]
        .iter()
        .flat_map(|given| (0..1 << 10).map(move |set| (given, set)))
    {
        let mut given = right.clone();
        for wrong in (0..10).filter(|wrong| set >> wrong & 1 == 1) {
            match wrong {
                0 => given.at(3)[1] = 65,
                1 => given.at(20)[1] = 66,
                2 => given.at(31)[1] = 255,
                3 => given.reply = 63,
                4 => given.values[0] = 2,
                5 => given.table[0] = 8,
                6 => given.last = 32,
                7 => given.over = true,
                8 => given.count = 33,
                _ => given.row.push(0),
            }
        }
        given.turn(compare)?;
    }
    for length in (0..140).chain(ROW - 140..ROW + 140) {
        let mut given = Given::new([3]).waits(3, GET);
        given.row.resize(length, 1);
        given.turn(compare)?;
        given.switch(compare, 0)?;
        given.switch(compare, 31)?;
    }
    for count in 0..100 {
        let mut given = Given::new([3]).waits(3, GET);
        given.count = count;
        given.turn(compare)?;
        given.count = 32;
        given.reply = count;
        given.turn(compare)?;
    }
    Ok(())
}

/// Each last served with nobody waiting, each alone, each with some other, all,
/// and all with one of them closed.
pub fn rounds(compare: &mut Compare) -> Result<(), Difference> {
    for last in 0..32 {
        let all = (0..32).fold(Given::new(0..32), |given, n| given.waits(n, GET));
        let others = [5, 31, last as usize];
        Given {
            last,
            ..Given::new(0..32)
        }
        .turn(compare)?;
        for first in 0..32 {
            let alone = Given::new(0..32).waits(first, GET);
            let mut given = Given::new((0..32).filter(|&n| n != first));
            given.queues = all.queues.clone();
            let pairs = others.map(|other| Given::new(0..32).waits(first, GET).waits(other, b"x"));
            for given in pairs.into_iter().chain([alone, given, all.clone()]) {
                Given { last, ..given }.turn(compare)?;
            }
        }
    }
    Ok(())
}

/// Numbers of connections and last served: small ones, and such as would do if
/// they were cut to some width.
pub fn numbers(compare: &mut Compare) -> Result<(), Difference> {
    let far = (5..64).flat_map(|bit| (0..3).map(move |number| (1 << bit) + number));
    let far: Vec<u64> = far.flat_map(|number| [number, !number]).collect();
    for number in (0..70).chain(far).chain([u64::MAX]) {
        let mut given = Given::new([0, 3, 31]).waits(3, GET).waits(0, b"x");
        given.last = number;
        given.turn(compare)?;
        given.switch(compare, number)?;
    }
    Ok(())
}

/// Counts around the right ones, such as come to them where a sum is cut to
/// some width, and parts of lengths at which a count is.
pub fn counts(compare: &mut Compare) -> Result<(), Difference> {
    let right = Given::new([3, 9])
        .waits(3, GET)
        .waits(4, b"ab")
        .waits(9, b"\r");
    for one in 0..32 {
        for more in [1, u64::MAX, 1 << 8, 1 << 16, 1 << 32, 1 << 63, u64::MAX - 3] {
            let mut given = right.clone();
            given.counted[one] = more;
            given.turn(compare)?;
            // Some of these divide the bytes in another way.
            for other in [0, 3, 4, 9, 31] {
                let mut given = given.clone();
                given.counted[other] = given.counted[other].wrapping_sub(more);
                given.turn(compare)?;
            }
        }
    }
    let mut given = right.clone();
    given.counted = [1 << 59; 32];
    given.turn(compare)?;
    for length in [63, 64, 65, 255, 256, 257, 511, 512, 65_535, 65_536, 65_537] {
        for (number, byte) in [3, 4, 9].into_iter().flat_map(|n| [(n, b'x'), (n, b'\r')]) {
            let given = right.clone().waits(number, &vec![byte; length]);
            given.turn(compare)?;
            Given { last: 3, ..given }.turn(compare)?;
        }
    }
    Ok(())
}

/// Each flag byte, open or closed; each claim and some overrun bytes at each
/// connection, with one waiting, with that one waiting, and with nobody.
pub fn bytes(compare: &mut Compare) -> Result<(), Difference> {
    for (number, flag) in (0..32).flat_map(|number| (0..=255).map(move |flag| (number, flag))) {
        if flag > 3 && flag < 250 && number != 5 {
            continue;
        }
        let mut given = Given::new([0, 6]).waits(number, GET);
        given.at(number).fill(b'\r');
        given.at(number)[..3].copy_from_slice(&[flag, 3, 0]);
        given.turn(compare)?;
        given.switch(compare, number as u64)?;
    }
    for number in 0..32 {
        for (claim, overrun) in [0, 1, 63, 64, 65, 66, 128, 255]
            .into_iter()
            .flat_map(|claim| [(claim, 0), (claim, 1), (claim, 200)])
        {
            for flag in [0, 1, 2] {
                let mut nobody = Given::new([8]);
                nobody.at(number)[..3].copy_from_slice(&[flag, claim, overrun]);
                nobody.switch(compare, number as u64)?;
                nobody.turn(compare)?;
                nobody.clone().waits(8, GET).turn(compare)?;
                nobody.waits(number, b"xy").turn(compare)?;
            }
        }
    }
    Ok(())
}
