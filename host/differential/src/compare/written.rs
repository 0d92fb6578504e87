//! What a call writes beside values and port.

use super::Difference;
use crate::lent::Lent;
use crate::rng::Rng;

/// The outputs of both sides, filled with one number before the call.
pub struct Written {
    filler: u8,
    pub left: Output,
    pub right: Output,
}

#[derive(Clone)]
pub struct Output {
    /// The reply or the list.
    pub buffer: Lent<u8>,
    pub told: Lent<u64>,
}

impl Written {
    /// For a buffer of so many bytes, and so many told numbers.
    pub fn new(rng: &mut Rng, room: usize, told: usize) -> Written {
        let filler = rng.byte();
        let output = Output {
            buffer: Lent::new(&vec![filler; room], 0x5A),
            told: Lent::new(&vec![u64::from(filler); told], 99),
        };
        Written {
            filler,
            left: output.clone(),
            right: output,
        }
    }

    /// Answers, counts and buffers are the same on both sides.
    pub fn same(&self, answers: (u8, u8), buffers: &str) -> Result<(), Difference> {
        let (left, right) = (&self.left, &self.right);
        ensure!(answers.0 == answers.1, "answers differ");
        ensure!(left.told.view() == right.told.view(), "counts differ");
        ensure!(
            left.buffer.view() == right.buffer.view(),
            "{buffers} differ"
        );
        Ok(())
    }

    /// Nothing was written beside the outputs.
    pub fn guarded(&self) -> bool {
        let guarded = |output: &Output| output.buffer.guarded() && output.told.guarded();
        guarded(&self.left) && guarded(&self.right)
    }

    /// A refusal writes nothing but zeros for the counts.
    pub fn refused(&self) -> Result<(), Difference> {
        let told = self.right.told.view();
        ensure!(told.iter().all(|&number| number == 0), "a refusal's counts");
        ensure!(self.ends_by(0), "a refusal wrote");
        Ok(())
    }

    /// The buffer as it was before the call.
    pub fn untouched(&self) -> Vec<u8> {
        vec![self.filler; self.right.buffer.view().len()]
    }

    /// Nothing was written to the buffer from this place on.
    pub fn ends_by(&self, place: usize) -> bool {
        let rest = self.right.buffer.view().get(place..);
        rest.is_some_and(|rest| rest.iter().all(|&byte| byte == self.filler))
    }

    /// The numbers told, all of them.
    ///
    /// # Panics
    ///
    /// Where they are more or fewer.
    pub fn counts<const COUNT: usize>(&self) -> [usize; COUNT] {
        let told: [u64; COUNT] = self.right.told.view().try_into().expect("as many are told");
        told.map(|number| number as usize)
    }
}
