//! A lent slice with guards on both sides.

const GUARD: usize = 8;

#[derive(Clone, PartialEq)]
pub struct Lent<T> {
    cells: Vec<T>,
    guard: T,
}

impl<T: Copy + PartialEq> Lent<T> {
    pub fn new(content: &[T], guard: T) -> Lent<T> {
        let mut cells = Vec::with_capacity(content.len() + 2 * GUARD);
        cells.resize(GUARD, guard);
        cells.extend_from_slice(content);
        cells.resize(content.len() + 2 * GUARD, guard);
        Lent { cells, guard }
    }

    pub fn lend(&mut self) -> &mut [T] {
        let end = self.cells.len() - GUARD;
        &mut self.cells[GUARD..end]
    }

    /// The same as a block of its size.
    ///
    /// # Panics
    ///
    /// Where it is of another size.
    pub fn block<const SIZE: usize>(&mut self) -> &mut [T; SIZE] {
        self.lend().try_into().expect("the block has its size")
    }

    pub fn view(&self) -> &[T] {
        &self.cells[GUARD..self.cells.len() - GUARD]
    }

    /// Whether nothing was written beside the slice.
    pub fn guarded(&self) -> bool {
        let (before, rest) = self.cells.split_at(GUARD);
        let after = &rest[rest.len() - GUARD..];
        before.iter().chain(after).all(|&cell| cell == self.guard)
    }
}
