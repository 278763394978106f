//! What is lent to a call, and what it must be afterwards.

use crate::fence::{Fenced, Plain};
use std::ops::Range;

/// Words or bytes between guard pages, a part of them lent, with a copy of what all of them must be.
pub struct Lent<T: Plain> {
    fence: Fenced<T>,
    expected: Vec<T>,
    /// The part that is lent.
    part: Range<usize>,
}

impl<T: Plain + PartialEq> Lent<T> {
    /// Room for `most` elements, all lent, and all `value`.
    pub fn new(most: usize, value: T) -> Lent<T> {
        let mut fence = Fenced::new(most);
        fence.all().fill(value);
        let expected = fence.all().to_vec();
        Lent { fence, expected, part: 0..most }
    }

    /// From now on lends this many elements beside one of the guard pages, with what is there.
    pub fn set_part(&mut self, count: usize, at_the_end: bool) -> &mut Lent<T> {
        let start = if at_the_end { self.expected.len() - count } else { 0 };
        self.part = start..start + count;
        self
    }

    /// Moves the lent elements to the other guard page.
    pub fn move_over(&mut self) {
        let values = self.expected().to_vec();
        self.set_part(values.len(), self.part.start == 0);
        self.write(0, &values);
    }

    /// What a call is lent.
    pub fn lent(&mut self) -> &mut [T] {
        &mut self.fence.all()[self.part.clone()]
    }

    /// What the lent elements must be.
    pub fn expected(&self) -> &[T] {
        &self.expected[self.part.clone()]
    }

    /// What a call is to leave.
    pub fn expect(&mut self) -> &mut [T] {
        &mut self.expected[self.part.clone()]
    }

    /// Writes lent elements before a call.
    pub fn write(&mut self, start: usize, values: &[T]) {
        self.lent()[start..][..values.len()].copy_from_slice(values);
        self.accept(start..start + values.len());
    }

    /// Writes all elements before a call.
    pub fn fill_with(&mut self, value: impl FnMut() -> T) {
        self.fence.all().fill_with(value);
        self.expected.copy_from_slice(self.fence.all());
    }

    /// Takes what a call left in some of the lent elements as what they must be.
    pub fn accept(&mut self, places: Range<usize>) {
        let start = self.part.start;
        let places = start + places.start..start + places.end;
        assert!(places.end <= self.part.end, "more than was lent");
        self.expected[places.clone()].copy_from_slice(&self.fence.all()[places]);
    }

    /// Takes what a call left in all of the lent elements as what they must be.
    pub fn accept_all(&mut self) {
        self.accept(0..self.part.len());
    }

    /// Holds every element against what it must be, also those that were not lent.
    #[track_caller]
    pub fn check(&mut self, name: &str) {
        assert!(self.fence.all() == self.expected, "the {name} is not what it must be");
    }
}

/// Bytes beside a guard page that a call only reads, with a copy of them.
pub struct Given {
    fence: Fenced<u8>,
    bytes: Vec<u8>,
    at_the_end: bool,
}

impl Given {
    pub fn new(most: usize) -> Given {
        Given { fence: Fenced::new(most), bytes: Vec::new(), at_the_end: false }
    }

    /// Gives other bytes.
    pub fn set(&mut self, bytes: Vec<u8>, at_the_end: bool) {
        self.bytes = bytes;
        self.at_the_end = at_the_end;
        self.fence.lend(self.bytes.len(), at_the_end).copy_from_slice(&self.bytes);
    }

    /// What a call is lent.
    pub fn lent(&mut self) -> &[u8] {
        self.fence.lend(self.bytes.len(), self.at_the_end)
    }

    /// The bytes as they were given.
    pub fn bytes(&self) -> &[u8] {
        &self.bytes
    }

    /// Holds every byte against what it was.
    #[track_caller]
    pub fn check(&mut self, name: &str) {
        let lent = self.fence.lend(self.bytes.len(), self.at_the_end);
        assert!(lent == self.bytes, "the {name} is not what it was");
    }
}

#[cfg(test)]
mod tests {
    use super::*;
    use std::panic::{catch_unwind, AssertUnwindSafe};

    fn is_kept(lent: &mut Lent<u64>) -> bool {
        catch_unwind(AssertUnwindSafe(|| lent.check("list"))).is_ok()
    }

    #[test]
    fn a_changed_element_is_seen_wherever_it_is() {
        let mut lent = Lent::new(10, 7);
        for place in 0..10 {
            lent.lent()[place] = 8;
            assert!(!is_kept(&mut lent));
            lent.write(place, &[9]);
            assert!(is_kept(&mut lent));
        }
        lent.set_part(3, true);
        lent.lent()[2] = 1;
        lent.set_part(3, false);
        lent.accept_all();
        assert!(!is_kept(&mut lent), "it was not among the lent ones");
    }

    #[test]
    fn what_is_lent_moves_with_its_place() {
        let mut lent = Lent::new(10, 0);
        lent.write(4, &[5, 6]);
        lent.move_over();
        assert_eq!(lent.lent()[4..6], [5, 6]);
        lent.expect()[0] = 1;
        assert!(!is_kept(&mut lent));
        lent.lent()[0] = 1;
        lent.move_over();
        assert_eq!(lent.expected()[..5], [1, 0, 0, 0, 5]);
        assert!(is_kept(&mut lent));
    }
}
