//! Buffers with guards on both sides.

use std::fmt::Debug;

/// How many elements guard each side.
const WIDTH: usize = 32;

/// A buffer to lend, with elements on both sides that must not change.
pub struct Guarded<T> {
    elements: Vec<T>,
    guard: T,
}

impl<T: Copy + Debug + PartialEq> Guarded<T> {
    /// A buffer with these contents between guards of this value.
    pub fn new(contents: &[T], guard: T) -> Guarded<T> {
        let sides = [guard; WIDTH];
        Guarded { elements: [&sides, contents, &sides].concat(), guard }
    }

    /// The buffer between the guards.
    pub fn lent(&mut self) -> &mut [T] {
        let end = self.elements.len() - WIDTH;
        &mut self.elements[WIDTH..end]
    }

    /// What the buffer then holds; panics if a guard has changed.
    pub fn returned(self) -> Vec<T> {
        let end = self.elements.len() - WIDTH;
        let (before, rest) = self.elements.split_at(WIDTH);
        let (contents, after) = rest.split_at(end - WIDTH);
        let kept = before.iter().chain(after).all(|element| *element == self.guard);
        assert!(kept, "a byte outside a lent buffer was written: {before:?} .. {after:?}");
        contents.to_vec()
    }

    /// As [`returned`](Guarded::returned), of a buffer that was lent to be read.
    pub fn returned_unchanged(self, contents: &[T]) {
        assert_eq!(self.returned(), contents, "a buffer lent to be read was written");
    }
}
