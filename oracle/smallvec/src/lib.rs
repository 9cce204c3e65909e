//! A stand-in for the crate `smallvec`: the stack of rpds's iterator. The real crate keeps the first few elements
//! outside the heap; here they are all in a `Vec`, which shows in the time of a short listing and nowhere else.
use std::fmt;

/// An array type, `[T; N]`: it says what the elements are, and in the real crate how many stay outside the heap.
pub trait Array {
    /// What the array holds.
    type Item;
}

impl<T, const N: usize> Array for [T; N] {
    type Item = T;
}

/// A growing list of the array's elements.
pub struct SmallVec<A: Array>(Vec<A::Item>);

impl<A: Array> SmallVec<A> {
    /// The empty list.
    #[allow(clippy::new_without_default)]
    pub fn new() -> Self {
        SmallVec(Vec::new())
    }

    /// Puts an element behind the last.
    pub fn push(&mut self, item: A::Item) {
        self.0.push(item);
    }

    /// Takes the last element.
    pub fn pop(&mut self) -> Option<A::Item> {
        self.0.pop()
    }

    /// The last element, to write to.
    pub fn last_mut(&mut self) -> Option<&mut A::Item> {
        self.0.last_mut()
    }
}

impl<A: Array> fmt::Debug for SmallVec<A>
where
    A::Item: fmt::Debug,
{
    fn fmt(&self, out: &mut fmt::Formatter<'_>) -> fmt::Result {
        self.0.fmt(out)
    }
}
