//! A stand-in for the crate `archery`: the part of it that rpds's `HashTrieMap` and `List` use, over `std::rc::Rc`.
//!
//! The real crate lets a structure choose between `Rc` and `Arc`. The oracle runs on one thread, so both kinds are an
//! `Rc` here. What matters for the comparison is kept as it is: a clone shares, and `make_mut` copies exactly where the
//! pointer is shared.
use std::borrow::Borrow;
use std::fmt;
use std::marker::PhantomData;
use std::ops::Deref;
use std::rc::Rc;

/// A kind of pointer. Both kinds are an `Rc` here.
pub trait SharedPointerKind {}

/// The kind that the real crate makes of `Rc`.
#[derive(Debug)]
pub struct RcK;

/// The kind that the real crate makes of `Arc`; an `Rc` here, so that nothing made of it can leave its thread.
#[derive(Debug)]
pub struct ArcTK;

impl SharedPointerKind for RcK {}
impl SharedPointerKind for ArcTK {}

/// A pointer to a `T` that clones share.
pub struct SharedPointer<T, P: SharedPointerKind> {
    shared: Rc<T>,
    kind: PhantomData<P>,
}

impl<T, P: SharedPointerKind> SharedPointer<T, P> {
    /// A pointer to `value` that nothing shares yet.
    pub fn new(value: T) -> Self {
        SharedPointer { shared: Rc::new(value), kind: PhantomData }
    }

    /// The value if nothing else shares it, else the pointer again.
    pub fn try_unwrap(this: Self) -> Result<T, Self> {
        Rc::try_unwrap(this.shared).map_err(|shared| SharedPointer { shared, kind: PhantomData })
    }

    /// The address of the value.
    pub fn as_ptr(this: &Self) -> *const T {
        Rc::as_ptr(&this.shared)
    }
}

impl<T: Clone, P: SharedPointerKind> SharedPointer<T, P> {
    /// The value to write to; a copy of its own, at another address, if anything else shares it.
    pub fn make_mut(this: &mut Self) -> &mut T {
        Rc::make_mut(&mut this.shared)
    }
}

impl<T, P: SharedPointerKind> Clone for SharedPointer<T, P> {
    fn clone(&self) -> Self {
        SharedPointer { shared: Rc::clone(&self.shared), kind: PhantomData }
    }
}

impl<T, P: SharedPointerKind> Deref for SharedPointer<T, P> {
    type Target = T;

    fn deref(&self) -> &T {
        &self.shared
    }
}

impl<T, P: SharedPointerKind> AsRef<T> for SharedPointer<T, P> {
    fn as_ref(&self) -> &T {
        &self.shared
    }
}

impl<T, P: SharedPointerKind> Borrow<T> for SharedPointer<T, P> {
    fn borrow(&self) -> &T {
        &self.shared
    }
}

impl<T: fmt::Debug, P: SharedPointerKind> fmt::Debug for SharedPointer<T, P> {
    fn fmt(&self, out: &mut fmt::Formatter<'_>) -> fmt::Result {
        self.shared.fmt(out)
    }
}

#[cfg(test)]
mod tests {
    use super::*;

    #[test]
    fn make_mut_copies_exactly_where_it_is_shared() {
        let mut first: SharedPointer<u64, RcK> = SharedPointer::new(1);
        let alone = SharedPointer::as_ptr(&first);
        *SharedPointer::make_mut(&mut first) = 2;
        assert_eq!(SharedPointer::as_ptr(&first), alone);

        let second = first.clone();
        assert_eq!(SharedPointer::as_ptr(&second), alone);
        *SharedPointer::make_mut(&mut first) = 3;
        assert_ne!(SharedPointer::as_ptr(&first), alone);
        assert_eq!((*first, *second), (3, 2));
    }

    #[test]
    fn try_unwrap_gives_the_value_up_only_where_it_is_not_shared() {
        let first: SharedPointer<u64, ArcTK> = SharedPointer::new(1);
        let second = first.clone();
        let first = SharedPointer::try_unwrap(first).expect_err("it is shared");
        drop(second);
        assert_eq!(SharedPointer::try_unwrap(first).ok(), Some(1));
    }
}
