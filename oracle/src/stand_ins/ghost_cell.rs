//! Stands in for the crate `ghost_cell`: cells whose contents are reached
//! with a token of the same brand.
//!
//! What it could hide: a fault in that crate's own code. The three calls that
//! the extract makes (`new`, `borrow`, `borrow_mut`) have no choice in them.

use std::cell::UnsafeCell;
use std::marker::PhantomData;

/// Neither grows nor shrinks with `'brand`, so two brands are never one.
type InvariantLifetime<'brand> = PhantomData<fn(&'brand ()) -> &'brand ()>;

/// The right to reach into every cell of its brand.
pub struct GhostToken<'brand> {
    _brand: InvariantLifetime<'brand>,
}

impl<'brand> GhostToken<'brand> {
    /// Hands the only token of a new brand to `fun`.
    ///
    /// The brand is chosen here and differs from every other: `fun` must work
    /// for all of them, and invariance keeps them apart.
    #[allow(clippy::new_ret_no_self)]
    pub fn new<R, F>(fun: F) -> R
    where
        F: for<'new_brand> FnOnce(GhostToken<'new_brand>) -> R,
    {
        fun(GhostToken {
            _brand: PhantomData,
        })
    }
}

/// A value that only the token of its brand opens.
pub struct GhostCell<'brand, T> {
    _brand: InvariantLifetime<'brand>,
    value: UnsafeCell<T>,
}

impl<'brand, T> GhostCell<'brand, T> {
    pub fn new(value: T) -> Self {
        GhostCell {
            _brand: PhantomData,
            value: UnsafeCell::new(value),
        }
    }

    pub fn borrow<'a>(&'a self, _token: &'a GhostToken<'brand>) -> &'a T {
        // SAFETY: one token exists for each brand (see `GhostToken::new`), and
        // it cannot be copied. While `_token` is borrowed shared for 'a, no one
        // can hold it `&mut`, so `borrow_mut` has no live reference for 'a.
        unsafe { &*self.value.get() }
    }

    pub fn borrow_mut<'a>(&'a self, _token: &'a mut GhostToken<'brand>) -> &'a mut T {
        // SAFETY: the brand's one token is borrowed `&mut` for 'a, so for 'a no
        // other reference into any cell of the brand is live.
        unsafe { &mut *self.value.get() }
    }
}
