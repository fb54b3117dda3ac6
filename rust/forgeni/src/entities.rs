//! What the source of the proved allocator can't have: impls of Rust's traits, and a `new` without
//! parameters.

use crate::allocator::Limits;
use crate::handle::Handle;
use crate::shown::shows;
use core::iter::FusedIterator;

pub use crate::allocator::{Entities, Freed, Living, State};

/// # Making one
impl Entities {
    /// Creates an allocator without entities, with the greatest limits. It doesn't allocate.
    ///
    /// ```
    /// use forgeni::Entities;
    ///
    /// let entities = Entities::new();
    /// assert!(entities.is_empty() && !entities.needs_flush());
    /// ```
    #[must_use]
    pub const fn new() -> Self {
        Self::with_limits(Limits::GREATEST)
    }
}

impl<'a> IntoIterator for &'a Entities {
    type Item = Handle;
    type IntoIter = Living<'a>;

    #[inline]
    fn into_iter(self) -> Living<'a> {
        self.iter()
    }
}

shows! {
    Entities: len total top retired reserved;
    Living<'_>: len;
}

impl FusedIterator for Living<'_> {}
