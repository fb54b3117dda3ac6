//! A storage next to an allocator, and the bundles that entities are given.

use crate::shown::{shows, walks};
use alloc::alloc::handle_alloc_error;
use core::alloc::Layout;
use core::fmt;
use core::hash::{Hash, Hasher};

pub use crate::commands::Bundle;
pub use crate::components::{InlineBundle, Items, Storage, StorageError};

shows! {
    Storage: len;
}

walks!(debug_map: Items<'_>);

impl<const INLINE: usize> Default for InlineBundle<INLINE> {
    fn default() -> Self {
        Self::new()
    }
}

impl<const INLINE: usize> fmt::Debug for InlineBundle<INLINE> {
    fn fmt(&self, out: &mut fmt::Formatter<'_>) -> fmt::Result {
        let items = self.items().iter().map(|(id, value)| (id, value));
        out.debug_map().entries(items).finish()
    }
}

/// If memory runs out, the process ends, as for a `Vec`.
impl<const INLINE: usize> Clone for InlineBundle<INLINE> {
    fn clone(&self) -> Self {
        let items = self.items();
        Self::of(items).unwrap_or_else(|_| handle_alloc_error(Layout::for_value(items)))
    }
}

impl<const INLINE: usize> PartialEq for InlineBundle<INLINE> {
    fn eq(&self, other: &Self) -> bool {
        self.items() == other.items()
    }
}

impl<const INLINE: usize> Eq for InlineBundle<INLINE> {}

impl<const INLINE: usize> Hash for InlineBundle<INLINE> {
    fn hash<H: Hasher>(&self, state: &mut H) {
        self.items().hash(state);
    }
}
