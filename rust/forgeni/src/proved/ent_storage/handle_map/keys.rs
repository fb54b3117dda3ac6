// Made of crates/ent_storage/src/handle_map/keys.rt by rust/erase. It isn't edited by hand.

use crate::components::handle_map::iter::Iter;
use crate::handles::Handle;

/// An iterator over the handles of a map that have a value, in slot order.
///
/// It is created by [`HandleMap::keys`](super::HandleMap::keys). It borrows the map and copies
/// nothing.
///
/// ```
/// use forgeni::{Entities, HandleMap};
///
/// let mut entities = Entities::new();
/// let mut burning = HandleMap::new();
/// for one in entities.alloc_many(4)? {
///     burning.insert(one, 3)?;
/// }
/// let mut keys = burning.keys();
/// assert_eq!((keys.next(), keys.next_back()), (entities.iter().next(), entities.iter().last()));
/// # Ok::<(), Box<dyn std::error::Error>>(())
/// ```
#[must_use]
pub struct Keys<'a, T> {
    entries: Iter<'a, T>,
}

impl<'a, T> Keys<'a, T> {
    /// The handles of these entries.
    #[inline]
    pub(super) fn new(entries: Iter<'a, T>) -> Self
        // ensures { result ≡ map (λ entry. entry.0) entries.entry }
    {
        Keys { entries }
    }

    /// The same handles once more. It doesn't allocate.
    #[inline]
    fn again(&self) -> Self
        // ensures { result ≡ self.now }
    {
        Keys {
            entries: self.entries.again(),
        }
    }
}

impl<'a, T> Clone for Keys<'a, T> {
    #[inline]
    fn clone(&self) -> Self {
        self.again()
    }
}

impl<'a, T> Iterator for Keys<'a, T> {
    type Item = Handle;

    #[inline]
    fn next(&mut self) -> Option<Handle> {
        match self.entries.next() {
            Some((handle, _)) => Some(handle),
            None => None,
        }
    }

    #[inline]
    fn size_hint(&self) -> (usize, Option<usize>)
        // ensures lower { IsWithinCount result.0 (item_count (λ rest. rest) self.now) }
        // ensures upper { IfSome result.1 (UpTo (item_count (λ rest. rest) self.now)) }
        // ensures exact { result ≡ (length self.now, Some (length self.now)) }
    {
        self.entries.size_hint()
    }
}

impl<'a, T> DoubleEndedIterator for Keys<'a, T> {
    #[inline]
    fn next_back(&mut self) -> Option<Handle> {
        match self.entries.next_back() {
            Some((handle, _)) => Some(handle),
            None => None,
        }
    }
}

impl<'a, T> ExactSizeIterator for Keys<'a, T> {
    #[inline]
    fn len(&self) -> usize {
        self.entries.len()
    }
}
