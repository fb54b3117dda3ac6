// Made of crates/ent_storage/src/handle_map/values.rt by rust/erase. It isn't edited by hand.

use crate::components::handle_map::iter::Iter;

/// An iterator over the values of a map, in slot order.
///
/// It is created by [`HandleMap::values`](super::HandleMap::values). It borrows the map and copies
/// nothing.
///
/// ```
/// use forgeni::HandleMap;
///
/// let mut healths = HandleMap::new();
/// healths.insert("0v1".parse()?, 100)?;
/// healths.insert("7v2".parse()?, 30)?;
/// assert_eq!(healths.values().rev().copied().collect::<Vec<_>>(), [30, 100]);
/// # Ok::<(), Box<dyn std::error::Error>>(())
/// ```
#[must_use]
pub struct Values<'a, T> {
    entries: Iter<'a, T>,
}

impl<'a, T> Values<'a, T> {
    /// The values of these entries.
    #[inline]
    pub(super) fn new(entries: Iter<'a, T>) -> Self
        // ensures { result ≡ map (λ entry. entry.1) entries.entry }
    {
        Values { entries }
    }

    /// The same values once more. It doesn't allocate.
    #[inline]
    fn again(&self) -> Self
        // ensures { result ≡ self.now }
    {
        Values {
            entries: self.entries.again(),
        }
    }
}

impl<'a, T> Clone for Values<'a, T> {
    #[inline]
    fn clone(&self) -> Self {
        self.again()
    }
}

impl<'a, T> Iterator for Values<'a, T> {
    type Item = &'a T;

    #[inline]
    fn next(&mut self) -> Option<&'a T> {
        match self.entries.next() {
            Some((_, value)) => Some(value),
            None => None,
        }
    }

    #[inline]
    fn size_hint(&self) -> (usize, Option<usize>)
        // ensures lower { IsWithinCount result.0 (item_count (λ rest. rest) self.now) }
        // ensures upper { IfSome result.1 (UpTo (item_count (λ rest. rest) self.now)) }
        // ensures exact { result ≡ (length self.now, Some (length self.now)) }
    {
        self.entries.size_hint()
    }
}

impl<'a, T> DoubleEndedIterator for Values<'a, T> {
    #[inline]
    fn next_back(&mut self) -> Option<&'a T> {
        match self.entries.next_back() {
            Some((_, value)) => Some(value),
            None => None,
        }
    }
}

impl<'a, T> ExactSizeIterator for Values<'a, T> {
    #[inline]
    fn len(&self) -> usize {
        self.entries.len()
    }
}
