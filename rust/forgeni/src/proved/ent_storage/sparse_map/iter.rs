// Made of crates/ent_storage/src/sparse_map/iter.rt by rust/erase. It isn't edited by hand.

use crate::handles::Handle;

/// An iterator over the handles and values of a sparse map, in no particular order.
///
/// It is created by [`SparseMap::iter`](super::SparseMap::iter). It borrows the map and copies
/// nothing.
///
/// ```
/// use forgeni::{Handle, SparseMap};
///
/// let shields = SparseMap::from([("900v1".parse::<Handle>()?, 50), ("7v1".parse()?, 30)]);
/// let weakest = shields.iter().min_by_key(|(_, shield)| **shield);
/// assert_eq!(weakest.map(|(one, _)| one.index()), Some(7));
/// # Ok::<(), Box<dyn std::error::Error>>(())
/// ```
#[must_use]
pub struct Iter<'a, T> {
    entries: &'a [(Handle, T)],
}

impl<'a, T> Iter<'a, T> {
    /// These entries.
    #[inline]
    pub(super) fn new(entries: &'a [(Handle, T)]) -> Self
        // ensures { result ≡ entries.now }
    {
        Iter { entries }
    }

    /// The same entries once more. It doesn't allocate.
    #[inline]
    fn again(&self) -> Self
        // ensures { result ≡ self.now }
    {
        Iter {
            entries: self.entries,
        }
    }
}

impl<'a, T> Clone for Iter<'a, T> {
    #[inline]
    fn clone(&self) -> Self {
        self.again()
    }
}

impl<'a, T> Iterator for Iter<'a, T> {
    type Item = (Handle, &'a T);

    #[inline]
    fn next(&mut self) -> Option<(Handle, &'a T)> {
        let (entry, rest) = self.entries.split_first()?;
        self.entries = rest;
        Some((entry.0, &entry.1))
    }

    #[inline]
    fn size_hint(&self) -> (usize, Option<usize>)
        // ensures lower { IsWithinCount result.0 (item_count (λ rest. rest) self.now) }
        // ensures upper { IfSome result.1 (UpTo (item_count (λ rest. rest) self.now)) }
        // ensures exact { result ≡ (length self.now, Some (length self.now)) }
    {
        (self.entries.len(), Some(self.entries.len()))
    }
}

impl<'a, T> DoubleEndedIterator for Iter<'a, T> {
    #[inline]
    fn next_back(&mut self) -> Option<(Handle, &'a T)> {
        let (entry, rest) = self.entries.split_last()?;
        self.entries = rest;
        Some((entry.0, &entry.1))
    }
}

impl<'a, T> ExactSizeIterator for Iter<'a, T> {
    #[inline]
    fn len(&self) -> usize {
        self.entries.len()
    }
}
