// Made of crates/ent_storage/src/handle_map/iter.rt by rust/erase. It isn't edited by hand.

use crate::components::handle_map::slot::Slot;
use crate::handles::Handle;
use core::slice;

/// An iterator over the handles and values of a map, in slot order.
///
/// It is created by [`HandleMap::iter`](super::HandleMap::iter). It borrows the map and copies
/// nothing.
///
/// ```
/// use forgeni::HandleMap;
///
/// let mut masses = HandleMap::new();
/// masses.insert("0v1".parse()?, 900)?;
/// masses.insert("7v2".parse()?, 80)?;
/// let lightest = masses.iter().min_by_key(|(_, mass)| **mass);
/// assert_eq!(lightest.map(|(one, _)| one.index()), Some(7));
/// assert_eq!(masses.iter().next_back(), lightest);
/// # Ok::<(), Box<dyn std::error::Error>>(())
/// ```
#[must_use]
pub struct Iter<'a, T> {
    slots: slice::Iter<'a, Slot<T>>,
    index: usize,
    left: usize,
}

impl<'a, T> Iter<'a, T> {
    /// All that the slots have. So many of them have a value.
    #[inline]
    pub(super) fn new(slots: &'a [Slot<T>], left: usize) -> Self
        // requires { AreCounted 0 slots.now left }
        // ensures { result ≡ entries_from 0 slots.now }
    {
        Iter {
            slots: slots.iter(),
            index: 0,
            left,
        }
    }

    /// The next entry. It is apart, so that a walk has a loop for vacant slots alone.
    #[inline]
    fn next_after_vacant(&mut self) -> Option<(Handle, &'a T)>
        // ensures { YieldsFirstBy (λ item. (item.0, item.1.now)) (λ rest. rest)
        //     self.old result self.new }
    {
        while let Some(slot) = self.slots.next() {
            let index = self.index as u32;
            self.index += 1;
            if let Slot::Occupied { generation, value } = slot {
                self.left -= 1;
                return Some((generation.handle(index), value));
            }
        }
        None
    }

    /// The same entries once more. It doesn't allocate.
    #[inline]
    pub(super) fn again(&self) -> Self
        // ensures { result ≡ self.now }
    {
        Iter {
            slots: self.slots.as_slice().iter(),
            index: self.index,
            left: self.left,
        }
    }
}

impl<'a, T> Clone for Iter<'a, T> {
    #[inline]
    fn clone(&self) -> Self {
        self.again()
    }
}

impl<'a, T> Iterator for Iter<'a, T> {
    type Item = (Handle, &'a T);

    #[inline]
    fn next(&mut self) -> Option<(Handle, &'a T)> {
        // Most slots have a value, so the first one is looked at outside the loop.
        let slot = self.slots.next()?;
        let index = self.index as u32;
        self.index += 1;
        if let Slot::Occupied { generation, value } = slot {
            self.left -= 1;
            return Some((generation.handle(index), value));
        }
        self.next_after_vacant()
    }

    #[inline]
    fn size_hint(&self) -> (usize, Option<usize>)
        // ensures lower { IsWithinCount result.0 (item_count (λ rest. rest) self.now) }
        // ensures upper { IfSome result.1 (UpTo (item_count (λ rest. rest) self.now)) }
        // ensures exact { result ≡ (length self.now, Some (length self.now)) }
    {
        (self.left, Some(self.left))
    }
}

impl<'a, T> DoubleEndedIterator for Iter<'a, T> {
    #[inline]
    fn next_back(&mut self) -> Option<(Handle, &'a T)> {
        while let Some(slot) = self.slots.next_back() {
            let index = (self.index + self.slots.len()) as u32;
            if let Slot::Occupied { generation, value } = slot {
                self.left -= 1;
                return Some((generation.handle(index), value));
            }
        }
        None
    }
}

impl<'a, T> ExactSizeIterator for Iter<'a, T> {
    #[inline]
    fn len(&self) -> usize {
        self.left
    }
}
