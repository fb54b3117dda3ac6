//! Values of any type, for maps in which few handles have one. What is proved about them is in the
//! contracts of [`SparseMap`]; here are std traits, and `handle_map` has those that both kinds of
//! map have.

use crate::handle::Handle;
use crate::shown::shows;
use alloc::vec::{self, Vec};

pub use crate::components::sparse_map::{Entry, OccupiedEntry, VacantEntry};
pub use crate::components::sparse_map::{Iter, SparseMap};

/// # Keys and values
impl<T> SparseMap<T> {
    /// Returns an iterator over the handles that have a value, in the order of
    /// [`entries`](Self::entries).
    ///
    /// ```
    /// use forgeni::{Handle, SparseMap};
    ///
    /// let [far, near]: [Handle; 2] = ["900v1".parse()?, "7v1".parse()?];
    /// let bosses = SparseMap::from([(far, "elf"), (near, "orc")]);
    /// assert_eq!(bosses.keys().map(|one| one.index()).max(), Some(900));
    /// # Ok::<(), Box<dyn std::error::Error>>(())
    /// ```
    #[inline]
    pub fn keys(&self) -> impl DoubleEndedIterator<Item = Handle> + ExactSizeIterator + Clone {
        self.entries().iter().map(|(one, _)| *one)
    }

    /// Returns an iterator over the values, in the order of [`entries`](Self::entries).
    ///
    /// ```
    /// use forgeni::{Handle, SparseMap};
    ///
    /// let shields = SparseMap::from([("900v1".parse::<Handle>()?, 50), ("7v1".parse()?, 30)]);
    /// assert_eq!(shields.values().sum::<u32>(), 80);
    /// # Ok::<(), Box<dyn std::error::Error>>(())
    /// ```
    #[inline]
    pub fn values(&self) -> impl DoubleEndedIterator<Item = &T> + ExactSizeIterator + Clone {
        self.entries().iter().map(|(_, it)| it)
    }

    /// Calls `keep` on each value once, from the last entry to the first, and drops the values for
    /// which it returns `false`. It can change those that stay. The room stays.
    ///
    /// ```
    /// use forgeni::{Entities, SparseMap};
    ///
    /// let mut entities = Entities::new();
    /// let mut frames_left: SparseMap<u32> = SparseMap::new();
    /// for (frames, one) in (1..).zip(entities.alloc_many(3)?) {
    ///     frames_left.insert(one, frames)?;
    /// }
    /// frames_left.retain(|one, frames| {
    ///     *frames -= 1;
    ///     *frames > 0 || entities.free(one).is_err()
    /// });
    /// assert_eq!((frames_left.len(), entities.len()), (2, 2));
    /// # Ok::<(), Box<dyn std::error::Error + Send + Sync>>(())
    /// ```
    ///
    /// # Panics
    ///
    /// A panic in `keep` is propagated. The map then has the values that were kept, those that
    /// `keep` wasn't called on, and the one on which it panicked, with the changes that `keep` had
    /// made to it.
    #[inline]
    pub fn retain(&mut self, mut keep: impl FnMut(Handle, &mut T) -> bool) {
        // The last entry takes the place of one that goes. `keep` was called on it before.
        for position in (0..self.len()).rev() {
            let one = self.entries()[position].0;
            if !keep(one, &mut self[one]) {
                self.remove(one);
            }
        }
    }
}

impl<T> SparseMap<T> {
    /// The handles that have a value, in slot order, if there is memory for a list of them.
    pub(crate) fn by_slot(&self) -> Option<vec::IntoIter<Handle>> {
        let mut handles = Vec::new();
        handles.try_reserve_exact(self.len()).ok()?;
        handles.extend(self.keys());
        handles.sort_unstable();
        Some(handles.into_iter())
    }

    #[inline]
    pub(crate) fn at(&self, position: usize) -> Option<(Handle, &T)> {
        self.entries().get(position).map(|(one, it)| (*one, it))
    }
}

/// It doesn't allocate.
impl<T> IntoIterator for SparseMap<T> {
    type Item = (Handle, T);
    type IntoIter = vec::IntoIter<(Handle, T)>;

    #[inline]
    fn into_iter(self) -> vec::IntoIter<(Handle, T)> {
        self.into_entries().into_iter()
    }
}

shows! {
    Entry<'_>[T]: handle;
    OccupiedEntry<'_>[T]: handle;
    VacantEntry<'_>[T]: handle;
}
