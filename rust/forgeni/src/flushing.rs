//! A flush that calls a closure, which the source of the proved allocator can't have.

use crate::{Entities, Handle, OutOfMemory};
use alloc::vec::Vec;

/// # A flush by a closure
impl Entities {
    /// Like [`flush`](Self::flush), but passes each handle to `each`, in the same order. All of
    /// them are alive before the first call, and stay alive if `each` panics.
    ///
    /// ```
    /// use forgeni::Entities;
    ///
    /// let mut entities = Entities::new();
    /// let mut places = Vec::new();
    /// entities.request_many(3)?;
    /// entities.flush_with(|handle| places.push((handle, "here")))?;
    /// assert_eq!(places.len(), 3);
    /// # Ok::<(), Box<dyn std::error::Error>>(())
    /// ```
    ///
    /// # Errors
    ///
    /// `OutOfMemory`, as from `flush`. Nothing has changed then, and `each` isn't called.
    pub fn flush_with(&mut self, each: impl FnMut(Handle)) -> Result<(), OutOfMemory> {
        let mut born = Vec::new();
        self.flush(&mut born)?;
        born.into_iter().for_each(each);
        Ok(())
    }
}
