// Made of crates/ent_storage/src/fault.rt by rust/erase. It isn't edited by hand.

use core::error::Error;
use core::fmt;

/// Why a [`Storage`](super::Storage) refused a call. Nothing has changed.
///
/// ```
/// use forgeni::{Birth, Entities, Storage, StorageError};
///
/// const FIRST: Birth = Birth { frame: 0, system: 0, ordinal: 0 };
///
/// let cart = Entities::new().alloc()?;
/// let mut storage = Storage::new();
/// assert_eq!(storage.insert(cart, &[]), Err(StorageError::Absent));
/// storage.born(cart, FIRST)?;
/// assert_eq!(storage.born(cart, FIRST), Err(StorageError::Present));
/// # Ok::<(), Box<dyn std::error::Error>>(())
/// ```
#[derive(Clone, Copy, Debug, PartialEq, Eq, Hash)]
pub enum StorageError {
    /// No entity has that handle.
    Absent,
    /// An entity has that handle already.
    Present,
    /// Out of memory, or there would be more than 4,294,967,296 entities.
    Memory,
}

impl fmt::Display for StorageError {
    #[inline]
    fn fmt(&self, f: &mut fmt::Formatter<'_>) -> fmt::Result {
        match self {
            StorageError::Absent => f.write_str("no such entity"),
            StorageError::Present => f.write_str("the entity is there already"),
            StorageError::Memory => f.write_str("out of memory"),
        }
    }
}

impl Error for StorageError {}

impl From<crate::handles::OutOfMemory> for StorageError {
    #[inline]
    fn from(_refused: crate::handles::OutOfMemory) -> Self {
        StorageError::Memory
    }
}
