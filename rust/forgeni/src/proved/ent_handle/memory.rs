// Made of crates/ent_handle/src/memory.rt by rust/erase. It isn't edited by hand.

use crate::kit::alloc::{AllocError, AllocFailed};

/// Out of memory: an allocation failed, or something else happened that the call counts as such. A
/// call without any other error returns this one.
///
/// ```
/// use forgeni::{Entities, OutOfMemory};
///
/// fn save(entities: &Entities) -> Result<Vec<u8>, OutOfMemory> {
///     let mut image = Vec::new();
///     image.try_reserve(1_000).map_err(|_| OutOfMemory)?;
///     entities.write_image(&mut image)?;
///     Ok(image)
/// }
///
/// assert_eq!(save(&Entities::new())?.len(), 40);
/// # Ok::<(), Box<dyn std::error::Error>>(())
/// ```
#[derive(Clone, Copy, Debug, PartialEq, Eq, Hash)]
pub struct OutOfMemory;

impl core::fmt::Display for OutOfMemory {
    fn fmt(&self, f: &mut core::fmt::Formatter<'_>) -> core::fmt::Result {
        write!(f, "out of memory")
    }
}

impl core::error::Error for OutOfMemory {}

impl From<AllocError> for OutOfMemory {
    #[inline]
    fn from(_refused: AllocError) -> Self {
        OutOfMemory
    }
}

impl<T> From<AllocFailed<T>> for OutOfMemory {
    #[inline]
    fn from(_refused: AllocFailed<T>) -> Self {
        OutOfMemory
    }
}
