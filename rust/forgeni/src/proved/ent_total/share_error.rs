// Made of crates/ent_total/src/share_error.rt by rust/erase. It isn't edited by hand.

/// Why an allocator or a world was not shared.
///
/// ```
/// use forgeni::{Entities, ShareError};
///
/// let refused = Entities::new().share(5_000).err().ok_or("it was shared")?;
/// let (entities, error) = refused.into_parts();
/// assert_eq!(error, ShareError::Count);
/// let (_shared, reservers) = entities.share(1_000)?;
/// assert_eq!(reservers.len(), 1_000);
/// # Ok::<(), Box<dyn std::error::Error>>(())
/// ```
#[derive(Clone, Copy, Debug, PartialEq, Eq, Hash)]
#[non_exhaustive]
pub enum ShareError {
    /// Handles were requested since the last flush, even if the request was refused.
    NeedsFlush,
    /// The number of callers isn't one from 1 to 1,024, or there are more than 1,023 blocks whose
    /// callers go on.
    Count,
    /// Out of memory.
    Memory,
}

impl core::fmt::Display for ShareError {
    fn fmt(&self, f: &mut core::fmt::Formatter<'_>) -> core::fmt::Result {
        match self {
            ShareError::NeedsFlush => write!(f, "a flush is needed first"),
            ShareError::Count => write!(f, "a phase has 1 to 1,024 callers"),
            ShareError::Memory => write!(f, "out of memory"),
        }
    }
}

impl core::error::Error for ShareError {}
