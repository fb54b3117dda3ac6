// Made of crates/ent_alloc/src/fault.rt by rust/erase. It isn't edited by hand.

use crate::handles::{Handle, OutOfMemory};

/// Why [`Entities::alloc`](crate::allocator::Entities::alloc) gave no handle. Nothing has changed.
///
/// ```
/// use forgeni::{AllocError, Entities};
///
/// let mut entities = Entities::new();
/// entities.request()?;
/// let spawned = match entities.alloc() {
///     Err(AllocError::NeedsFlush) => {
///         entities.flush(&mut Vec::new())?;
///         entities.alloc()?
///     }
///     other => other?,
/// };
/// assert!(entities.is_alive(spawned));
/// # Ok::<(), Box<dyn std::error::Error>>(())
/// ```
#[derive(Clone, Copy, Debug, PartialEq, Eq, Hash)]
pub enum AllocError {
    /// Handles were requested since the last flush, even if the request was refused.
    NeedsFlush,
    /// Every slot has a living entity or is retired.
    Space,
    /// Out of memory.
    Memory,
}

impl core::fmt::Display for AllocError {
    fn fmt(&self, f: &mut core::fmt::Formatter<'_>) -> core::fmt::Result {
        match self {
            AllocError::NeedsFlush => write!(f, "a flush is needed first"),
            AllocError::Space => write!(f, "no slot is free"),
            AllocError::Memory => write!(f, "out of memory"),
        }
    }
}

impl core::error::Error for AllocError {}

impl From<OutOfMemory> for AllocError {
    #[inline]
    fn from(_refused: OutOfMemory) -> Self {
        AllocError::Memory
    }
}

/// Why [`Entities::free`](crate::allocator::Entities::free) freed nothing. Nothing has changed.
///
/// ```
/// use forgeni::{Entities, FreeError};
///
/// let mut entities = Entities::new();
/// let cart = entities.alloc()?;
/// entities.free(cart)?;
/// // A second system despawns it too, which is no reason to end the game.
/// match entities.free(cart) {
///     Ok(_) | Err(FreeError::NotAlive) => {}
///     Err(other) => return Err(other.into()),
/// }
/// # Ok::<(), Box<dyn std::error::Error>>(())
/// ```
#[derive(Clone, Copy, Debug, PartialEq, Eq, Hash)]
pub enum FreeError {
    /// Handles were requested since the last flush, even if the request was refused.
    NeedsFlush,
    /// The handle isn't alive.
    NotAlive,
    /// Out of memory.
    Memory,
}

impl core::fmt::Display for FreeError {
    fn fmt(&self, f: &mut core::fmt::Formatter<'_>) -> core::fmt::Result {
        match self {
            FreeError::NeedsFlush => write!(f, "a flush is needed first"),
            FreeError::NotAlive => write!(f, "the entity is not alive"),
            FreeError::Memory => write!(f, "out of memory"),
        }
    }
}

impl core::error::Error for FreeError {}

impl From<OutOfMemory> for FreeError {
    #[inline]
    fn from(_refused: OutOfMemory) -> Self {
        FreeError::Memory
    }
}

/// What [`Entities::free`](crate::allocator::Entities::free) returns.
///
/// ```
/// use forgeni::{Entities, Freed};
///
/// let mut entities = Entities::new();
/// let old = entities.alloc()?;
/// // The slot's next handle is known before it is given.
/// let Freed { next } = entities.free(old)?;
/// assert_eq!(next, Some(entities.alloc()?));
/// # Ok::<(), Box<dyn std::error::Error>>(())
/// ```
#[derive(Clone, Copy, Debug, PartialEq, Eq, Hash)]
pub struct Freed {
    /// The handle that the slot gives next. `None` if the freed one was of the last generation: the
    /// slot is retired then, and gives no more handles.
    pub next: Option<Handle>,
}
