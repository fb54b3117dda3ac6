// Made of crates/ent_storage/src/image_fault.rt by rust/erase. It isn't edited by hand.

use crate::handles::OutOfMemory;

/// Why bytes were not read as the entities of a storage.
///
/// ```
/// use forgeni::{StorageImageFault, World, WorldImageFault};
///
/// let mut image = Vec::new();
/// World::new().write_image(&mut image)?;
/// image.push(0);
/// // An image of a world has the entities at its end.
/// let read = World::read_image(&image);
/// assert_eq!(read.err(), Some(WorldImageFault::Storage(StorageImageFault::Length)));
/// # Ok::<(), Box<dyn std::error::Error>>(())
/// ```
#[derive(Clone, Copy, Debug, PartialEq, Eq, Hash)]
pub enum StorageImageFault {
    /// There are fewer or more bytes than the entities have.
    Length,
    /// No entity has the last of that many components, or there are no components with such
    /// numbers.
    Width {
        /// How many components the image has.
        width: u32,
    },
    /// The bytes at this place aren't those of any entity.
    Entity {
        /// How many entities come before it.
        place: usize,
    },
    /// Out of memory.
    Memory,
}

impl core::fmt::Display for StorageImageFault {
    fn fmt(&self, f: &mut core::fmt::Formatter<'_>) -> core::fmt::Result {
        match self {
            StorageImageFault::Length => write!(f, "bytes are missing or left over"),
            StorageImageFault::Width { width } => write!(f, "{width} components can't be right"),
            StorageImageFault::Entity { place } => write!(f, "entity {place} is damaged"),
            StorageImageFault::Memory => write!(f, "out of memory"),
        }
    }
}

impl core::error::Error for StorageImageFault {}

impl From<OutOfMemory> for StorageImageFault {
    #[inline]
    fn from(_refused: OutOfMemory) -> Self {
        StorageImageFault::Memory
    }
}
