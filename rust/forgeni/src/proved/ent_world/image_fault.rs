// Made of crates/ent_world/src/image_fault.rt by rust/erase. It isn't edited by hand.

use crate::allocator::ImageFault;
use crate::handles::OutOfMemory;
use crate::components::StorageImageFault;
use crate::kit::alloc::AllocError;

/// Why bytes were not read as the image of a world: the first fault that they have, in this order.
/// The version is checked only if there are as many bytes as come before the allocator's part.
///
/// ```
/// use forgeni::{World, WorldImageFault};
///
/// let mut image = Vec::new();
/// World::new().write_image(&mut image)?;
/// // A download that broke off.
/// assert_eq!(World::read_image(&image[..30]).err(), Some(WorldImageFault::Length));
/// # Ok::<(), Box<dyn std::error::Error>>(())
/// ```
#[derive(Clone, Copy, Debug, PartialEq, Eq, Hash)]
#[non_exhaustive]
pub enum WorldImageFault {
    /// The bytes don't begin as the image of a world does.
    Magic,
    /// The image is of another version of the format.
    Version {
        /// The version that the image names.
        version: u32,
    },
    /// There are fewer bytes than those before the allocator's part, or than that part has.
    Length,
    /// The allocator's part isn't the image of any allocator.
    Entities(ImageFault),
    /// A living entity has a row, which the image of a world never has.
    Row {
        /// The index of its slot.
        index: u32,
    },
    /// The bytes after the allocator's part aren't those of any entities.
    Storage(StorageImageFault),
    /// After its next flush the world would have more slots than the reader allows.
    Bound {
        /// How many slots it would have.
        slots: u32,
    },
    /// Out of memory.
    Memory,
}

impl core::fmt::Display for WorldImageFault {
    fn fmt(&self, f: &mut core::fmt::Formatter<'_>) -> core::fmt::Result {
        match self {
            WorldImageFault::Magic => write!(f, "not an image of a world"),
            WorldImageFault::Version { version } => write!(f, "version {version} is not known"),
            WorldImageFault::Length => write!(f, "bytes are missing"),
            WorldImageFault::Entities(..) => write!(f, "the allocator's part is damaged"),
            WorldImageFault::Row { index } => write!(f, "slot {index} has a row"),
            WorldImageFault::Storage(..) => write!(f, "the entities' part is damaged"),
            WorldImageFault::Bound { slots } => write!(f, "{slots} slots are more than are allowed"),
            WorldImageFault::Memory => write!(f, "out of memory"),
        }
    }
}

impl core::error::Error for WorldImageFault {}

impl From<AllocError> for WorldImageFault {
    #[inline]
    fn from(_refused: AllocError) -> Self {
        WorldImageFault::Memory
    }
}

impl From<OutOfMemory> for WorldImageFault {
    #[inline]
    fn from(_refused: OutOfMemory) -> Self {
        WorldImageFault::Memory
    }
}
