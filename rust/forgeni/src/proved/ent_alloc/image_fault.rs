// Made of crates/ent_alloc/src/image_fault.rt by rust/erase. It isn't edited by hand.

use crate::handles::OutOfMemory;
use crate::kit::alloc::AllocError;

/// Why bytes were not read as the image of an allocator: the first fault that they have, in the
/// order that [`Entities::read_image`](crate::allocator::Entities::read_image) lists.
///
/// ```
/// use forgeni::{Entities, ImageFault};
///
/// let mut image = Vec::new();
/// Entities::new().write_image(&mut image)?;
/// image.push(0);
/// // A save that has one byte too many isn't read as if it hadn't.
/// assert_eq!(Entities::read_image(&image).err(), Some(ImageFault::Length { expected: 40 }));
/// assert_eq!(Entities::read_image(b"save").err(), Some(ImageFault::Magic));
/// # Ok::<(), Box<dyn std::error::Error>>(())
/// ```
#[derive(Clone, Copy, Debug, PartialEq, Eq, Hash)]
#[non_exhaustive]
pub enum ImageFault {
    /// The bytes don't begin as an image does.
    Magic,
    /// The image is of another version of the format.
    Version {
        /// The version that the image names.
        version: u32,
    },
    /// No allocator can have these limits.
    Limits,
    /// More slots were made than the limits allow, or more wait than were made.
    Counts,
    /// There are fewer or more bytes than an image of that many slots has.
    Length {
        /// How many bytes the image has to have.
        expected: u64,
    },
    /// The number of reserved handles doesn't fit the number of requested ones.
    Requests,
    /// No allocator can have this slot: it has a generation out of range, a word that names no kind
    /// of slot, or a position that is past the last one or that a slot before it waits at.
    Slot {
        /// The index of the slot.
        index: u32,
    },
    /// No slot waits at a position.
    Position {
        /// The position, counted from that of the slot that is given last.
        position: u32,
    },
    /// After its next flush the allocator would have more slots than
    /// [`read_image_within`](crate::allocator::Entities::read_image_within) was allowed.
    Bound {
        /// How many slots it would have.
        slots: u32,
    },
    /// Out of memory.
    Memory,
}

impl core::fmt::Display for ImageFault {
    fn fmt(&self, f: &mut core::fmt::Formatter<'_>) -> core::fmt::Result {
        match self {
            ImageFault::Magic => write!(f, "not an image of an allocator"),
            ImageFault::Version { version } => write!(f, "version {version} is not known"),
            ImageFault::Limits => write!(f, "limits out of range"),
            ImageFault::Counts => write!(f, "more slots than there may be"),
            ImageFault::Length { expected } => write!(f, "{expected} bytes expected"),
            ImageFault::Requests => write!(f, "requests that can't have been made"),
            ImageFault::Slot { index } => write!(f, "slot {index} is damaged"),
            ImageFault::Position { position } => write!(f, "no slot waits at position {position}"),
            ImageFault::Bound { slots } => write!(f, "{slots} slots are more than are allowed"),
            ImageFault::Memory => write!(f, "out of memory"),
        }
    }
}

impl core::error::Error for ImageFault {}

impl From<AllocError> for ImageFault {
    #[inline]
    fn from(_refused: AllocError) -> Self {
        ImageFault::Memory
    }
}

impl From<OutOfMemory> for ImageFault {
    #[inline]
    fn from(_refused: OutOfMemory) -> Self {
        ImageFault::Memory
    }
}
