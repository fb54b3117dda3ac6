//! The types that are a number or a few. Those of a few are written as a tuple, which takes no code
//! for the names of fields.

use crate::allocator::Limits;
use crate::component::{Birth, ComponentId};
use crate::BlockSize;
use serde::de::{Deserialize, Deserializer, Error};
use serde::ser::{Serialize, Serializer};

/// A type that is written as some numbers, and made of them again. `D` is the type of what reads
/// them.
macro_rules! is_its_numbers {
    ($name:ident, $doc:literal: $own:ident => $numbers:expr, $read:pat => $made:expr) => {
        #[doc = concat!("As ", $doc)]
        impl Serialize for $name {
            fn serialize<S: Serializer>(&$own, serializer: S) -> Result<S::Ok, S::Error> {
                $numbers.serialize(serializer)
            }
        }

        #[doc = concat!("Reads ", $doc)]
        impl<'de> Deserialize<'de> for $name {
            fn deserialize<D: Deserializer<'de>>(deserializer: D) -> Result<Self, D::Error> {
                let $read = Deserialize::deserialize(deserializer)?;
                $made
            }
        }
    };
}

is_its_numbers!(ComponentId, "its number.": self => self.0, id => Ok(Self(id)));
is_its_numbers!(Birth, "its numbers in their order: frame, system, ordinal.":
    self => (self.frame, self.system, self.ordinal),
    (frame, system, ordinal) => Ok(Self { frame, system, ordinal }));
is_its_numbers!(Limits, "its numbers in the order of [`Limits::new`]: slots, generations.":
self => (self.slots(), self.generations()), (slots, generations) => {
    // It is an error if there are no such limits.
    let text = format_args!("no allocator has {slots} slots of {generations} generations");
    Self::new(slots, generations).ok_or_else(|| D::Error::custom(text))
});
is_its_numbers!(BlockSize, "its size and its limit.":
self => (self.size(), self.limit()), (size, limit) => {
    // The number of handles after which the size is this one, if it is the size of any block.
    let mut block = Self::new(limit);
    block.adapt(u32::div_ceil(size, 2));
    let text = format_args!("no block adapts to {size} handles with a limit of {limit}");
    (block.size() == size).then_some(block).ok_or_else(|| D::Error::custom(text))
});
