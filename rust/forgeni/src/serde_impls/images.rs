//! An allocator is the bytes of its image, and so is a world.

use crate::entities::Entities;
use crate::World;
use alloc::vec::Vec;
use core::fmt;
use serde::de::{Deserialize, Deserializer, Error, SeqAccess, Visitor};
use serde::ser::{Error as _, Serialize, Serializer};

macro_rules! is_its_image {
    ($name:ident, $expected:literal) => {
        /// As the bytes that [`write_image`](Self::write_image) writes. JSON has a list of numbers
        /// for them.
        impl Serialize for $name {
            fn serialize<S: Serializer>(&self, serializer: S) -> Result<S::Ok, S::Error> {
                let mut image = Vec::new();
                self.write_image(&mut image).map_err(S::Error::custom)?;
                serializer.serialize_bytes(&image)
            }
        }

        /// Reads the bytes, or a list of them, as [`read_image`](Self::read_image) does. What that
        /// refuses is an error. A forged image can make the next flush take all memory, so read
        /// bytes from a stranger by [`read_image_within`](Self::read_image_within).
        impl<'de> Deserialize<'de> for $name {
            fn deserialize<D: Deserializer<'de>>(deserializer: D) -> Result<Self, D::Error> {
                let (expected, read) = ($expected, Self::read_image);
                deserializer.deserialize_bytes(ImageVisitor { expected, read })
            }
        }
    };
}

is_its_image!(Entities, "the bytes of an allocator's image");
is_its_image!(World, "the bytes of a world's image");

struct ImageVisitor<T, F> {
    expected: &'static str,
    read: fn(&[u8]) -> Result<T, F>,
}

impl<'de, T, F: fmt::Display> Visitor<'de> for ImageVisitor<T, F> {
    type Value = T;

    fn expecting(&self, out: &mut fmt::Formatter<'_>) -> fmt::Result {
        out.write_str(self.expected)
    }

    fn visit_bytes<E: Error>(self, image: &[u8]) -> Result<T, E> {
        (self.read)(image).map_err(E::custom)
    }

    /// How many there are to come isn't asked for: an input can say any number.
    fn visit_seq<A: SeqAccess<'de>>(self, mut bytes: A) -> Result<T, A::Error> {
        let mut image = Vec::new();
        while let Some(byte) = bytes.next_element()? {
            image.try_reserve(1).map_err(A::Error::custom)?;
            image.push(byte);
        }
        self.visit_bytes(&image)
    }
}
