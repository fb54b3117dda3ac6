//! A handle is its text where people read the format, and its bits elsewhere.

use crate::handle::Handle;
use core::fmt;
use serde::de::{Deserialize, Deserializer, Error, Unexpected, Visitor};
use serde::ser::{Serialize, Serializer};

/// In a format that people read, such as JSON, a handle is its text, `"12v3"`. In any other format
/// it is the `u64` of [`to_bits`](Handle::to_bits).
impl Serialize for Handle {
    fn serialize<S: Serializer>(&self, serializer: S) -> Result<S::Ok, S::Error> {
        if serializer.is_human_readable() {
            serializer.collect_str(self)
        } else {
            serializer.serialize_u64(self.to_bits())
        }
    }
}

/// Reads the text or the bits: a format that people read may have either. What isn't the text or
/// the bits of a handle is an error.
impl<'de> Deserialize<'de> for Handle {
    fn deserialize<D: Deserializer<'de>>(deserializer: D) -> Result<Self, D::Error> {
        if deserializer.is_human_readable() {
            // In an untagged enum or a flattened struct serde says so of each format, and has the
            // bits of a format that people don't read. So text isn't all that may come.
            deserializer.deserialize_any(HandleVisitor)
        } else {
            deserializer.deserialize_u64(HandleVisitor)
        }
    }
}

struct HandleVisitor;

impl Visitor<'_> for HandleVisitor {
    type Value = Handle;

    fn expecting(&self, out: &mut fmt::Formatter<'_>) -> fmt::Result {
        out.write_str("a handle, as 12v3, or its bits")
    }

    fn visit_u64<E: Error>(self, bits: u64) -> Result<Handle, E> {
        Handle::from_bits(bits).ok_or_else(|| E::invalid_value(Unexpected::Unsigned(bits), &self))
    }

    fn visit_str<E: Error>(self, text: &str) -> Result<Handle, E> {
        text.parse()
            .map_err(|error| E::custom(format_args!("{text:?}: {error}")))
    }
}
