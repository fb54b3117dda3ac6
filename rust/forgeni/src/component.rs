//! The numbers of components, and births.

use core::fmt;

pub use crate::handles::{Birth, ComponentId};

impl Birth {
    /// The system number of an entity that no system's queue lists.
    pub const NO_SYSTEM: u32 = u32::MAX;
}

/// A birth is written `2.0.1`: frame, system and ordinal.
impl fmt::Display for Birth {
    fn fmt(&self, out: &mut fmt::Formatter<'_>) -> fmt::Result {
        write!(out, "{}.{}.{}", self.frame, self.system, self.ordinal)
    }
}
