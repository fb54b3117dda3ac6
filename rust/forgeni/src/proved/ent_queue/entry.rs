// Made of crates/ent_queue/src/entry.rt by rust/erase. It isn't edited by hand.

use crate::commands::bundle_ref::BundleRef;
use crate::commands::handles_ref::HandlesRef;
use crate::handles::{ComponentId, Handle};
use crate::reserving::Refused;

/// One command of a queue, read in place.
pub enum Entry<'a> {
    /// The handle was reserved, and is to have these components.
    Spawn(Handle, BundleRef<'a>),
    /// These handles were reserved, and each is to have these components.
    SpawnMany(HandlesRef<'a>, BundleRef<'a>),
    /// The entity gets these components, in place of those that it has under the same numbers.
    Insert(Handle, BundleRef<'a>),
    /// The entity loses the component, if it has it.
    Remove(Handle, ComponentId),
    /// The entity is despawned.
    Despawn(Handle),
    /// A spawn that got no handle.
    Refused {
        /// How many handles were requested.
        wanted: u32,
        /// Why there are none.
        why: Refused,
    },
}
