// Made of crates/ent_script/src/operation.rt by rust/erase. It isn't edited by hand.

use crate::scripts::bundle::Bundle;
use crate::scripts::target::Target;
use crate::handles::ComponentId;

/// One thing that a system does.
///
/// A spawn may bind a name to the handles that it got. The names of a system are numbered from 0,
/// in the order of their first `as`.
pub enum Operation {
    /// Spawns an entity.
    Spawn {
        /// Its components.
        bundle: Bundle,
        /// The number of the name that is bound to it.
        binds: Option<usize>,
    },
    /// Spawns many entities at once.
    SpawnMany {
        /// How many: at most 65,536.
        count: u32,
        /// The components of each.
        bundle: Bundle,
        /// The number of the name that is bound to them.
        binds: Option<usize>,
    },
    /// Sets components.
    Insert {
        /// The components, and their values.
        bundle: Bundle,
        /// The entities that get them.
        target: Target,
    },
    /// Removes a component.
    Remove {
        /// The component.
        component: ComponentId,
        /// The entities that lose it.
        target: Target,
    },
    /// Despawns entities.
    Despawn {
        /// The entities.
        target: Target,
    },
}
