// Made of crates/ent_world/src/fault.rt by rust/erase. It isn't edited by hand.

use alloc::vec::Vec;
use crate::handles::Handle;

/// Why a command had no effect.
///
/// ```
/// use forgeni::{FaultKind, Limits, World};
///
/// let mut world = World::with_limits(Limits::new(2, 1).unwrap());
/// let ((), queues) = world.phase(1, |_open, systems| {
///     let _refused = systems[0].spawn_many(3, &[]);
/// })?;
/// let report = world.apply(queues)?;
/// assert_eq!(report.faults[0].kind, FaultKind::Space { wanted: 3, left: 2 });
/// # Ok::<(), Box<dyn std::error::Error>>(())
/// ```
#[derive(Clone, Copy, Debug, PartialEq, Eq, Hash)]
pub enum FaultKind {
    /// The entity was not alive when the command's turn came.
    NotAlive(Handle),
    /// The pool had fewer handles than were requested.
    Space {
        /// How many handles were requested.
        wanted: u32,
        /// How many the pool still had.
        left: u32,
    },
    /// More handles were requested than the reserver's quota still allowed.
    Quota {
        /// How many the quota still allowed.
        left: u64,
    },
}

/// A command that had no effect, or one handle of it.
///
/// ```
/// use forgeni::{Fault, FaultKind, World};
///
/// let mut world = World::new();
/// let cart = world.spawn(&[])?;
/// let ((), queues) = world.phase(2, |_open, systems| {
///     for commands in systems {
///         let _issued = commands.despawn(cart);
///     }
/// })?;
/// let report = world.apply(queues)?;
/// let twice = Fault { system: 1, command: 0, kind: FaultKind::NotAlive(cart) };
/// assert_eq!(report.faults, [twice]);
/// # Ok::<(), Box<dyn std::error::Error>>(())
/// ```
#[derive(Clone, Copy, Debug, PartialEq, Eq, Hash)]
pub struct Fault {
    /// The number of the system's queue among those that were applied, from 0.
    pub system: usize,
    /// The number of the command in that queue, from 0.
    pub command: usize,
    /// Why it had no effect.
    pub kind: FaultKind,
}

/// What a sync point has done.
///
/// ```
/// use forgeni::World;
///
/// let mut world = World::new();
/// let (spawned, queues) = world.phase(1, |_open, systems| systems[0].spawn_many(2, &[]))?;
/// let report = world.apply(queues)?;
/// assert_eq!(report.born, spawned?);
/// assert!(report.faults.is_empty());
/// # Ok::<(), Box<dyn std::error::Error>>(())
/// ```
#[derive(Debug, Clone, PartialEq, Eq)]
pub struct Report {
    /// The handles that came to life, in the order of the flush.
    pub born: Vec<Handle>,
    /// The commands without effect, in their order.
    pub faults: Vec<Fault>,
}

/// Why a sync point stopped.
#[derive(Debug)]
pub enum SyncFault {
    /// Memory ran out before anything was done. The world is as it was.
    FlushMemory,
    /// Memory ran out at a command. All births stand, and of the commands just those before.
    Memory {
        /// The system at whose command it stopped.
        system: usize,
        /// The number of that command in its queue.
        command: usize,
        /// How many handles of that command are done. It is 0 except at a spawn of many.
        done: usize,
        /// What was done before.
        so_far: Report,
    },
}

impl core::fmt::Display for SyncFault {
    fn fmt(&self, f: &mut core::fmt::Formatter<'_>) -> core::fmt::Result {
        match self {
            SyncFault::FlushMemory => write!(f, "out of memory for the flush"),
            SyncFault::Memory { command, system, .. } => write!(f, "out of memory at command {command} of system {system}"),
        }
    }
}

impl core::error::Error for SyncFault {}
