// Made of crates/ent_total/src/ending.rt by rust/erase. It isn't edited by hand.

//! A phase of a world has ended: its callers are taken apart, and the world is closed.

use alloc::vec::Vec;
use crate::kit::vec::FallibleVec;
use crate::phases::open_world::OpenWorld;
use crate::phases::queues::Queues;
use crate::phases::world::World;
use crate::commands::IssuedCommands;
use crate::reserving::SharedReserver;

/// What a phase of a world has when it ends, besides its world and the rights to reserve.
pub(super) struct Rest {
    queues: Queues,
    spawned: u32,
}

impl Rest {
    /// The closed world, with its number and its count of spawns, and the queues.
    #[inline]
    pub(super) fn with(self, closed: crate::worlds::World) -> (World, Queues)
        // ensures world { result.0 ≡ record {
        //   world = closed;
        //   number = self.queues.world;
        //   spawned = self.spawned;
        // } }
        // ensures queues { result.1 ≡ self.queues }
    {
        let Rest { queues, spawned } = self;
        let world = World {
            world: closed,
            number: queues.world(),
            spawned,
        };
        (world, queues)
    }
}

/// Takes the phase and its callers apart. It doesn't allocate.
#[inline]
pub(super) fn parts_of(
    opened: OpenWorld,
    callers: Vec<(SharedReserver, IssuedCommands)>,
) -> (crate::worlds::OpenWorld, Vec<SharedReserver>, Rest)
    // requires own { All (λ c. IsOf opened.world.shared c.0) callers.items }
    // requires few { length callers.items ≤ opened.world.shared.count }
    // ensures world { result.0 ≡ opened.world }
    // ensures reservers { result.1.items ≡ reservers_in callers.items }
    // ensures own { All (IsOf opened.world.shared) result.1.items }
    // ensures queues { result.2.queues
    //     ≡ record { world = opened.of_world; queues = queues_in callers.items } }
    // ensures spawned { result.2.spawned ≡ opened.spawned }
{
    let OpenWorld {
        world,
        of_world,
        spawned,
        returned: mut reservers,
        mut queues,
    } = opened;
    take_apart(callers, &mut reservers, &mut queues);
    let rest = Rest {
        queues: Queues::new(of_world, queues),
        spawned,
    };
    (world, reservers, rest)
}

/// Puts what the callers reserve with, and their queues, behind two lists that have room for them.
#[inline]
fn take_apart(
    callers: Vec<(SharedReserver, IssuedCommands)>,
    reservers: &mut Vec<SharedReserver>,
    queues: &mut Vec<IssuedCommands>,
)
    // requires room { vec_len reservers.old + length callers.items ≤ vec_capacity reservers.old }
    // requires queue_room { vec_len queues.old + length callers.items ≤ vec_capacity queues.old }
    // ensures reservers { reservers.new.items ≡ reservers.old.items ++ reservers_in callers.items }
    // ensures queues { queues.new.items ≡ queues.old.items ++ queues_in callers.items }
{
    for (reserver, queue) in callers {
        reservers.push_reserved(reserver);
        queues.push_reserved(queue);
    }
}

/// `OpenWorld::close`, with all that it ensures as one fact.
#[inline]
pub(super) fn closed_world(
    opened: crate::worlds::OpenWorld,
    returned: Vec<SharedReserver>,
) -> crate::worlds::World
    // requires all { length returned.items ≡ opened.shared.count }
    // requires own { All (IsOf opened.shared) returned.items }
    // ensures { IsClosed opened returned.items result }
{
    opened.close(returned)
}

/// `OpenWorld::close_lost`, with all that it ensures as one fact.
#[inline]
pub(super) fn lost_world(opened: crate::worlds::OpenWorld, returned: Vec<SharedReserver>) -> crate::worlds::World
    // requires { All (IsOf opened.shared) returned.items }
    // ensures { IsClosedLost opened returned.items result }
{
    opened.close_lost(returned)
}
