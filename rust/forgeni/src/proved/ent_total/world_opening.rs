// Made of crates/ent_total/src/world_opening.rt by rust/erase. It isn't edited by hand.

//! A world is opened.
use alloc::vec::Vec;
use crate::kit::vec::FallibleVec;
use crate::phases::open_world::OpenWorld;
use crate::phases::opening::{Opening, begin};
use crate::phases::share_error::ShareError;
use crate::phases::sharing::CALLERS;
use crate::phases::world::World;
use crate::allocator::Phased;
use crate::handles::{HandedBack, OutOfMemory};
use crate::commands::{IssuedCommands, Output};
use crate::reserving::SharedReserver;

/// Opens a world for `count` systems, 1 to 1,024.
///
/// # Errors
///
/// [`HandedBack`] has the world as it was, and the first of these errors that applies:
/// [`ShareError::NeedsFlush`], [`ShareError::Count`], [`ShareError::Memory`].
///
/// <details><summary>Contract</summary>
///
/// <code style="display: block; tab-size: 4; white-space: pre-wrap">// In the words of [contracts](crate::contracts):
/// ensures same { [IfOk](crate::contracts::logic#IfOk) result (λ o.
/// &#9;(o.source.of_world ≡ world.number) × (o.source.spawned ≡ world.spawned)) }
/// ensures shared { [IfOk](crate::contracts::logic#IfOk) result (λ o. (o.source.world.shared.start ≡ world.world.allocator)
/// &#9;× (o.source.world.shared.count ≡ count)) }
/// ensures world { [IfOk](crate::contracts::logic#IfOk) result (λ o. [view_of](crate::contracts::ent_total::issuing#view_of) o.source
/// &#9;≡ record { phase = world.world.phase; entities = world.world.entities }) }
/// ensures reservers { [IfOk](crate::contracts::logic#IfOk) result (λ o. [records_of](crate::contracts::ent_shared::phase#records_of) ([reservers_in](crate::contracts::ent_total::issuing#reservers_in) o.returned)
/// &#9;≡ [opened_records](crate::contracts::ent_shared::record#opened_records) world.world.allocator 0 count) }
/// ensures no_command { [IfOk](crate::contracts::logic#IfOk) result (λ o. [All](crate::contracts::logic#All) (λ c. c.1 ≡ \[\]) o.returned) }
/// ensures refused { [IsUnopened](crate::contracts::ent_total::opening#IsUnopened) world.world.allocator.asked ((count ≡ 0) ⊎ (1024 \< count))
/// &#9;(λ why. [IsErrAnd](crate::contracts::logic#IsErrAnd) result (λ h. h.error ≡ why)) }
/// ensures handed_back { [IfErr](crate::contracts::logic#IfErr) result (λ h. h.value ≡ world) }
/// </code>
///
/// </details>
#[inline]
pub fn open(
    world: World,
    count: usize,
) -> Result<Opening<OpenWorld>, HandedBack<World, ShareError>> {
    if world.needs_flush() {
        return Err(HandedBack::new(world, ShareError::NeedsFlush));
    }
    if count == 0 || count > CALLERS {
        return Err(HandedBack::new(world, ShareError::Count));
    }
    let Ok(reservers) = Vec::with_capacity_fallibly(count) else {
        return Err(HandedBack::new(world, ShareError::Memory));
    };
    let (source, callers) = match opened(world, count) {
        Ok(made) => made,
        Err(world) => return Err(HandedBack::new(world, ShareError::Memory)),
    };
    match begin(source, callers, reservers) {
        Ok(opening) => Ok(opening),
        Err((source, callers)) => {
            let (world, _) = source.end_with_all(callers);
            Err(HandedBack::new(world, ShareError::Memory))
        }
    }
}

/// Opens a flushed world for its callers. If memory runs out, it comes back.
#[inline]
fn opened(
    world: World,
    count: usize,
) -> Result<(OpenWorld, Vec<(SharedReserver, IssuedCommands)>), World>
    // requires flushed { world.world.allocator.asked ≡ 0 }
    // requires some { 0 < count }
    // requires few { count ≤ 1024 }
    // ensures same { IfOk result (λ made.
    //     (made.0.of_world ≡ world.number) × (made.0.spawned ≡ world.spawned)) }
    // ensures shared { IfOk result (λ made. (made.0.world.shared.start ≡ world.world.allocator)
    //     × (made.0.world.shared.count ≡ count)) }
    // ensures world { IfOk result (λ made. view_of made.0
    //     ≡ record { phase = world.world.phase; entities = world.world.entities }) }
    // ensures reservers { IfOk result (λ made. records_of (reservers_in made.1.items)
    //     ≡ opened_records world.world.allocator 0 count) }
    // ensures own { IfOk result (λ made.
    //     All (λ c. IsOf made.0.world.shared c.0) made.1.items) }
    // ensures unused { IfOk result (λ made. All (λ c. c.0.own.entries ≡ []) made.1.items) }
    // ensures no_command { IfOk result (λ made. All (λ c. c.1 ≡ []) made.1.items) }
    // ensures count { IfOk result (λ made. length made.1.items ≡ count) }
    // ensures room { IfOk result (λ made. count ≤ vec_capacity made.1) }
    // ensures err { IfErr result (λ refused. refused ≡ world) }
{
    let Ok(queues) = Vec::with_capacity_fallibly(count) else {
        return Err(world);
    };
    let Ok(mut callers) = Vec::with_capacity_fallibly(count) else {
        return Err(world);
    };
    let World {
        world,
        number: of_world,
        spawned,
    } = world;
    match world.open(count) {
        Ok((world, mut returned)) => {
            equip(&mut returned, &mut callers);
            let source = OpenWorld {
                world,
                of_world,
                spawned,
                returned,
                queues,
            };
            Ok((source, callers))
        }
        Err((world, _)) => Err(World {
            world,
            number: of_world,
            spawned,
        }),
    }
}

/// Gives each of the reservers an empty queue, in their order, and leaves a list without elements.
/// There is room for all of them.
#[inline]
fn equip(reservers: &mut Vec<SharedReserver>, callers: &mut Vec<(SharedReserver, IssuedCommands)>)
    // requires none { callers.old.items ≡ [] }
    // requires room { vec_len reservers.old ≤ vec_capacity callers.old }
    // ensures callers { callers.new.items ≡ map new_issuer reservers.old.items }
    // ensures left { reservers.new.items ≡ [] }
    // ensures room { vec_capacity reservers.new ≡ vec_capacity reservers.old }
    // ensures callers_room { vec_capacity callers.new ≡ vec_capacity callers.old }
{
    reservers.reverse();
    while let Some(reserver) = reservers.pop() {
        callers.push_reserved((reserver, IssuedCommands::unfilled()));
    }
}
