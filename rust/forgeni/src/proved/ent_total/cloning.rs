// Made of crates/ent_total/src/cloning.rt by rust/erase. It isn't edited by hand.

//! Clones of a world, as snapshots that a program goes back to.

use crate::phases::world::World;
use crate::handles::OutOfMemory;

/// Another world in the same state, with this number. So the queues of one are refused by the
/// other.
///
/// # Errors
///
/// `Memory`. It is never returned if no slot was made and there are no entities.
///
/// <details><summary>Contract</summary>
///
/// <code style="display: block; tab-size: 4; white-space: pre-wrap">// In the words of [contracts](crate::contracts):
/// ensures ok { [IfOk](crate::contracts::logic#IfOk) result (λ clone. clone ≡ record world.now { number = number }) }
/// ensures memory { [OnErr](crate::contracts::logic#OnErr) result ((0 \< world.now.world.allocator.made)
/// &#9;⊎ (world.now.world.entities ≢ [map.empty](crate::contracts::logic#FinMap.empty))) }
/// </code>
///
/// </details>
#[inline]
pub fn clone_world(world: &World, number: u64) -> Result<World, OutOfMemory> {
    Ok(World {
        world: world.world.try_clone()?,
        number,
        spawned: world.spawned,
    })
}

/// Makes a world the same as another, with this number. So queues from before are refused.
///
/// # Errors
///
/// `Memory`, with the world as it was. It is never returned if the source has no slots and no
/// entities.
///
/// <details><summary>Contract</summary>
///
/// <code style="display: block; tab-size: 4; white-space: pre-wrap">// In the words of [contracts](crate::contracts):
/// ensures ok { [OnOk](crate::contracts::logic#OnOk) result (world.new ≡ record source.now { number = number }) }
/// ensures err { [OnErr](crate::contracts::logic#OnErr) result (world.new ≡ world.old) }
/// ensures memory { [OnErr](crate::contracts::logic#OnErr) result ((0 \< source.now.world.allocator.made)
/// &#9;⊎ (source.now.world.entities ≢ [map.empty](crate::contracts::logic#FinMap.empty))) }
/// </code>
///
/// </details>
#[inline]
pub fn clone_world_from(world: &mut World, source: &World, number: u64) -> Result<(), OutOfMemory> {
    world.world.try_clone_from(&source.world)?;
    world.number = number;
    world.spawned = source.spawned;
    Ok(())
}
