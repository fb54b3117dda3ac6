// Made of crates/ent_world/src/cloning.rt by rust/erase. It isn't edited by hand.

//! Clones of a world, as snapshots that a program goes back to.

use crate::worlds::world::World;
use crate::allocator::{Entities, Limits, Prepared};
use crate::handles::OutOfMemory;
use crate::components::Rows;
use core::mem;

impl World {
    /// Returns another world in the same state: the same entities live, with the same births and
    /// components, the same handles are reserved, and the next ones are the same.
    ///
    /// # Errors
    ///
    /// `Memory`. It is never returned if no slot was made and there are no entities.
    ///
    /// <details><summary>Contract</summary>
    ///
    /// <code style="display: block; tab-size: 4; white-space: pre-wrap">// In the words of [contracts](crate::contracts):
    /// ensures ok { [IfOk](crate::contracts::logic#IfOk) result (λ clone. clone ≡ self.now) }
    /// ensures world { [IfOk](crate::contracts::logic#IfOk) result [IsWorld](crate::contracts::ent_world::world#IsWorld) }
    /// ensures memory { [OnErr](crate::contracts::logic#OnErr) result
    /// &#9;((0 \< self.now.allocator.made) ⊎ (self.now.entities ≢ [map.empty](crate::contracts::logic#FinMap.empty))) }
    /// </code>
    ///
    /// </details>
    #[inline]
    pub fn try_clone(&self) -> Result<World, OutOfMemory> {
        Ok(World {
            entities: self.entities.try_clone()?,
            storage: copied(&self.storage, self.entities.total())?,
            phase: self.phase,
        })
    }

    /// Takes over the state of another world, as [`try_clone`](World::try_clone) copies it. What
    /// this one had before is gone.
    ///
    /// It uses the room that this one has, and never gives it back. So a world that another one is
    /// cloned into again and again takes memory only as that one grows.
    ///
    /// # Errors
    ///
    /// `Memory`, with the world as it was: all memory is taken before anything changes. It is never
    /// returned if the source has no slots and no entities.
    ///
    /// <details><summary>Contract</summary>
    ///
    /// <code style="display: block; tab-size: 4; white-space: pre-wrap">// In the words of [contracts](crate::contracts):
    /// ensures ok { [OnOk](crate::contracts::logic#OnOk) result (self.new ≡ source.now) }
    /// ensures err { [OnErr](crate::contracts::logic#OnErr) result (self.new ≡ self.old) }
    /// ensures world { [IsWorld](crate::contracts::ent_world::world#IsWorld) self.new }
    /// ensures memory { [OnErr](crate::contracts::logic#OnErr) result
    /// &#9;((0 \< source.now.allocator.made) ⊎ (source.now.entities ≢ [map.empty](crate::contracts::logic#FinMap.empty))) }
    /// </code>
    ///
    /// </details>
    #[inline]
    pub fn try_clone_from(&mut self, source: &World) -> Result<(), OutOfMemory> {
        let empty = Entities::with_exact_limits(Limits::GREATEST);
        let mut prepared = Prepared::of(mem::replace(&mut self.entities, empty));
        match prepare(
            &mut prepared,
            &mut self.storage,
            &source.entities,
            &source.storage,
        ) {
            Ok(()) => {
                self.entities = prepared.take_over(&source.entities);
                self.phase = source.phase;
                Ok(())
            }
            Err(memory) => {
                self.entities = prepared.into_entities();
                Err(memory)
            }
        }
    }
}

/// Takes over a storage, and makes room for the allocator beside it. All memory is taken before
/// anything changes.
#[inline]
fn prepare(
    prepared: &mut Prepared,
    storage: &mut Rows,
    entities: &Entities,
    source: &Rows,
) -> Result<(), OutOfMemory>
    // ensures allocator { prepared.new.entities ≡ prepared.old.entities }
    // ensures slots { OnOk result (entities.now.allocator.made ≤ prepared.new.slots) }
    // ensures waiting { OnOk result (top entities.now.allocator ≤ prepared.new.waiting) }
    // ensures entities { OnOk result (storage.new.entities ≡ source.now.entities) }
    // ensures places { OnOk result (storage.new.places ≡ source.now.places) }
    // ensures spare { OnOk result (0 < entities.now.allocator.made
    //     → source.now.spare ≤ storage.new.spare) }
    // ensures memory { OnErr result
    //     ((prepared.old.entities.allocator.made < entities.now.allocator.made)
    //     ⊎ ((top prepared.old.entities.allocator < top entities.now.allocator)
    //     ⊎ ((0 < entities.now.allocator.made) ⊎ (source.now.entities ≢ map.empty)))) }
    // ensures kept { OnErr result (storage.new ≡ record storage.old { spare = storage.new.spare }) }
    // ensures room { OnErr result (storage.old.spare ≤ storage.new.spare) }
{
    prepared.reserve_for(entities)?;
    copy_into(storage, source, entities.total())
}

/// A storage of the same entities, with as much room. Without slots and entities it has none.
#[inline]
fn copied(storage: &Rows, slots: u32) -> Result<Rows, OutOfMemory>
    // ensures entities { IfOk result (λ copy. copy.entities ≡ storage.now.entities) }
    // ensures places { IfOk result (λ copy. copy.places ≡ storage.now.places) }
    // ensures spare { IfOk result (λ copy. 0 < slots → storage.now.spare ≤ copy.spare) }
    // ensures memory { OnErr result ((0 < slots) ⊎ (storage.now.entities ≢ map.empty)) }
{
    let entities = storage.len();
    if slots == 0 && entities == 0 {
        return Ok(Rows::new());
    }
    storage.try_clone()
}

/// Lets a storage take over the entities of another one, with as much room. Without slots and
/// entities it doesn't allocate.
#[inline]
fn copy_into(storage: &mut Rows, source: &Rows, slots: u32) -> Result<(), OutOfMemory>
    // ensures entities { OnOk result (storage.new.entities ≡ source.now.entities) }
    // ensures places { OnOk result (storage.new.places ≡ source.now.places) }
    // ensures spare { OnOk result (0 < slots → source.now.spare ≤ storage.new.spare) }
    // ensures memory { OnErr result ((0 < slots) ⊎ (source.now.entities ≢ map.empty)) }
    // ensures kept { OnErr result (storage.new ≡ record storage.old { spare = storage.new.spare }) }
    // ensures room { OnErr result (storage.old.spare ≤ storage.new.spare) }
{
    let entities = source.len();
    if slots == 0 && entities == 0 {
        storage.try_clone_from(&Rows::new())
    } else {
        storage.try_clone_from(source)
    }
}
