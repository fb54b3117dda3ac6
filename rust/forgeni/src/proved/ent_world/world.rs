// Made of crates/ent_world/src/world.rt by rust/erase. It isn't edited by hand.

use alloc::vec::Vec;
use crate::kit::prove_eq;
use crate::worlds::open_world::OpenWorld;
use crate::worlds::rows::place_of;
use crate::worlds::spawning::{make, next_handle};
use crate::allocator::{AllocError, Entities, FreeError, Freed, Limits, State};
use crate::handles::{Birth, ComponentId, Handle, OutOfMemory};
use crate::commands::Bundle;
use crate::reserving::{SharedReserver, share};
use crate::components::{Items, Rows};

/// The living entities and their components.
///
/// Contracts see it as [a record](crate::contracts::ent_world::world#World): the state of its
/// allocator, the number of its phase, and a finite map from the handles of the living entities to
/// their births and components.
pub struct World {
    pub(super) entities: Entities,
    pub(super) storage: Rows,
    pub(super) phase: u64,
}

impl World {
    /// Creates a world without entities. It doesn't allocate, whatever the limits are.
    ///
    /// <details><summary>Contract</summary>
    ///
    /// <code style="display: block; tab-size: 4; white-space: pre-wrap">// In the words of [contracts](crate::contracts):
    /// ensures value { result ≡ [first_world](crate::contracts::ent_world::world#first_world) limits }
    /// ensures world { [IsWorld](crate::contracts::ent_world::world#IsWorld) result }
    /// </code>
    ///
    /// </details>
    #[inline]
    pub fn new(limits: Limits) -> Self {
        let entities = Entities::with_exact_limits(limits);
        // Whatever the limits are, it begins in a sound state, as `cursor` promises.
        prove_eq!(entities.cursor(), 0);
        World {
            entities,
            storage: Rows::new(),
            phase: 0,
        }
    }

    /// Returns the number of living entities.
    ///
    /// <details><summary>Contract</summary>
    ///
    /// <code style="display: block; tab-size: 4; white-space: pre-wrap">// In the words of [contracts](crate::contracts):
    /// ensures value { result ≡ [map.len](crate::contracts::logic#FinMap.len) self.now.entities }
    /// &#32;
    /// // A part of what is true of every world, for who was lent one.
    /// ensures living { [AreLiving](crate::contracts::ent_world::world#AreLiving) self.now.allocator self.now.entities }
    /// </code>
    ///
    /// </details>
    #[inline]
    pub fn len(&self) -> usize {
        self.storage.len()
    }

    /// Returns `true` if no entity is alive.
    ///
    /// <details><summary>Contract</summary>
    ///
    /// <code style="display: block; tab-size: 4; white-space: pre-wrap">// In the words of [contracts](crate::contracts):
    /// ensures { [IsTrue](crate::contracts::logic#IsTrue) result ↔ (self.now.entities ≡ [map.empty](crate::contracts::logic#FinMap.empty)) }
    /// </code>
    ///
    /// </details>
    #[inline]
    pub fn is_empty(&self) -> bool {
        self.storage.is_empty()
    }

    /// Returns the number of retired slots, which give no more handles. It takes constant time.
    ///
    /// <details><summary>Contract</summary>
    ///
    /// <code style="display: block; tab-size: 4; white-space: pre-wrap">// In the words of [contracts](crate::contracts):
    /// ensures { result ≡ [retired](crate::contracts::ent_alloc::sequential#retired) self.now.allocator }
    /// </code>
    ///
    /// </details>
    #[inline]
    pub fn retired(&self) -> u32 {
        self.entities.retired()
    }

    /// Returns `true` if the entity is alive. It takes constant time.
    ///
    /// <details><summary>Contract</summary>
    ///
    /// <code style="display: block; tab-size: 4; white-space: pre-wrap">// In the words of [contracts](crate::contracts):
    /// ensures { result ≡ [lives_in](crate::contracts::ent_world::world#lives_in) self.now handle }
    /// </code>
    ///
    /// </details>
    #[inline]
    pub fn contains(&self, handle: Handle) -> bool {
        match self.entities.state(handle) {
            State::Alive => true,
            State::Reserved | State::Gone => false,
        }
    }

    /// Returns the value of the entity's component, if the entity is alive and has it.
    ///
    /// <details><summary>Contract</summary>
    ///
    /// <code style="display: block; tab-size: 4; white-space: pre-wrap">// In the words of [contracts](crate::contracts):
    /// ensures { result ≡ [value_of](crate::contracts::ent_storage::entity_map#value_of) self.now.entities handle id }
    /// </code>
    ///
    /// </details>
    #[inline]
    pub fn get(&self, handle: Handle, id: ComponentId) -> Option<i64> {
        let place = place_of(&self.entities, handle)?;
        self.storage.get_at(place, handle, id)
    }

    /// Returns the birth of the entity, if it is alive: when it came to life, and by which system.
    ///
    /// <details><summary>Contract</summary>
    ///
    /// <code style="display: block; tab-size: 4; white-space: pre-wrap">// In the words of [contracts](crate::contracts):
    /// ensures { result ≡ [birth_of](crate::contracts::ent_storage::entity_map#birth_of) self.now.entities handle }
    /// </code>
    ///
    /// </details>
    #[inline]
    pub fn birth(&self, handle: Handle) -> Option<Birth> {
        let place = place_of(&self.entities, handle)?;
        Some(self.storage.birth_at(place, handle))
    }

    /// Returns the entity's components and their values, in ascending order of number, if it is
    /// alive.
    ///
    /// <details><summary>Contract</summary>
    ///
    /// <code style="display: block; tab-size: 4; white-space: pre-wrap">// In the words of [contracts](crate::contracts):
    /// ensures { result ≡ [option_map](crate::contracts::logic#option_map) [map.entries](crate::contracts::logic#FinMap.entries) ([components_of](crate::contracts::ent_storage::entity_map#components_of) self.now.entities handle) }
    /// </code>
    ///
    /// </details>
    #[inline]
    pub fn items(&self, handle: Handle) -> Option<Items<'_>> {
        let place = place_of(&self.entities, handle)?;
        Some(self.storage.items_at(place, handle))
    }

    /// Returns the handles of all entities, ordered by birth and then by handle.
    ///
    /// # Errors
    ///
    /// `Memory`: there isn't enough memory for the list. It is never returned if there are no
    /// entities.
    ///
    /// <details><summary>Contract</summary>
    ///
    /// <code style="display: block; tab-size: 4; white-space: pre-wrap">// In the words of [contracts](crate::contracts):
    /// ensures ok { [IfOk](crate::contracts::logic#IfOk) result (λ handles. [ListsAll](crate::contracts::ent_storage::birth_order#ListsAll) self.now.entities handles.items) }
    /// ensures memory { [OnErr](crate::contracts::logic#OnErr) result (self.now.entities ≢ [map.empty](crate::contracts::logic#FinMap.empty)) }
    /// </code>
    ///
    /// </details>
    #[inline]
    pub fn by_birth(&self) -> Result<Vec<Handle>, OutOfMemory> {
        self.storage.by_birth()
    }

    /// Returns how many times the world was flushed. It stays at 2^64 - 1.
    ///
    /// <details><summary>Contract</summary>
    ///
    /// <code style="display: block; tab-size: 4; white-space: pre-wrap">// In the words of [contracts](crate::contracts):
    /// ensures { result ≡ self.now.phase }
    /// </code>
    ///
    /// </details>
    #[inline]
    pub fn phase(&self) -> u64 {
        self.phase
    }

    /// Returns `true` if any handle was requested since the last flush.
    ///
    /// <details><summary>Contract</summary>
    ///
    /// <code style="display: block; tab-size: 4; white-space: pre-wrap">// In the words of [contracts](crate::contracts):
    /// ensures { [IsTrue](crate::contracts::logic#IsTrue) result ↔ (0 \< self.now.allocator.asked) }
    /// </code>
    ///
    /// </details>
    #[inline]
    pub fn needs_flush(&self) -> bool {
        self.entities.needs_flush()
    }

    /// Brings to life what is reserved, without components. The birth of each entity names the
    /// phase that ends, no system, and the entity's number among those that are born.
    ///
    /// # Errors
    ///
    /// `Memory`, only if something is reserved. Nothing has changed then.
    ///
    /// <details><summary>Contract</summary>
    ///
    /// <code style="display: block; tab-size: 4; white-space: pre-wrap">// In the words of [contracts](crate::contracts):
    /// ensures ok { [OnOk](crate::contracts::logic#OnOk) result (self.new ≡ [after_births](crate::contracts::ent_world::sync#after_births) \[\] self.old) }
    /// ensures flushed { [OnOk](crate::contracts::logic#OnOk) result (self.new.allocator.asked ≡ 0) }
    /// ensures err { [OnErr](crate::contracts::logic#OnErr) result (self.new ≡ self.old) }
    /// ensures memory { [OnErr](crate::contracts::logic#OnErr) result (0 \< [length](crate::contracts::logic#length) self.old.allocator.taken) }
    /// ensures world { [IsWorld](crate::contracts::ent_world::world#IsWorld) self.new }
    /// </code>
    ///
    /// </details>
    #[inline]
    pub fn flush(&mut self) -> Result<(), OutOfMemory> {
        let _ = self.bring_to_life(&[])?;
        Ok(())
    }

    /// Brings an entity to life at once, with this birth and these components. Its handle is the
    /// next one of the slot that was freed last of those that wait, or the first one of a new slot
    /// if none waits.
    ///
    /// # Errors
    ///
    /// Nothing changes.
    ///
    /// - `NeedsFlush` if handles were requested since the last flush, even if the request was
    ///   refused.
    /// - `Space` if every slot has a living occupant or is retired.
    /// - `Memory` if there isn't enough memory for a component, or for a new slot and its entity.
    ///   It is never returned if a slot waits and the bundle is empty.
    ///
    /// <details><summary>Contract</summary>
    ///
    /// <code style="display: block; tab-size: 4; white-space: pre-wrap">// In the words of [contracts](crate::contracts):
    /// ensures front { [IfOk](crate::contracts::logic#IfOk) result (λ handle.
    /// &#9;[slice_get](crate::contracts::logic#slice_get) self.old.allocator.pool 0 ≡ [Some](crate::contracts::logic#Some) handle) }
    /// ensures ok { [IfOk](crate::contracts::logic#IfOk) result (λ handle.
    /// &#9;self.new ≡ [after_spawn](crate::contracts::ent_world::effects#after_spawn) birth bundle.now handle self.old) }
    /// ensures needs_flush { [IsErrOf](crate::contracts::logic#IsErrOf) result AllocError.NeedsFlush
    /// &#9;↔ (0 \< self.old.allocator.asked) }
    /// ensures space { [IsErrOf](crate::contracts::logic#IsErrOf) result AllocError.Space
    /// &#9;↔ ((self.old.allocator.asked ≡ 0) × (self.old.allocator.pool ≡ \[\])) }
    /// ensures memory { [IsErrOf](crate::contracts::logic#IsErrOf) result AllocError.Memory
    /// &#9;→ ([top](crate::contracts::ent_alloc::sequential#top) self.old.allocator ≡ 0) ⊎ (0 \< [length](crate::contracts::logic#length) bundle.now) }
    /// ensures err { [OnErr](crate::contracts::logic#OnErr) result (self.new ≡ self.old) }
    /// ensures world { [IsWorld](crate::contracts::ent_world::world#IsWorld) self.new }
    /// </code>
    ///
    /// </details>
    #[inline(always)]
    pub fn spawn(&mut self, birth: Birth, bundle: &Bundle) -> Result<Handle, AllocError> {
        let handle = next_handle(&self.entities)?;
        let row = self.entities.len();
        let place = row as usize;
        make(&mut self.storage, place, handle, birth, bundle.items())?;
        if let Err(fault) = self.entities.alloc() {
            let _ = self.storage.despawn_at(place, handle);
            return Err(fault);
        }
        self.entities.set_row(handle, row);
        Ok(handle)
    }

    /// Takes a living entity out, with all its components.
    ///
    /// # Errors
    ///
    /// Nothing changes. The first of these that holds:
    ///
    /// - `NeedsFlush` if handles were requested since the last flush, even if the request was
    ///   refused.
    /// - `NotAlive` if the handle names no living entity.
    /// - `Memory` if there isn't enough memory for the slot to wait in. The slot of the last
    ///   generation never waits, so its entity is never refused for that.
    // Not inlined, its result goes through memory, as that of `free`.
    #[inline(always)]
    pub fn despawn(&mut self, handle: Handle) -> Result<Freed, FreeError>
        // ensures ok { OnOk result (self.new ≡ after_despawn handle self.old) }
        // ensures next { IfOk result (λ freed. freed.next ≡ next self.old.allocator.limits handle) }
        // ensures lived { OnOk result (lives_in self.old handle ≡ true) }
        // ensures needs_flush { IsErrOf result FreeError.NeedsFlush ↔ (0 < self.old.allocator.asked) }
        // ensures not_alive { IsErrOf result FreeError.NotAlive
        //     ↔ ((self.old.allocator.asked ≡ 0) × (lives_in self.old handle ≡ false)) }
        // ensures memory { IsErrOf result FreeError.Memory
        //     → handle.generation ≢ self.old.allocator.limits.generations }
        // ensures err { OnErr result (self.new ≡ self.old) }
        // ensures world { IsWorld self.new }
    {
        let row = self.entities.row(handle);
        let freed = self.entities.free(handle)?;
        let Some(row) = row else { unreachable!() };
        if let Some(moved) = self.storage.despawn_at(row as usize, handle) {
            self.entities.set_row(moved, row);
        }
        Ok(freed)
    }

    /// Shares the world's allocator among `n` reservers, 1 to 1,024, as [`share`] does. Systems
    /// read the rest of it by [`OpenWorld::view`].
    ///
    /// # Errors
    ///
    /// [`OutOfMemory`], with the world as it was.
    #[inline]
    pub(crate) fn open(self, n: usize) -> Result<(OpenWorld, Vec<SharedReserver>), (World, OutOfMemory)>
        // requires flushed { self.allocator.asked ≡ 0 }
        // requires some { 0 < n }
        // requires few { n ≤ 1024 }
        // ensures shared { IfOk result (λ made.
        //     (made.0.shared.start ≡ self.allocator) × (made.0.shared.count ≡ n)) }
        // ensures sound { IfOk result (λ made. IsSound made.0.shared.start) }
        // ensures living { IfOk result (λ made. AreLiving made.0.shared.start made.0.entities) }
        // ensures phase { IfOk result (λ made. made.0.phase ≡ self.phase) }
        // ensures entities { IfOk result (λ made. made.0.entities ≡ self.entities) }
        // ensures count { IfOk result (λ made. length made.1.items ≡ n) }
        // ensures reservers { IfOk result (λ made.
        //     records_of made.1.items ≡ opened_records self.allocator 0 n) }
        // ensures unused { IfOk result (λ made. All (λ r. r.own.entries ≡ []) made.1.items) }
        // ensures own { IfOk result (λ made. All (IsOf made.0.shared) made.1.items) }
        // ensures err { IfErr result (λ refused. refused.0 ≡ self) }
        // ensures world { IfErr result (λ refused. IsWorld refused.0) }
    {
        let World {
            entities,
            storage,
            phase,
        } = self;
        match share(entities, n) {
            Ok((shared, reservers)) => {
                Ok((OpenWorld::new(shared, storage, phase), reservers))
            }
            Err((entities, memory)) => Err((
                World {
                    entities,
                    storage,
                    phase,
                },
                memory,
            )),
        }
    }
}
