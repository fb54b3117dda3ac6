// Made of crates/ent_storage/src/rows.rt by rust/erase. It isn't edited by hand.

//! Entities at places that the caller keeps.

use alloc::vec::Vec;
use crate::components::items::Items;
use crate::components::key::Key;
use crate::components::living::{Living, has_key_at};
use crate::components::order::handles_in_order;
use crate::handles::{Birth, ComponentId, Handle, OutOfMemory};

/// The births and components of living entities, each at a place. The caller keeps the place of
/// each handle: a world has it in its allocator's rows.
///
/// Contracts see what they see of a [`Storage`](crate::components::Storage).
pub struct Rows {
    pub(super) living: Living,
}

impl Rows {
    /// No entities, without room. It doesn't allocate.
    ///
    /// <details><summary>Contract</summary>
    ///
    /// <code style="display: block; tab-size: 4; white-space: pre-wrap">// In the words of [contracts](crate::contracts):
    /// ensures entities { result.entities ≡ [map.empty](crate::contracts::logic#FinMap.empty) }
    /// ensures spare { result.spare ≡ 0 }
    /// ensures places { result.places ≡ \[\] }
    /// </code>
    ///
    /// </details>
    #[inline]
    pub fn new() -> Self {
        Rows {
            living: Living::new(),
        }
    }

    /// The same entities at the same places, with at least the same room. Without entities and room
    /// it doesn't allocate.
    ///
    /// # Errors
    ///
    /// Out of memory.
    ///
    /// <details><summary>Contract</summary>
    ///
    /// <code style="display: block; tab-size: 4; white-space: pre-wrap">// In the words of [contracts](crate::contracts):
    /// ensures entities { [IfOk](crate::contracts::logic#IfOk) result (λ copy. copy.entities ≡ self.now.entities) }
    /// ensures places { [IfOk](crate::contracts::logic#IfOk) result (λ copy. copy.places ≡ self.now.places) }
    /// ensures spare { [IfOk](crate::contracts::logic#IfOk) result (λ copy. self.now.spare ≤ copy.spare) }
    /// ensures memory { [OnErr](crate::contracts::logic#OnErr) result (0 \< [length](crate::contracts::logic#length) self.now.places + self.now.spare) }
    /// </code>
    ///
    /// </details>
    #[inline]
    pub fn try_clone(&self) -> Result<Self, OutOfMemory> {
        if self.living.is_empty() && self.spare() == 0 {
            return Ok(Rows::new());
        }
        Ok(Rows {
            living: self.living.try_clone()?,
        })
    }

    /// Takes over the entities of another, each at its place. What was here before is gone. The
    /// room that is here is used, and never given back.
    ///
    /// # Errors
    ///
    /// Out of memory for the room that the source has beyond what is here, or for values of
    /// components. All memory is allocated before anything changes, so the entities are as before.
    /// `spare` may have grown.
    ///
    /// <details><summary>Contract</summary>
    ///
    /// <code style="display: block; tab-size: 4; white-space: pre-wrap">// In the words of [contracts](crate::contracts):
    /// ensures entities { [OnOk](crate::contracts::logic#OnOk) result (self.new.entities ≡ source.now.entities) }
    /// ensures places { [OnOk](crate::contracts::logic#OnOk) result (self.new.places ≡ source.now.places) }
    /// ensures spare { [OnOk](crate::contracts::logic#OnOk) result (source.now.spare ≤ self.new.spare) }
    /// ensures room { [length](crate::contracts::logic#length) self.old.places + self.old.spare
    /// &#9;≤ [length](crate::contracts::logic#length) self.new.places + self.new.spare }
    /// &#32;
    /// // With as much room as the source, it takes memory only for components.
    /// ensures memory { [OnErr](crate::contracts::logic#OnErr) result
    /// &#9;(([length](crate::contracts::logic#length) self.old.places + self.old.spare
    /// &#9;\< [length](crate::contracts::logic#length) source.now.places + source.now.spare)
    /// &#9;⊎ ¬ ([AreBare](crate::contracts::ent_storage::entity_map#AreBare) source.now.entities)) }
    /// ensures err { [OnErr](crate::contracts::logic#OnErr) result (self.new ≡ record self.old { spare = self.new.spare }) }
    /// </code>
    ///
    /// </details>
    #[inline]
    pub fn try_clone_from(&mut self, source: &Rows) -> Result<(), OutOfMemory> {
        self.clone_within(source, source.capacity())
    }

    /// Does what `try_clone_from` does, with room for `count` entities in all.
    ///
    /// # Errors
    ///
    /// Out of memory for that room, or for values of components.
    #[inline]
    pub(super) fn clone_within(&mut self, source: &Rows, count: usize) -> Result<(), OutOfMemory>
        // requires { length source.now.places ≤ count }
        // ensures entities { OnOk result (self.new.entities ≡ source.now.entities) }
        // ensures places { OnOk result (self.new.places ≡ source.now.places) }
        // ensures ok { OnOk result (count ≤ length self.new.places + self.new.spare) }
        // ensures room { length self.old.places + self.old.spare
        //     ≤ length self.new.places + self.new.spare }
        // ensures memory { OnErr result ((length self.old.places + self.old.spare < count)
        //     ⊎ ¬ (AreBare source.now.entities)) }
        // ensures err { OnErr result (self.new ≡ record self.old { spare = self.new.spare }) }
    {
        self.living.try_clone_from(&source.living, count)?;
        Ok(())
    }

    /// The number of entities. That is also the place of the next one.
    ///
    /// <details><summary>Contract</summary>
    ///
    /// <code style="display: block; tab-size: 4; white-space: pre-wrap">// In the words of [contracts](crate::contracts):
    /// ensures value { result ≡ [map.len](crate::contracts::logic#FinMap.len) self.now.entities }
    /// ensures places { result ≡ [length](crate::contracts::logic#length) self.now.places }
    /// </code>
    ///
    /// </details>
    #[inline]
    pub fn len(&self) -> usize {
        self.living.len()
    }

    /// Whether there are no entities.
    ///
    /// <details><summary>Contract</summary>
    ///
    /// <code style="display: block; tab-size: 4; white-space: pre-wrap">// In the words of [contracts](crate::contracts):
    /// ensures { [IsTrue](crate::contracts::logic#IsTrue) result ↔ (self.now.entities ≡ [map.empty](crate::contracts::logic#FinMap.empty)) }
    /// </code>
    ///
    /// </details>
    #[inline]
    pub fn is_empty(&self) -> bool {
        self.living.is_empty()
    }

    /// For how many more entities there is room.
    ///
    /// <details><summary>Contract</summary>
    ///
    /// <code style="display: block; tab-size: 4; white-space: pre-wrap">// In the words of [contracts](crate::contracts):
    /// ensures { result ≡ self.now.spare }
    /// </code>
    ///
    /// </details>
    #[inline]
    pub fn spare(&self) -> usize {
        self.living.capacity() - self.living.len()
    }

    /// For how many entities there is room in all.
    #[inline]
    pub(super) fn capacity(&self) -> usize
        // ensures { result ≡ length self.now.places + self.now.spare }
    {
        self.living.capacity()
    }

    /// Makes room for `additional` more entities. If there is enough room already, it doesn't
    /// allocate, and changes nothing.
    ///
    /// # Errors
    ///
    /// Out of memory. Nothing has changed.
    ///
    /// <details><summary>Contract</summary>
    ///
    /// <code style="display: block; tab-size: 4; white-space: pre-wrap">// In the words of [contracts](crate::contracts):
    /// ensures entities { self.new.entities ≡ self.old.entities }
    /// ensures ok { [OnOk](crate::contracts::logic#OnOk) result (additional ≤ self.new.spare) }
    /// ensures grows { self.old.spare ≤ self.new.spare }
    /// ensures places { self.new.places ≡ self.old.places }
    /// &#32;
    /// // With room for that many, the call succeeds and changes nothing.
    /// ensures succeeds { additional ≤ self.old.spare → [IsOk](crate::contracts::logic#IsOk) result }
    /// ensures in_place { additional ≤ self.old.spare → self.new ≡ self.old }
    /// &#32;
    /// ensures err { [OnErr](crate::contracts::logic#OnErr) result (self.new ≡ self.old) }
    /// </code>
    ///
    /// </details>
    #[inline(always)]
    pub fn reserve(&mut self, additional: usize) -> Result<(), OutOfMemory> {
        if additional <= self.spare() {
            return Ok(());
        }
        self.living.reserve(additional)?;
        Ok(())
    }

    /// Adds an entity without components at the next place. It doesn't allocate, and lowers `spare`
    /// by 1.
    #[inline(always)]
    pub(crate) fn push(&mut self, handle: Handle, birth: Birth)
        // requires new { map.get self.old.entities handle ≡ None }
        // requires room { 0 < self.old.spare }
        // ensures entities { self.new.entities
        //     ≡ map.insert self.old.entities handle (newborn birth) }
        // ensures spare { self.new.spare + 1 ≡ self.old.spare }
        // ensures places { self.new.places ≡ self.old.places ++ handle ∷ [] }
    {
        self.living.push(handle, birth);
    }

    /// Changes the birth of the entity at this place, which has to be that of the handle, and
    /// leaves the rest. It takes constant time and doesn't allocate.
    #[inline]
    pub(crate) fn set_birth_at(&mut self, place: usize, handle: Handle, birth: Birth)
        // requires { slice_get self.old.places place ≡ Some handle }
        // ensures entities { self.new.entities ≡ with_birth self.old.entities handle birth }
        // ensures spare { self.new.spare ≡ self.old.spare }
        // ensures places { self.new.places ≡ self.old.places }
    {
        self.living.set_birth(place, birth);
    }

    /// Takes out the entity at this place, which has to be that of the handle. Returns the handle
    /// of the entity that has moved into the place, which was the last one; `None` if the entity
    /// was the last one itself. It doesn't allocate, and raises `spare` by 1.
    ///
    /// It takes the time of a look at each component that any entity has ever had.
    #[inline(always)]
    pub(crate) fn despawn_at(&mut self, place: usize, handle: Handle) -> Option<Handle>
        // requires { slice_get self.old.places place ≡ Some handle }
        // ensures entities { self.new.entities ≡ map.remove self.old.entities handle }
        // ensures spare { self.new.spare ≡ self.old.spare + 1 }
        // ensures places { AreWithout place self.old.places self.new.places }
        // ensures moved { result ≡ slice_get self.new.places place }
    {
        self.living.swap_remove(place);
        if place >= self.living.len() {
            return None;
        }
        Some(self.living.handle(place))
    }

    /// Sets each of these components of the entity at this place, and leaves its others as they
    /// are. The place has to be that of the handle. If a component is in the list twice, its last
    /// value counts.
    ///
    /// It takes memory only for components that the entity does not have yet.
    ///
    /// # Errors
    ///
    /// Out of memory for the components that the entity does not have yet. Nothing has changed.
    #[inline(always)]
    pub(crate) fn insert_at(
        &mut self,
        place: usize,
        handle: Handle,
        items: &[(ComponentId, i64)],
    ) -> Result<(), OutOfMemory>
        // requires { slice_get self.old.places place ≡ Some handle }
        // ensures ok { OnOk result (self.new.entities
        //     ≡ with_components self.old.entities handle (λ held. with_items held items.now)) }
        // ensures spare { self.new.spare ≡ self.old.spare }
        // ensures places { self.new.places ≡ self.old.places }

        // ensures memory_to_grow { OnErr result
        //     (IfSome (components_of self.old.entities handle)
        //     (λ held. 0 < missing held items.now)) }
        // ensures err { OnErr result (self.new ≡ self.old) }
    {
        self.living.insert(place, items)?;
        Ok(())
    }

    /// Takes the component out of the entity at this place, which has to be that of the handle.
    /// Returns the value that it had, or `None` if the entity does not have it. It takes constant
    /// time and doesn't allocate.
    #[inline(always)]
    pub(crate) fn remove_at(&mut self, place: usize, handle: Handle, id: ComponentId) -> Option<i64>
        // requires { slice_get self.old.places place ≡ Some handle }
        // ensures value { result ≡ value_of self.old.entities handle id }
        // ensures entities { self.new.entities
        //     ≡ with_components self.old.entities handle (λ held. map.remove held id) }
        // ensures spare { self.new.spare ≡ self.old.spare }
        // ensures places { self.new.places ≡ self.old.places }
    {
        self.living.remove(place, id)
    }

    /// The value of a component of the entity at this place, which has to be that of the handle.
    /// It takes constant time.
    #[inline(always)]
    pub(crate) fn get_at(&self, place: usize, handle: Handle, id: ComponentId) -> Option<i64>
        // requires { slice_get self.now.places place ≡ Some handle }
        // ensures { result ≡ value_of self.now.entities handle id }
    {
        self.living.value(place, id)
    }

    /// The components and their values, in ascending order of number, of the entity at this place,
    /// which has to be that of the handle.
    #[inline]
    pub(crate) fn items_at(&self, place: usize, handle: Handle) -> Items<'_>
        // requires { slice_get self.now.places place ≡ Some handle }
        // ensures { option_map map.entries (components_of self.now.entities handle) ≡ Some result }
    {
        self.living.items(place)
    }

    /// When and by whom the entity at this place was brought to life. The place has to be that of
    /// the handle. It takes constant time.
    #[inline]
    pub(crate) fn birth_at(&self, place: usize, handle: Handle) -> Birth
        // requires { slice_get self.now.places place ≡ Some handle }
        // ensures { birth_of self.now.entities handle ≡ Some result }
    {
        self.living.birth(place)
    }

    /// The place and the value of each entity that has the component, in no particular
    /// order, as one slice. It doesn't allocate.
    ///
    /// <details><summary>Contract</summary>
    ///
    /// <code style="display: block; tab-size: 4; white-space: pre-wrap">// In the words of [contracts](crate::contracts):
    /// ensures has { (place : [ℕ](crate::contracts::logic#ℕ)) (value : [ℤ](crate::contracts::logic#ℤ)) → [Contains](crate::contracts::logic#Contains) result.now (place, value)
    /// &#9;↔ ([value_at_place](crate::contracts::ent_storage::entity_map#value_at_place) self.now place id ≡ [Some](crate::contracts::logic#Some) value) }
    /// ensures once { [AllPairs](crate::contracts::logic#AllPairs) (λ a b. a.0 ≢ b.0) result.now }
    /// </code>
    ///
    /// </details>
    #[inline]
    pub fn dense(&self, id: ComponentId) -> &[(usize, i64)] {
        self.living.pairs(id)
    }

    /// The handles of the entities that have the component, ordered by birth and then by
    /// handle. It takes the time of sorting these.
    ///
    /// # Errors
    ///
    /// Out of memory for the list. It is never returned if no entity has the component.
    ///
    /// <details><summary>Contract</summary>
    ///
    /// <code style="display: block; tab-size: 4; white-space: pre-wrap">// In the words of [contracts](crate::contracts):
    /// ensures ok { [IfOk](crate::contracts::logic#IfOk) result (λ handles. [ListsWith](crate::contracts::ent_storage::birth_order#ListsWith) id self.now.entities handles.items) }
    /// ensures memory { [OnErr](crate::contracts::logic#OnErr) result
    /// &#9;((handle : [Handle](crate::contracts::ent_handle::handle#Handle)) × [IsSome](crate::contracts::logic#IsSome) ([value_of](crate::contracts::ent_storage::entity_map#value_of) self.now.entities handle id)) }
    /// </code>
    ///
    /// </details>
    #[inline]
    pub fn with(&self, id: ComponentId) -> Result<Vec<Handle>, OutOfMemory> {
        let births = self.living.births_at(self.living.pairs(id))?;
        Ok(handles_in_order(births)?)
    }

    /// The handles of all entities, ordered by birth and then by handle. It takes the time
    /// of a sort, or of one pass if they are in that order, as they mostly are until one despawns.
    ///
    /// # Errors
    ///
    /// Out of memory for the list. It is never returned if there are no entities.
    ///
    /// <details><summary>Contract</summary>
    ///
    /// <code style="display: block; tab-size: 4; white-space: pre-wrap">// In the words of [contracts](crate::contracts):
    /// ensures ok { [IfOk](crate::contracts::logic#IfOk) result (λ handles. [ListsAll](crate::contracts::ent_storage::birth_order#ListsAll) self.now.entities handles.items) }
    /// ensures memory { [OnErr](crate::contracts::logic#OnErr) result (self.now.entities ≢ [map.empty](crate::contracts::logic#FinMap.empty)) }
    /// </code>
    ///
    /// </details>
    #[inline]
    pub fn by_birth(&self) -> Result<Vec<Handle>, OutOfMemory> {
        Ok(self.living.by_birth()?)
    }

    /// Whether the handle of that key is at the place.
    #[inline]
    pub(super) fn has_key_at(&self, key: Key, place: usize) -> bool
        // ensures { result ≡ has_handle_at self.now.places key (Some place) }
    {
        has_key_at(&self.living, key, place)
    }

    /// The handle of the entity with that birth, if there is one. If several entities have
    /// the birth, it returns the least of their handles.
    ///
    /// It doesn't allocate, and takes time for each entity.
    ///
    /// <details><summary>Contract</summary>
    ///
    /// <code style="display: block; tab-size: 4; white-space: pre-wrap">// In the words of [contracts](crate::contracts):
    /// ensures found { [IfSome](crate::contracts::logic#IfSome) result (λ handle.
    /// &#9;[birth_of](crate::contracts::ent_storage::entity_map#birth_of) self.now.entities handle ≡ [Some](crate::contracts::logic#Some) birth) }
    /// ensures least { [IfSome](crate::contracts::logic#IfSome) result (λ handle. (other : [Handle](crate::contracts::ent_handle::handle#Handle))
    /// &#9;→ [birth_of](crate::contracts::ent_storage::entity_map#birth_of) self.now.entities other ≡ [Some](crate::contracts::logic#Some) birth
    /// &#9;→ [handle_cmp](crate::contracts::ent_handle::handle#handle_cmp) handle other ≢ Greater) }
    /// ensures none { [IfNone](crate::contracts::logic#IfNone) result ((handle : [Handle](crate::contracts::ent_handle::handle#Handle))
    /// &#9;→ [birth_of](crate::contracts::ent_storage::entity_map#birth_of) self.now.entities handle ≢ [Some](crate::contracts::logic#Some) birth) }
    /// </code>
    ///
    /// </details>
    #[inline]
    pub fn of_birth(&self, birth: Birth) -> Option<Handle> {
        self.living.of_birth(birth)
    }
}
