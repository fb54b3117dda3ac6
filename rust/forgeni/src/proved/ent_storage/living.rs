// Made of crates/ent_storage/src/living.rt by rust/erase. It isn't edited by hand.

use alloc::vec::Vec;
use crate::kit::vec::FallibleVec;
use super::columns;
use super::items::Items;
use super::key::Key;
use super::lists::overwrite;
use super::order::{handles_by_birth, least_of_birth};
use super::sparse_set::SparseSet;
use crate::handles::{Birth, ComponentId, Handle};
use crate::kit::alloc::AllocError;

/// What an entity has besides its components.
#[derive(Clone, Copy)]
pub struct Resident {
    pub handle: Handle,
    pub birth: Birth,
}

/// The living entities, place by place.
///
/// The residents have the handle and the birth of each. The columns have the components: at a
/// component's number the values of that component, by the places of the entities that have it. The
/// columns that have ever had values are in use: their numbers stand in rising order, and a removal
/// and `items` look at those alone.
pub struct Living {
    residents: Vec<Resident>,
    columns: Vec<SparseSet>,
    used: Vec<u8>,
}

impl Living {
    /// No entities, without room.
    ///
    /// <details><summary>Contract</summary>
    ///
    /// <code style="display: block; tab-size: 4; white-space: pre-wrap">// In the words of [contracts](crate::contracts):
    /// ensures { result ≡ record { entities = \[\]; room = 0 } }
    /// </code>
    ///
    /// </details>
    #[inline]
    pub fn new() -> Self {
        Living {
            residents: Vec::new(),
            columns: Vec::new(),
            used: Vec::new(),
        }
    }

    /// The same entities, with at least the same room.
    ///
    /// <details><summary>Contract</summary>
    ///
    /// <code style="display: block; tab-size: 4; white-space: pre-wrap">// In the words of [contracts](crate::contracts):
    /// ensures entities { [IfOk](crate::contracts::logic#IfOk) result (λ copy. copy.entities ≡ self.now.entities) }
    /// ensures room { [IfOk](crate::contracts::logic#IfOk) result (λ copy. self.now.room ≤ copy.room) }
    /// </code>
    ///
    /// </details>
    #[inline]
    pub fn try_clone(&self) -> Result<Self, AllocError> {
        let mut residents = Vec::with_capacity_fallibly(self.residents.sized_capacity())?;
        residents.extend_from_slice_fallibly(&self.residents)?;
        let mut used = Vec::with_capacity_fallibly(self.used.len())?;
        used.extend_from_slice_fallibly(&self.used)?;
        Ok(Living {
            residents,
            columns: columns::try_clone(&self.columns)?,
            used,
        })
    }

    /// Takes over the entities of another, and makes room for `count` in all. It doesn't allocate
    /// if there is that room, and no entity of the other has a component. After an `Err` the
    /// entities are as before.
    #[inline]
    pub(crate) fn try_clone_from(&mut self, source: &Living, count: usize) -> Result<(), AllocError>
        // requires { length source.now.entities ≤ count }
        // ensures entities { OnOk result (self.new.entities ≡ source.now.entities) }
        // ensures room { OnOk result (count ≤ self.new.room) }
        // ensures grows { self.old.room ≤ self.new.room }
        // ensures err { OnErr result (self.new.entities ≡ self.old.entities) }
        // ensures memory { OnErr result ((self.old.room < count)
        //     ⊎ ¬ (All (λ entity. entity.components ≡ finite.empty) source.now.entities)) }
    {
        self.residents
            .reserve_fallibly(count.saturating_sub(self.residents.len()))?;
        columns::reserve_for(
            &mut self.columns,
            &mut self.used,
            &source.columns,
        )?;
        overwrite(&mut self.residents, &source.residents);
        columns::take_over(&mut self.columns, &source.columns);
        Ok(())
    }

    /// Returns the number of entities.
    ///
    /// <details><summary>Contract</summary>
    ///
    /// <code style="display: block; tab-size: 4; white-space: pre-wrap">// In the words of [contracts](crate::contracts):
    /// ensures { result ≡ [length](crate::contracts::logic#length) self.now.entities }
    /// </code>
    ///
    /// </details>
    #[inline]
    pub fn len(&self) -> usize {
        self.residents.len()
    }

    /// Returns `true` if there are no entities.
    ///
    /// <details><summary>Contract</summary>
    ///
    /// <code style="display: block; tab-size: 4; white-space: pre-wrap">// In the words of [contracts](crate::contracts):
    /// ensures { result ≡ ([length](crate::contracts::logic#length) self.now.entities == 0) }
    /// </code>
    ///
    /// </details>
    #[inline]
    pub fn is_empty(&self) -> bool {
        self.residents.is_empty()
    }

    /// For how many entities there is room in all.
    ///
    /// <details><summary>Contract</summary>
    ///
    /// <code style="display: block; tab-size: 4; white-space: pre-wrap">// In the words of [contracts](crate::contracts):
    /// ensures { result ≡ self.now.room }
    /// </code>
    ///
    /// </details>
    #[inline]
    pub fn capacity(&self) -> usize {
        self.residents.sized_capacity()
    }

    /// Makes room for `additional` more entities. After an `Err` nothing is changed.
    ///
    /// <details><summary>Contract</summary>
    ///
    /// <code style="display: block; tab-size: 4; white-space: pre-wrap">// In the words of [contracts](crate::contracts):
    /// ensures entities { self.new.entities ≡ self.old.entities }
    /// ensures ok { [OnOk](crate::contracts::logic#OnOk) result ([length](crate::contracts::logic#length) self.new.entities + additional ≤ self.new.room) }
    /// ensures grows { self.old.room ≤ self.new.room }
    /// ensures succeeds { [length](crate::contracts::logic#length) self.old.entities + additional ≤ self.old.room → [IsOk](crate::contracts::logic#IsOk) result }
    /// ensures full { [OnErr](crate::contracts::logic#OnErr) result (self.old.room \< [length](crate::contracts::logic#length) self.old.entities + additional) }
    /// ensures err { [OnErr](crate::contracts::logic#OnErr) result (self.new.room ≡ self.old.room) }
    /// </code>
    ///
    /// </details>
    #[inline]
    pub fn reserve(&mut self, additional: usize) -> Result<(), AllocError> {
        self.residents.reserve_fallibly(additional)
    }

    /// The handle of the entity at the place.
    #[inline]
    pub(crate) fn handle(&self, place: usize) -> Handle
        // requires { place < length self.now.entities }
        // ensures { HoldsAt (λ entity. result ≡ entity.handle) self.now.entities place }
    {
        self.residents[place].handle
    }

    /// The birth of the entity at the place.
    #[inline]
    pub(crate) fn birth(&self, place: usize) -> Birth
        // requires { place < length self.now.entities }
        // ensures { HoldsAt (λ entity. result ≡ entity.birth) self.now.entities place }
    {
        self.residents[place].birth
    }

    /// Changes the birth of the entity at the place. It doesn't allocate.
    #[inline]
    pub(crate) fn set_birth(&mut self, place: usize, birth: Birth)
        // requires { place < length self.old.entities }
        // ensures entities { self.new.entities ≡ with_birth_at self.old.entities place birth }
        // ensures room { self.new.room ≡ self.old.room }
    {
        self.residents[place].birth = birth;
    }

    /// How many columns there are beyond those of the 256 components: none. Each component that an
    /// entity has is one of these.
    ///
    /// <details><summary>Contract</summary>
    ///
    /// <code style="display: block; tab-size: 4; white-space: pre-wrap">// In the words of [contracts](crate::contracts):
    /// ensures none { result ≡ 0 }
    /// ensures within { [All](crate::contracts::logic#All) (λ entity. (id : Component) (v : [ℤ](crate::contracts::logic#ℤ))
    /// &#9;→ [finite.get](crate::contracts::logic#FinMap.get) entity.components id ≡ [Some](crate::contracts::logic#Some) v → id.0 \< 256) self.now.entities }
    /// </code>
    ///
    /// </details>
    #[inline]
    pub fn beyond(&self) -> usize {
        self.columns.len().saturating_sub(256)
    }

    /// The value of a component of the entity at the place, if it has the component.
    #[inline]
    pub(crate) fn value(&self, place: usize, id: ComponentId) -> Option<i64>
        // requires { place < length self.now.entities }
        // ensures { HoldsAt (λ entity. result ≡ finite.get entity.components id)
        //     self.now.entities place }
    {
        columns::value(&self.columns, place, id)
    }

    /// The components of the entity at the place and their values, in ascending order of number.
    #[inline]
    pub(crate) fn items(&self, place: usize) -> Items<'_>
        // requires { place < length self.now.entities }
        // ensures { HoldsAt (λ entity. result ≡ finite.entries entity.components)
        //     self.now.entities place }
    {
        Items::new(&self.columns, &self.used, place)
    }

    /// Adds an entity without components. There has to be room for it.
    #[inline]
    pub(crate) fn push(&mut self, handle: Handle, birth: Birth)
        // requires { length self.old.entities < self.old.room }
        // ensures entities { self.new.entities ≡ self.old.entities
        //     ++ record { handle = handle; birth = birth; components = finite.empty } ∷ [] }
        // ensures room { self.new.room ≡ self.old.room }
    {
        self.residents.push_reserved(Resident { handle, birth });
    }

    /// Takes the entity at the place out, and moves the last one there. It doesn't allocate.
    #[inline(always)]
    pub(crate) fn swap_remove(&mut self, place: usize)
        // requires { place < length self.old.entities }
        // ensures entities { IsMovedInto self.old.entities place self.new.entities }
        // ensures room { self.new.room ≡ self.old.room }
    {
        let last = self.residents.len() - 1;
        columns::swap_remove(&mut self.columns, &self.used, place, last);
        let _ = self.residents.swap_remove(place);
    }

    /// Sets each of the items of the entity at the place, the first item first. After an `Err`
    /// nothing is changed.
    #[inline(always)]
    pub(crate) fn insert(&mut self, place: usize, items: &[(ComponentId, i64)]) -> Result<(), AllocError>
        // requires { place < length self.old.entities }
        // ensures ok { OnOk result (self.new.entities
        //     ≡ change_at self.old.entities place (λ held. with_items held items.now)) }
        // ensures room { self.new.room ≡ self.old.room }
        // ensures err { OnErr result (self.new.entities ≡ self.old.entities) }
        // ensures growing { OnErr result
        //     (HoldsAt (λ entity. 0 < missing entity.components items.now) self.old.entities place) }
    {
        columns::reserve_all(&mut self.columns, &mut self.used, place, items)?;
        columns::set_all(&mut self.columns, place, items);
        Ok(())
    }

    /// Takes a component out of the entity at the place, and returns its value. It doesn't
    /// allocate.
    #[inline]
    pub(crate) fn remove(&mut self, place: usize, id: ComponentId) -> Option<i64>
        // requires { place < length self.old.entities }
        // ensures value { HoldsAt (λ entity. result ≡ finite.get entity.components id)
        //     self.old.entities place }
        // ensures entities { self.new.entities
        //     ≡ change_at self.old.entities place (λ held. finite.remove held id) }
        // ensures room { self.new.room ≡ self.old.room }
    {
        columns::remove(&mut self.columns, place, id)
    }

    /// The handles of the entities, by birth and then by handle. It doesn't allocate if there is
    /// none.
    ///
    /// <details><summary>Contract</summary>
    ///
    /// <code style="display: block; tab-size: 4; white-space: pre-wrap">// In the words of [contracts](crate::contracts):
    /// ensures ok { [IfOk](crate::contracts::logic#IfOk) result (λ handles. [IsInOrder](crate::contracts::ent_storage::birth_order#IsInOrder)
    /// &#9;([map](crate::contracts::logic#map) (λ entity. (entity.birth, entity.handle)) self.now.entities) handles.items) }
    /// ensures memory { [OnErr](crate::contracts::logic#OnErr) result (0 \< [length](crate::contracts::logic#length) self.now.entities) }
    /// </code>
    ///
    /// </details>
    #[inline]
    pub fn by_birth(&self) -> Result<Vec<Handle>, AllocError> {
        handles_by_birth(&self.residents)
    }

    /// The least handle of an entity with that birth, if there is one. It doesn't allocate.
    ///
    /// <details><summary>Contract</summary>
    ///
    /// <code style="display: block; tab-size: 4; white-space: pre-wrap">// In the words of [contracts](crate::contracts):
    /// ensures { [IsLeastOf](crate::contracts::ent_storage::birth_order#IsLeastOf) birth
    /// &#9;([map](crate::contracts::logic#map) (λ entity. (entity.birth, entity.handle)) self.now.entities) result }
    /// </code>
    ///
    /// </details>
    #[inline]
    pub fn of_birth(&self, birth: Birth) -> Option<Handle> {
        least_of_birth(&self.residents, birth)
    }

    /// The birth and the handle of the entity at the place of each pair. With none, it doesn't
    /// allocate.
    #[inline]
    pub(crate) fn births_at(
        &self,
        pairs: &[(usize, i64)],
    ) -> Result<Vec<(Birth, Handle)>, AllocError>
        // requires { All (λ pair. pair.0 < length self.now.entities) pairs.now }
        // ensures ok { IfOk result (λ births. map Some births.items
        //     ≡ map (λ pair. born_at self.now.entities pair.0) pairs.now) }
        // ensures memory { OnErr result (0 < length pairs.now) }
    {
        let mut births = Vec::with_capacity_fallibly(pairs.len())?;
        for pair in pairs {
            let resident = self.residents[pair.0];
            births.push_fallibly((resident.birth, resident.handle))?;
        }
        Ok(births)
    }

    /// The place and the value of each entity that has the component.
    ///
    /// <details><summary>Contract</summary>
    ///
    /// <code style="display: block; tab-size: 4; white-space: pre-wrap">// In the words of [contracts](crate::contracts):
    /// ensures has { (place : [ℕ](crate::contracts::logic#ℕ)) (v : [ℤ](crate::contracts::logic#ℤ)) → [Contains](crate::contracts::logic#Contains) result.now (place, v)
    /// &#9;→ [IsValueAt](crate::contracts::ent_storage::living#IsValueAt) self.now.entities place id v }
    /// ensures all { (place : [ℕ](crate::contracts::logic#ℕ)) (v : [ℤ](crate::contracts::logic#ℤ)) → [IsValueAt](crate::contracts::ent_storage::living#IsValueAt) self.now.entities place id v
    /// &#9;→ [Contains](crate::contracts::logic#Contains) result.now (place, v) }
    /// ensures once { [AllPairs](crate::contracts::logic#AllPairs) (λ a b. a.0 ≢ b.0) result.now }
    /// </code>
    ///
    /// </details>
    #[inline]
    pub fn pairs(&self, id: ComponentId) -> &[(usize, i64)] {
        match self.columns.get(id.0 as usize) {
            Some(column) => column.pairs(),
            None => &[],
        }
    }
}

/// Returns `true` if the entity at the place has the handle of that key.
///
/// <details><summary>Contract</summary>
///
/// <code style="display: block; tab-size: 4; white-space: pre-wrap">// In the words of [contracts](crate::contracts):
/// ensures { result
/// &#9;≡ [has_handle_at](crate::contracts::ent_storage::indexed#has_handle_at) ([handles_by_place](crate::contracts::ent_storage::indexed#handles_by_place) living.now.entities) key ([Some](crate::contracts::logic#Some) place) }
/// </code>
///
/// </details>
#[inline]
pub fn has_key_at(living: &Living, key: Key, place: usize) -> bool {
    match living.residents.get(place) {
        Some(entity) => key.is_of(entity.handle),
        None => false,
    }
}
