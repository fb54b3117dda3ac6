// Made of crates/ent_storage/src/storage.rt by rust/erase. It isn't edited by hand.

use super::fault::StorageError;
use super::index::Index;
use super::rows::Rows;
use crate::handles::{Birth, ComponentId, Handle, OutOfMemory};

/// The births and components of living entities: for each handle its birth, and a value for each
/// component that the entity has.
///
/// It does not know which handles an allocator has given: keep it beside an
/// [`Entities`](crate::Entities). A [`World`](crate::World) has both.
///
/// ```
/// use forgeni::{Birth, ComponentId, Entities, Storage};
///
/// const SPEED: ComponentId = ComponentId(0);
///
/// let mut entities = Entities::new();
/// let mut storage = Storage::new();
/// let cart = entities.alloc()?;
/// storage.born(cart, Birth { frame: 0, system: 0, ordinal: 0 })?;
/// storage.insert(cart, &[(SPEED, 40)])?;
/// assert_eq!(storage.get(cart, SPEED), Some(40));
/// # Ok::<(), Box<dyn std::error::Error>>(())
/// ```
///
/// It is `Send` and `Sync`: it can go to another thread, and many threads can read it at once.
///
/// Looking up an entity by its handle takes constant time if the handles are those of an allocator
/// that has retired few slots, and otherwise logarithmic time. The values of each component lie in
/// a vector of their own.
///
/// Contracts see a finite map from handles to births and components (`entities`), the handle at
/// each place of the vector of entities (`places`), and for how many more entities there is room
/// (`spare`).
pub struct Storage {
    pub(super) rows: Rows,
    pub(super) index: Index,
}

/// # Making one
impl Storage {
    /// Creates a storage without entities. It doesn't allocate.
    ///
    /// ```
    /// use forgeni::{Birth, Entities, Storage};
    ///
    /// // For components beside an allocator of your own.
    /// let (mut entities, mut storage) = (Entities::new(), Storage::new());
    /// storage.born(entities.alloc()?, Birth { frame: 0, system: 0, ordinal: 0 })?;
    /// assert_eq!(storage.len(), entities.iter().count());
    /// # Ok::<(), Box<dyn std::error::Error>>(())
    /// ```
    ///
    /// <details><summary>Contract</summary>
    ///
    /// <code style="display: block; tab-size: 4; white-space: pre-wrap">// In the words of [contracts](crate::contracts):
    /// ensures entities { result.entities ≡ [map.empty](crate::contracts::logic#FinMap.empty) }
    /// ensures spare { result.spare ≡ 0 }
    /// ensures places { result.places ≡ \[\] }
    /// </code>
    ///
    /// </details>
    #[must_use]
    #[inline]
    pub fn new() -> Self {
        Storage {
            rows: Rows::new(),
            index: Index::new(),
        }
    }
}

/// # Entities and components
impl Storage {
    /// Adds an entity without components. If `spare` is above 0, it doesn't allocate, and lowers
    /// `spare` by 1.
    ///
    /// It takes the time of one look-up if the handle comes after all others, or if the index has a
    /// pair that doesn't count where the new pair goes, or beside it. With an allocator's handles
    /// that is the pair of the slot's last occupant, or of a slot that was passed over: the index
    /// makes those as far as it has room ([`reserve_slots`](Self::reserve_slots)). Otherwise the
    /// later pairs of the index move up by one. If the index is full, the pairs of all entities
    /// that are gone are dropped first, in one pass.
    ///
    /// ```
    /// use forgeni::{Birth, Entities, Storage};
    ///
    /// let (mut entities, mut storage) = (Entities::new(), Storage::new());
    /// let mut born = Vec::new();
    /// entities.request_many(3)?;
    /// entities.flush(&mut born)?;
    /// for (ordinal, one) in (0..).zip(born) {
    ///     storage.born(one, Birth { frame: 0, system: 0, ordinal })?;
    /// }
    /// assert_eq!(storage.len(), 3);
    /// # Ok::<(), Box<dyn std::error::Error>>(())
    /// ```
    ///
    /// # Errors
    ///
    /// Nothing has changed.
    ///
    /// - `Present`: the entity is there already. This is tested first.
    /// - `Memory`: `spare` is 0, and memory ran out, or there are 4,294,967,296 entities, which is
    ///   the most.
    ///
    /// <details><summary>Contract</summary>
    ///
    /// <code style="display: block; tab-size: 4; white-space: pre-wrap">// In the words of [contracts](crate::contracts):
    /// ensures ok { [OnOk](crate::contracts::logic#OnOk) result
    /// &#9;(self.new.entities ≡ [map.insert](crate::contracts::logic#FinMap.insert) self.old.entities handle ([newborn](crate::contracts::ent_storage::entity_map#newborn) birth)) }
    /// ensures spare { [OnOk](crate::contracts::logic#OnOk) result (0 \< self.old.spare → self.new.spare + 1 ≡ self.old.spare) }
    /// ensures places { [OnOk](crate::contracts::logic#OnOk) result (self.new.places ≡ self.old.places ++ handle ∷ \[\]) }
    /// &#32;
    /// ensures present { [IsErrOf](crate::contracts::logic#IsErrOf) result StorageError.Present
    /// &#9;↔ [IsTrue](crate::contracts::logic#IsTrue) ([map.contains_key](crate::contracts::logic#FinMap.contains_key) self.old.entities handle) }
    /// ensures memory_without_room { [IsErrOf](crate::contracts::logic#IsErrOf) result StorageError.Memory → self.old.spare ≡ 0 }
    /// ensures never_absent { ¬ ([IsErrOf](crate::contracts::logic#IsErrOf) result StorageError.Absent) }
    /// ensures err { [OnErr](crate::contracts::logic#OnErr) result (self.new ≡ self.old) }
    /// </code>
    ///
    /// </details>
    #[inline(always)]
    pub fn born(&mut self, handle: Handle, birth: Birth) -> Result<(), StorageError> {
        if !self.has_spare() {
            if self.contains(handle) {
                return Err(StorageError::Present);
            }
            self.reserve(1)?;
        }
        self.born_within(handle, birth)
    }

    /// Removes the entity, with all its components. It doesn't allocate, and raises `spare` by 1.
    ///
    /// It takes the time of two look-ups, and time for each component that any entity has ever had.
    /// The index stays as it is, except for the entity that moves.
    ///
    /// ```
    /// use forgeni::{Birth, Entities, Storage};
    ///
    /// let (mut entities, mut storage) = (Entities::new(), Storage::new());
    /// let cart = entities.alloc()?;
    /// storage.born(cart, Birth { frame: 0, system: 0, ordinal: 0 })?;
    /// // The one doesn't know of the other: both have to be called.
    /// storage.despawn(cart)?;
    /// entities.free(cart)?;
    /// assert!(storage.is_empty() && entities.is_empty());
    /// # Ok::<(), Box<dyn std::error::Error>>(())
    /// ```
    ///
    /// # Errors
    ///
    /// `Absent`: the entity is not there. Nothing has changed.
    ///
    /// <details><summary>Contract</summary>
    ///
    /// <code style="display: block; tab-size: 4; white-space: pre-wrap">// In the words of [contracts](crate::contracts):
    /// ensures ok { [OnOk](crate::contracts::logic#OnOk) result (self.new.entities ≡ [map.remove](crate::contracts::logic#FinMap.remove) self.old.entities handle) }
    /// ensures spare { [OnOk](crate::contracts::logic#OnOk) result (self.new.spare ≡ self.old.spare + 1) }
    /// ensures places { [OnOk](crate::contracts::logic#OnOk) result ([SomeIndex](crate::contracts::logic#SomeIndex) self.old.places (λ place.
    /// &#9;([slice_get](crate::contracts::logic#slice_get) self.old.places place ≡ [Some](crate::contracts::logic#Some) handle)
    /// &#9;× [AreWithout](crate::contracts::ent_storage::places#AreWithout) place self.old.places self.new.places)) }
    /// &#32;
    /// ensures absent { [IsErrOf](crate::contracts::logic#IsErrOf) result StorageError.Absent
    /// &#9;↔ ([map.get](crate::contracts::logic#FinMap.get) self.old.entities handle ≡ [None](crate::contracts::logic#None)) }
    /// ensures only_absent { [IfErr](crate::contracts::logic#IfErr) result (λ fault. fault ≡ StorageError.Absent) }
    /// ensures err { [OnErr](crate::contracts::logic#OnErr) result (self.new ≡ self.old) }
    /// </code>
    ///
    /// </details>
    #[inline(always)]
    pub fn despawn(&mut self, handle: Handle) -> Result<(), StorageError> {
        let Some(place) = self.place(handle) else {
            return Err(StorageError::Absent);
        };
        if let Some(moved) = self.rows.despawn_at(place, handle) {
            self.index.set_place(moved, place);
        }
        // So the next birth in its slot looks at no entity.
        self.index.forget(handle);
        Ok(())
    }

    /// Sets each of the components, and leaves the entity's others as they are. The list may be in
    /// any order. If a component is in it twice, its last value counts.
    ///
    /// It takes memory only for components that the entity does not have yet.
    ///
    /// ```
    /// use forgeni::{Birth, ComponentId, Handle, Storage};
    ///
    /// let [mass, speed] = [ComponentId(0), ComponentId(1)];
    /// let cart = Handle::new(0, 1).unwrap();
    /// let mut storage = Storage::new();
    /// storage.born(cart, Birth { frame: 0, system: 0, ordinal: 0 })?;
    /// storage.insert(cart, &[(speed, 1), (mass, 7), (speed, 2)])?;
    /// assert!(storage.items(cart).unwrap().eq([(mass, 7), (speed, 2)]));
    /// # Ok::<(), Box<dyn std::error::Error>>(())
    /// ```
    ///
    /// # Errors
    ///
    /// Nothing has changed.
    ///
    /// - `Absent`: the entity is not there.
    /// - `Memory`: memory ran out for the components that the entity does not have yet.
    ///
    /// <details><summary>Contract</summary>
    ///
    /// <code style="display: block; tab-size: 4; white-space: pre-wrap">// In the words of [contracts](crate::contracts):
    /// ensures ok { [OnOk](crate::contracts::logic#OnOk) result (self.new.entities
    /// &#9;≡ [with_components](crate::contracts::ent_storage::entity_map#with_components) self.old.entities handle (λ held. [with_items](crate::contracts::ent_storage::components#with_items) held items.now)) }
    /// ensures spare { self.new.spare ≡ self.old.spare }
    /// ensures places { self.new.places ≡ self.old.places }
    /// &#32;
    /// ensures absent { [IsErrOf](crate::contracts::logic#IsErrOf) result StorageError.Absent
    /// &#9;↔ ([map.get](crate::contracts::logic#FinMap.get) self.old.entities handle ≡ [None](crate::contracts::logic#None)) }
    /// ensures memory_to_grow { [IsErrOf](crate::contracts::logic#IsErrOf) result StorageError.Memory
    /// &#9;→ [IfSome](crate::contracts::logic#IfSome) ([components_of](crate::contracts::ent_storage::entity_map#components_of) self.old.entities handle)
    /// &#9;(λ held. 0 \< [missing](crate::contracts::ent_storage::components#missing) held items.now) }
    /// ensures never_present { ¬ ([IsErrOf](crate::contracts::logic#IsErrOf) result StorageError.Present) }
    /// ensures err { [OnErr](crate::contracts::logic#OnErr) result (self.new ≡ self.old) }
    /// </code>
    ///
    /// </details>
    #[inline(always)]
    pub fn insert(
        &mut self,
        handle: Handle,
        items: &[(ComponentId, i64)],
    ) -> Result<(), StorageError> {
        let Some(place) = self.place(handle) else {
            return Err(StorageError::Absent);
        };
        self.rows.insert_at(place, handle, items)?;
        Ok(())
    }

    /// Removes the component from the entity, and returns its value, or `None` if the entity
    /// doesn't have it. It doesn't allocate.
    ///
    /// ```
    /// use forgeni::{Birth, ComponentId, Storage};
    ///
    /// const BURNING: ComponentId = ComponentId(0);
    ///
    /// let mut storage = Storage::new();
    /// let cart = "0v1".parse()?;
    /// storage.born(cart, Birth { frame: 0, system: 0, ordinal: 0 })?;
    /// storage.insert(cart, &[(BURNING, 3)])?;
    /// assert_eq!(storage.remove(cart, BURNING)?, Some(3));
    /// assert_eq!(storage.remove(cart, BURNING)?, None);
    /// # Ok::<(), Box<dyn std::error::Error>>(())
    /// ```
    ///
    /// # Errors
    ///
    /// `Absent`: the entity is not there. Nothing has changed.
    ///
    /// <details><summary>Contract</summary>
    ///
    /// <code style="display: block; tab-size: 4; white-space: pre-wrap">// In the words of [contracts](crate::contracts):
    /// ensures value { [IfOk](crate::contracts::logic#IfOk) result (λ value. value ≡ [value_of](crate::contracts::ent_storage::entity_map#value_of) self.old.entities handle id) }
    /// ensures ok { [OnOk](crate::contracts::logic#OnOk) result (self.new.entities
    /// &#9;≡ [with_components](crate::contracts::ent_storage::entity_map#with_components) self.old.entities handle (λ held. [map.remove](crate::contracts::logic#FinMap.remove) held id)) }
    /// ensures spare { self.new.spare ≡ self.old.spare }
    /// ensures places { self.new.places ≡ self.old.places }
    /// &#32;
    /// ensures absent { [IsErrOf](crate::contracts::logic#IsErrOf) result StorageError.Absent
    /// &#9;↔ ([map.get](crate::contracts::logic#FinMap.get) self.old.entities handle ≡ [None](crate::contracts::logic#None)) }
    /// ensures only_absent { [IfErr](crate::contracts::logic#IfErr) result (λ fault. fault ≡ StorageError.Absent) }
    /// ensures err { [OnErr](crate::contracts::logic#OnErr) result (self.new ≡ self.old) }
    /// </code>
    ///
    /// </details>
    #[inline]
    pub fn remove(&mut self, handle: Handle, id: ComponentId) -> Result<Option<i64>, StorageError> {
        let Some(place) = self.place(handle) else {
            return Err(StorageError::Absent);
        };
        Ok(self.rows.remove_at(place, handle, id))
    }
}

/// # Counts and room
impl Storage {
    /// Returns the number of entities. That is also the place of the next one to be born.
    ///
    /// ```
    /// use forgeni::{Birth, Storage};
    ///
    /// let mut storage = Storage::new();
    /// let cart = "0v1".parse()?;
    /// storage.born(cart, Birth { frame: 0, system: 0, ordinal: 0 })?;
    /// assert_eq!(storage.len(), 1);
    /// storage.despawn(cart)?;
    /// assert_eq!(storage.len(), 0);
    /// # Ok::<(), Box<dyn std::error::Error>>(())
    /// ```
    ///
    /// <details><summary>Contract</summary>
    ///
    /// <code style="display: block; tab-size: 4; white-space: pre-wrap">// In the words of [contracts](crate::contracts):
    /// ensures value { result ≡ [map.len](crate::contracts::logic#FinMap.len) self.now.entities }
    /// ensures places { result ≡ [length](crate::contracts::logic#length) self.now.places }
    /// </code>
    ///
    /// </details>
    #[must_use]
    #[inline]
    pub fn len(&self) -> usize {
        self.rows.len()
    }

    /// Returns `true` if there are no entities.
    ///
    /// ```
    /// use forgeni::{Birth, Storage};
    ///
    /// let mut storage = Storage::new();
    /// assert!(storage.is_empty());
    /// storage.born("0v1".parse()?, Birth { frame: 0, system: 0, ordinal: 0 })?;
    /// assert!(!storage.is_empty());
    /// # Ok::<(), Box<dyn std::error::Error>>(())
    /// ```
    ///
    /// <details><summary>Contract</summary>
    ///
    /// <code style="display: block; tab-size: 4; white-space: pre-wrap">// In the words of [contracts](crate::contracts):
    /// ensures { [IsTrue](crate::contracts::logic#IsTrue) result ↔ (self.now.entities ≡ [map.empty](crate::contracts::logic#FinMap.empty)) }
    /// </code>
    ///
    /// </details>
    #[must_use]
    #[inline]
    pub fn is_empty(&self) -> bool {
        self.rows.is_empty()
    }

    /// Returns the number of further entities that there is room for.
    ///
    /// `born` lowers it by 1, or makes more room if it is 0. `reserve` and `despawn` raise it.
    /// Nothing else changes it.
    ///
    /// ```
    /// use forgeni::{Birth, Storage};
    ///
    /// let mut storage = Storage::new();
    /// let cart = "0v1".parse()?;
    /// storage.reserve(1)?;
    /// let before = storage.spare();
    /// storage.born(cart, Birth { frame: 0, system: 0, ordinal: 0 })?;
    /// assert_eq!(storage.spare(), before - 1);
    /// storage.despawn(cart)?;
    /// assert_eq!(storage.spare(), before);
    /// # Ok::<(), Box<dyn std::error::Error>>(())
    /// ```
    ///
    /// <details><summary>Contract</summary>
    ///
    /// <code style="display: block; tab-size: 4; white-space: pre-wrap">// In the words of [contracts](crate::contracts):
    /// ensures { result ≡ self.now.spare }
    /// </code>
    ///
    /// </details>
    #[must_use]
    #[inline]
    pub fn spare(&self) -> usize {
        self.rows.spare().min(self.index.room() - self.rows.len())
    }

    /// Makes room for `additional` more entities, so that `born` doesn't allocate for them. If
    /// there is enough room already, it doesn't allocate, and changes nothing.
    ///
    /// ```
    /// use forgeni::Storage;
    ///
    /// let mut storage = Storage::new();
    /// storage.reserve(1000)?;
    /// assert!(storage.spare() >= 1000);
    /// # Ok::<(), forgeni::OutOfMemory>(())
    /// ```
    ///
    /// # Errors
    ///
    /// Out of memory, or there would be more than 4,294,967,296 entities. The entities are as
    /// before, and `spare` is below `additional`. It may have grown.
    ///
    /// <details><summary>Contract</summary>
    ///
    /// <code style="display: block; tab-size: 4; white-space: pre-wrap">// In the words of [contracts](crate::contracts):
    /// ensures entities { self.new.entities ≡ self.old.entities }
    /// ensures ok { [OnOk](crate::contracts::logic#OnOk) result (additional ≤ self.new.spare) }
    /// ensures grows { self.old.spare ≤ self.new.spare }
    /// ensures places { self.new.places ≡ self.old.places }
    /// &#32;
    /// // With room for that many, the call succeeds and changes nothing.
    /// ensures succeeds { additional ≤ self.old.spare → [IsOk](crate::contracts::logic#IsOk) result }
    /// ensures in_place { additional ≤ self.old.spare → self.new ≡ self.old }
    /// &#32;
    /// ensures err { [OnErr](crate::contracts::logic#OnErr) result (self.new.spare \< additional) }
    /// </code>
    ///
    /// </details>
    #[inline]
    pub fn reserve(&mut self, additional: usize) -> Result<(), OutOfMemory> {
        if additional <= self.spare() {
            return Ok(());
        }
        self.rows.reserve(additional)?;
        // With twice the room, the index drops handles that are gone half of its length at a time.
        let twice = self.rows.capacity().saturating_mul(2);
        if self.index.reserve(twice).is_err() {
            self.index.reserve(self.rows.len() + additional)?;
        }
        Ok(())
    }

    /// Makes room in the index for a pair of each of the first `slots` slots. If an allocator gives
    /// the handles, births in these slots then take constant time each, in any order. If there is
    /// that much room already, it doesn't allocate. Each slot takes twelve bytes.
    ///
    /// It is for a storage whose first births may be in the greatest slots, as with blocks. A
    /// [`World`](crate::World) has no index.
    ///
    /// ```
    /// use forgeni::{Birth, Entities, Storage};
    ///
    /// let mut entities = Entities::new();
    /// let mut storage = Storage::new();
    /// let all = entities.alloc_many(1000)?;
    /// storage.reserve_slots(entities.total() as usize)?;
    /// for (ordinal, handle) in all.into_iter().rev().enumerate() {
    ///     storage.born(handle, Birth { frame: 0, system: 0, ordinal: ordinal as u32 })?;
    /// }
    /// assert_eq!(storage.len(), 1000);
    /// # Ok::<(), Box<dyn std::error::Error + Send + Sync>>(())
    /// ```
    ///
    /// # Errors
    ///
    /// Out of memory, or more than 4,294,967,296 slots. Nothing has changed.
    ///
    /// <details><summary>Contract</summary>
    ///
    /// <code style="display: block; tab-size: 4; white-space: pre-wrap">// In the words of [contracts](crate::contracts):
    /// ensures kept { self.new ≡ record self.old { spare = self.new.spare } }
    /// ensures grows { self.old.spare ≤ self.new.spare }
    /// ensures succeeds { slots ≤ [length](crate::contracts::logic#length) self.old.places + self.old.spare → [IsOk](crate::contracts::logic#IsOk) result }
    /// ensures err { [OnErr](crate::contracts::logic#OnErr) result (self.new ≡ self.old) }
    /// </code>
    ///
    /// </details>
    #[inline]
    pub fn reserve_slots(&mut self, slots: usize) -> Result<(), OutOfMemory> {
        self.index.reserve(slots)?;
        Ok(())
    }
}

/// # Snapshots
impl Storage {
    /// Returns a storage with the same entities at the same places, with at least the same room.
    /// Without entities and room it doesn't allocate.
    ///
    /// ```
    /// use forgeni::{Birth, ComponentId, Handle, Storage};
    ///
    /// const SPEED: ComponentId = ComponentId(0);
    ///
    /// let cart = Handle::new(0, 1).unwrap();
    /// let mut now = Storage::new();
    /// now.born(cart, Birth { frame: 0, system: 0, ordinal: 0 })?;
    /// now.insert(cart, &[(SPEED, 40)])?;
    /// let before = now.try_clone()?;
    /// now.insert(cart, &[(SPEED, 50)])?;
    /// assert_eq!((now.get(cart, SPEED), before.get(cart, SPEED)), (Some(50), Some(40)));
    /// # Ok::<(), Box<dyn std::error::Error>>(())
    /// ```
    ///
    /// # Errors
    ///
    /// Out of memory.
    ///
    /// <details><summary>Contract</summary>
    ///
    /// <code style="display: block; tab-size: 4; white-space: pre-wrap">// In the words of [contracts](crate::contracts):
    /// ensures entities { [IfOk](crate::contracts::logic#IfOk) result (λ copy. copy.entities ≡ self.now.entities) }
    /// ensures places { [IfOk](crate::contracts::logic#IfOk) result (λ copy. copy.places ≡ self.now.places) }
    /// ensures spare { [IfOk](crate::contracts::logic#IfOk) result (λ copy. self.now.spare ≤ copy.spare) }
    /// ensures memory { [OnErr](crate::contracts::logic#OnErr) result (0 \< [length](crate::contracts::logic#length) self.now.places + self.now.spare) }
    /// </code>
    ///
    /// </details>
    #[inline]
    pub fn try_clone(&self) -> Result<Self, OutOfMemory> {
        if self.is_empty() && self.spare() == 0 {
            return Ok(Storage::new());
        }
        Ok(Storage {
            rows: self.rows.try_clone()?,
            index: self.index.try_clone()?,
        })
    }

    /// Copies the entities of another storage into this one, each at its place, like
    /// [`try_clone`](Self::try_clone). What this one had before is gone.
    ///
    /// It uses the room that this one has, and never gives it back. So a storage that another one
    /// is cloned into again and again takes memory only as that one grows.
    ///
    /// ```
    /// use forgeni::{Birth, ComponentId, Handle, Storage};
    ///
    /// const SPEED: ComponentId = ComponentId(0);
    ///
    /// let cart = Handle::new(0, 1).unwrap();
    /// let mut now = Storage::new();
    /// now.born(cart, Birth { frame: 0, system: 0, ordinal: 0 })?;
    /// let mut before = Storage::new();
    /// for speed in [30, 40] {
    ///     before.try_clone_from(&now)?;
    ///     now.insert(cart, &[(SPEED, speed)])?;
    /// }
    /// assert_eq!((now.get(cart, SPEED), before.get(cart, SPEED)), (Some(40), Some(30)));
    /// # Ok::<(), Box<dyn std::error::Error>>(())
    /// ```
    ///
    /// # Errors
    ///
    /// Out of memory for the room that the source has beyond that of this storage, or for values of
    /// components. All memory is allocated before anything changes, so the entities are as before.
    /// `spare` may have grown.
    ///
    /// <details><summary>Contract</summary>
    ///
    /// <code style="display: block; tab-size: 4; white-space: pre-wrap">// In the words of [contracts](crate::contracts):
    /// ensures entities { [OnOk](crate::contracts::logic#OnOk) result (self.new.entities ≡ source.now.entities) }
    /// ensures places { [OnOk](crate::contracts::logic#OnOk) result (self.new.places ≡ source.now.places) }
    /// ensures spare { [OnOk](crate::contracts::logic#OnOk) result (source.now.spare ≤ self.new.spare) }
    /// ensures room { [length](crate::contracts::logic#length) self.old.places + self.old.spare
    /// &#9;≤ [length](crate::contracts::logic#length) self.new.places + self.new.spare }
    /// &#32;
    /// // With as much room as the source, it takes memory only for components.
    /// ensures memory { [OnErr](crate::contracts::logic#OnErr) result
    /// &#9;(([length](crate::contracts::logic#length) self.old.places + self.old.spare
    /// &#9;\< [length](crate::contracts::logic#length) source.now.places + source.now.spare)
    /// &#9;⊎ ¬ ([AreBare](crate::contracts::ent_storage::entity_map#AreBare) source.now.entities)) }
    /// ensures err { [OnErr](crate::contracts::logic#OnErr) result (self.new ≡ record self.old { spare = self.new.spare }) }
    /// </code>
    ///
    /// </details>
    #[inline]
    pub fn try_clone_from(&mut self, source: &Storage) -> Result<(), OutOfMemory> {
        let count = source.rows.capacity().min(source.index.room());
        self.index.reserve_or_more(count, source.index.room())?;
        self.rows.clone_within(&source.rows, count)?;
        self.index.take_over(&source.index, &self.rows);
        Ok(())
    }
}

impl Storage {
    /// Whether there is room for one more entity.
    #[inline(always)]
    fn has_spare(&self) -> bool
        // ensures { IsTrue result ↔ (0 < self.now.spare) }
    {
        let len = self.rows.len();
        len < self.rows.capacity() && len < self.index.room()
    }

    /// Does what [`Storage::born`] does, where there is room: a caller that adds many tests that
    /// once for all of them. It doesn't allocate, and lowers `spare` by 1.
    ///
    /// # Errors
    ///
    /// `Present`: the entity is there already. Nothing has changed.
    #[inline(always)]
    fn born_within(&mut self, handle: Handle, birth: Birth) -> Result<(), StorageError>
        // requires room { 0 < self.old.spare }
        // ensures ok { OnOk result
        //     (self.new.entities ≡ map.insert self.old.entities handle (newborn birth)) }
        // ensures spare { OnOk result (self.new.spare + 1 ≡ self.old.spare) }
        // ensures places { OnOk result (self.new.places ≡ self.old.places ++ handle ∷ []) }
        // ensures present { IsErrOf result StorageError.Present
        //     ↔ IsTrue (map.contains_key self.old.entities handle) }
        // ensures only_present { IfErr result (λ fault. fault ≡ StorageError.Present) }
        // ensures err { OnErr result (self.new ≡ self.old) }
    {
        if self.index.put(&self.rows, handle) {
            self.rows.push(handle, birth);
            Ok(())
        } else {
            Err(StorageError::Present)
        }
    }
}
