// Made of crates/ent_storage/src/looking.rt by rust/erase. It isn't edited by hand.

//! What a storage has: the look-ups, which change nothing.

use alloc::vec::Vec;
use crate::components::items::Items;
use crate::components::storage::Storage;
use crate::handles::{Birth, ComponentId, Handle, OutOfMemory};

/// # Looking at entities
impl Storage {
    /// Returns the value of the entity's component, if the storage has the entity and the entity
    /// has the component.
    ///
    /// ```
    /// use forgeni::{Birth, ComponentId, Storage};
    ///
    /// const SPEED: ComponentId = ComponentId(0);
    ///
    /// let mut storage = Storage::new();
    /// let cart = "0v1".parse()?;
    /// storage.born(cart, Birth { frame: 0, system: 0, ordinal: 0 })?;
    /// assert_eq!(storage.get(cart, SPEED), None);
    /// storage.insert(cart, &[(SPEED, 40)])?;
    /// assert_eq!(storage.get(cart, SPEED), Some(40));
    /// # Ok::<(), Box<dyn std::error::Error>>(())
    /// ```
    ///
    /// <details><summary>Contract</summary>
    ///
    /// <code style="display: block; tab-size: 4; white-space: pre-wrap">// In the words of [contracts](crate::contracts):
    /// ensures { result ≡ [value_of](crate::contracts::ent_storage::entity_map#value_of) self.now.entities handle id }
    /// </code>
    ///
    /// </details>
    #[must_use]
    #[inline]
    pub fn get(&self, handle: Handle, id: ComponentId) -> Option<i64> {
        let place = self.place(handle)?;
        self.rows.get_at(place, handle, id)
    }

    /// Returns `true` if the storage has the entity.
    ///
    /// ```
    /// use forgeni::{Birth, Storage};
    ///
    /// let mut storage = Storage::new();
    /// let (cart, horse) = ("0v1".parse()?, "1v1".parse()?);
    /// storage.born(cart, Birth { frame: 0, system: 0, ordinal: 0 })?;
    /// assert!(storage.contains(cart) && !storage.contains(horse));
    /// # Ok::<(), Box<dyn std::error::Error>>(())
    /// ```
    ///
    /// <details><summary>Contract</summary>
    ///
    /// <code style="display: block; tab-size: 4; white-space: pre-wrap">// In the words of [contracts](crate::contracts):
    /// ensures { result ≡ [map.contains_key](crate::contracts::logic#FinMap.contains_key) self.now.entities handle }
    /// </code>
    ///
    /// </details>
    #[must_use]
    #[inline]
    pub fn contains(&self, handle: Handle) -> bool {
        self.place(handle).is_some()
    }

    /// Returns the birth of the entity, if the storage has it.
    ///
    /// ```
    /// use forgeni::{Birth, Storage};
    ///
    /// let mut storage = Storage::new();
    /// let cart = "0v1".parse()?;
    /// storage.born(cart, Birth { frame: 7, system: 0, ordinal: 0 })?;
    /// let age = |now: u64| storage.birth(cart).map(|it| now - it.frame);
    /// assert_eq!(age(10), Some(3));
    /// # Ok::<(), Box<dyn std::error::Error>>(())
    /// ```
    ///
    /// <details><summary>Contract</summary>
    ///
    /// <code style="display: block; tab-size: 4; white-space: pre-wrap">// In the words of [contracts](crate::contracts):
    /// ensures { result ≡ [birth_of](crate::contracts::ent_storage::entity_map#birth_of) self.now.entities handle }
    /// </code>
    ///
    /// </details>
    #[must_use]
    #[inline]
    pub fn birth(&self, handle: Handle) -> Option<Birth> {
        let place = self.place(handle)?;
        Some(self.rows.birth_at(place, handle))
    }

    /// Returns the entity's components and their values, in ascending order of number, if the
    /// storage has the entity.
    ///
    /// ```
    /// use forgeni::{Birth, ComponentId, Storage};
    ///
    /// let mut storage = Storage::new();
    /// let cart = "0v1".parse()?;
    /// storage.born(cart, Birth { frame: 0, system: 0, ordinal: 0 })?;
    /// storage.insert(cart, &[(ComponentId(7), 2), (ComponentId(3), 1)])?;
    /// let items = storage.items(cart).ok_or("it isn't there")?;
    /// assert!(items.eq([(ComponentId(3), 1), (ComponentId(7), 2)]));
    /// # Ok::<(), Box<dyn std::error::Error>>(())
    /// ```
    ///
    /// <details><summary>Contract</summary>
    ///
    /// <code style="display: block; tab-size: 4; white-space: pre-wrap">// In the words of [contracts](crate::contracts):
    /// ensures { result ≡ [option_map](crate::contracts::logic#option_map) [map.entries](crate::contracts::logic#FinMap.entries) ([components_of](crate::contracts::ent_storage::entity_map#components_of) self.now.entities handle) }
    /// </code>
    ///
    /// </details>
    #[must_use]
    #[inline]
    pub fn items(&self, handle: Handle) -> Option<Items<'_>> {
        let place = self.place(handle)?;
        Some(self.rows.items_at(place, handle))
    }

    /// Returns the place and the value of each entity that has the component, in no particular
    /// order, as one slice. It doesn't allocate.
    ///
    /// ```
    /// use forgeni::{Birth, ComponentId, Handle, Storage};
    ///
    /// const MASS: ComponentId = ComponentId(0);
    ///
    /// let mut storage = Storage::new();
    /// for (ordinal, mass) in [(0, 900), (1, 80)] {
    ///     let one = Handle::new(ordinal, 1).ok_or("out of range")?;
    ///     storage.born(one, Birth { frame: 0, system: 0, ordinal })?;
    ///     storage.insert(one, &[(MASS, mass)])?;
    /// }
    /// assert_eq!(storage.dense(MASS).iter().map(|(_, mass)| mass).sum::<i64>(), 980);
    /// # Ok::<(), Box<dyn std::error::Error>>(())
    /// ```
    ///
    /// <details><summary>Contract</summary>
    ///
    /// <code style="display: block; tab-size: 4; white-space: pre-wrap">// In the words of [contracts](crate::contracts):
    /// ensures has { (place : [ℕ](crate::contracts::logic#ℕ)) (value : [ℤ](crate::contracts::logic#ℤ)) → [Contains](crate::contracts::logic#Contains) result.now (place, value)
    /// &#9;↔ ([value_at_place](crate::contracts::ent_storage::entity_map#value_at_place) self.now place id ≡ [Some](crate::contracts::logic#Some) value) }
    /// ensures once { [AllPairs](crate::contracts::logic#AllPairs) (λ a b. a.0 ≢ b.0) result.now }
    /// </code>
    ///
    /// </details>
    #[must_use]
    #[inline]
    pub fn dense(&self, id: ComponentId) -> &[(usize, i64)] {
        self.rows.dense(id)
    }

    /// Returns the handles of the entities that have the component, ordered by birth and then by
    /// handle. It takes the time of sorting these.
    ///
    /// ```
    /// use forgeni::{Birth, ComponentId, Storage};
    ///
    /// const BURNING: ComponentId = ComponentId(0);
    ///
    /// let mut storage = Storage::new();
    /// let (cart, horse) = ("0v1".parse()?, "1v1".parse()?);
    /// for (ordinal, one) in (0..).zip([cart, horse]) {
    ///     storage.born(one, Birth { frame: 0, system: 0, ordinal })?;
    /// }
    /// storage.insert(horse, &[(BURNING, 1)])?;
    /// assert_eq!(storage.with(BURNING)?, [horse]);
    /// # Ok::<(), Box<dyn std::error::Error>>(())
    /// ```
    ///
    /// # Errors
    ///
    /// Out of memory for the list. It is never returned if no entity has the component.
    ///
    /// <details><summary>Contract</summary>
    ///
    /// <code style="display: block; tab-size: 4; white-space: pre-wrap">// In the words of [contracts](crate::contracts):
    /// ensures ok { [IfOk](crate::contracts::logic#IfOk) result (λ handles. [ListsWith](crate::contracts::ent_storage::birth_order#ListsWith) id self.now.entities handles.items) }
    /// ensures memory { [OnErr](crate::contracts::logic#OnErr) result
    /// &#9;((handle : [Handle](crate::contracts::ent_handle::handle#Handle)) × [IsSome](crate::contracts::logic#IsSome) ([value_of](crate::contracts::ent_storage::entity_map#value_of) self.now.entities handle id)) }
    /// </code>
    ///
    /// </details>
    #[inline]
    pub fn with(&self, id: ComponentId) -> Result<Vec<Handle>, OutOfMemory> {
        self.rows.with(id)
    }

    /// Returns the handles of all entities, ordered by birth and then by handle. It takes the time
    /// of a sort, or of one pass if they are in that order, as they mostly are until one despawns.
    ///
    /// ```
    /// use forgeni::{Birth, Storage};
    ///
    /// let mut storage = Storage::new();
    /// let (cart, horse) = ("0v2".parse()?, "1v1".parse()?);
    /// storage.born(cart, Birth { frame: 5, system: 0, ordinal: 0 })?;
    /// storage.born(horse, Birth { frame: 3, system: 0, ordinal: 0 })?;
    /// assert_eq!(storage.by_birth()?, [horse, cart]);
    /// # Ok::<(), Box<dyn std::error::Error>>(())
    /// ```
    ///
    /// # Errors
    ///
    /// Out of memory for the list. It is never returned if there are no entities.
    ///
    /// <details><summary>Contract</summary>
    ///
    /// <code style="display: block; tab-size: 4; white-space: pre-wrap">// In the words of [contracts](crate::contracts):
    /// ensures ok { [IfOk](crate::contracts::logic#IfOk) result (λ handles. [ListsAll](crate::contracts::ent_storage::birth_order#ListsAll) self.now.entities handles.items) }
    /// ensures memory { [OnErr](crate::contracts::logic#OnErr) result (self.now.entities ≢ [map.empty](crate::contracts::logic#FinMap.empty)) }
    /// </code>
    ///
    /// </details>
    #[inline]
    pub fn by_birth(&self) -> Result<Vec<Handle>, OutOfMemory> {
        self.rows.by_birth()
    }

    /// Returns the handle of the entity with that birth, if there is one. If several entities have
    /// the birth, it returns the least of their handles.
    ///
    /// It doesn't allocate, and takes time for each entity.
    ///
    /// ```
    /// use forgeni::{Birth, Storage};
    ///
    /// let birth = Birth { frame: 5, system: 1, ordinal: 0 };
    /// let mut storage = Storage::new();
    /// let cart = "0v2".parse()?;
    /// storage.born(cart, birth)?;
    /// // A message of another machine, where the handle is another one.
    /// assert_eq!(storage.of_birth(birth), Some(cart));
    /// # Ok::<(), Box<dyn std::error::Error>>(())
    /// ```
    ///
    /// <details><summary>Contract</summary>
    ///
    /// <code style="display: block; tab-size: 4; white-space: pre-wrap">// In the words of [contracts](crate::contracts):
    /// ensures found { [IfSome](crate::contracts::logic#IfSome) result (λ handle.
    /// &#9;[birth_of](crate::contracts::ent_storage::entity_map#birth_of) self.now.entities handle ≡ [Some](crate::contracts::logic#Some) birth) }
    /// ensures least { [IfSome](crate::contracts::logic#IfSome) result (λ handle. (other : [Handle](crate::contracts::ent_handle::handle#Handle))
    /// &#9;→ [birth_of](crate::contracts::ent_storage::entity_map#birth_of) self.now.entities other ≡ [Some](crate::contracts::logic#Some) birth
    /// &#9;→ [handle_cmp](crate::contracts::ent_handle::handle#handle_cmp) handle other ≢ Greater) }
    /// ensures none { [IfNone](crate::contracts::logic#IfNone) result ((handle : [Handle](crate::contracts::ent_handle::handle#Handle))
    /// &#9;→ [birth_of](crate::contracts::ent_storage::entity_map#birth_of) self.now.entities handle ≢ [Some](crate::contracts::logic#Some) birth) }
    /// </code>
    ///
    /// </details>
    #[must_use]
    #[inline]
    pub fn of_birth(&self, birth: Birth) -> Option<Handle> {
        self.rows.of_birth(birth)
    }

    /// Returns the place of the entity in the vector of entities, if the storage has it. The place
    /// stays the same until an entity is removed.
    ///
    /// ```
    /// use forgeni::{Birth, Storage};
    ///
    /// let mut storage = Storage::new();
    /// let (cart, horse) = ("0v1".parse()?, "1v1".parse()?);
    /// for (ordinal, one) in (0..).zip([cart, horse]) {
    ///     storage.born(one, Birth { frame: 0, system: 0, ordinal })?;
    /// }
    /// storage.despawn(cart)?;
    /// // The last one has moved into the gap.
    /// assert_eq!(storage.place(horse), Some(0));
    /// # Ok::<(), Box<dyn std::error::Error>>(())
    /// ```
    ///
    /// <details><summary>Contract</summary>
    ///
    /// <code style="display: block; tab-size: 4; white-space: pre-wrap">// In the words of [contracts](crate::contracts):
    /// ensures at { (i : [ℕ](crate::contracts::logic#ℕ)) → (result ≡ [Some](crate::contracts::logic#Some) i) ↔ ([slice_get](crate::contracts::logic#slice_get) self.now.places i ≡ [Some](crate::contracts::logic#Some) handle) }
    /// ensures there { [is_some](crate::contracts::logic#is_some) result ≡ [map.contains_key](crate::contracts::logic#FinMap.contains_key) self.now.entities handle }
    /// </code>
    ///
    /// </details>
    #[must_use]
    #[inline(always)]
    pub fn place(&self, handle: Handle) -> Option<usize> {
        self.index.place(&self.rows, handle)
    }
}

impl Storage {
    /// Returns the number of components up to the last one that any entity has.
    ///
    /// ```
    /// use forgeni::{Birth, ComponentId, Storage};
    ///
    /// let mut storage = Storage::new();
    /// let cart = "0v1".parse()?;
    /// storage.born(cart, Birth { frame: 0, system: 0, ordinal: 0 })?;
    /// storage.insert(cart, &[(ComponentId(9), 1)])?;
    /// // Components 0 to 9.
    /// assert_eq!(storage.width(), 10);
    /// # Ok::<(), Box<dyn std::error::Error>>(())
    /// ```
    ///
    /// <details><summary>Contract</summary>
    ///
    /// <code style="display: block; tab-size: 4; white-space: pre-wrap">// In the words of [contracts](crate::contracts):
    /// ensures value { result ≡ [width](crate::contracts::ent_storage::image#width) self.now.entities self.now.places }
    /// ensures most { result ≤ 256 }
    /// ensures within { (h : [Handle](crate::contracts::ent_handle::handle#Handle)) (id : Component) (v : [ℤ](crate::contracts::logic#ℤ))
    /// &#9;→ [value_of](crate::contracts::ent_storage::entity_map#value_of) self.now.entities h id ≡ [Some](crate::contracts::logic#Some) v → id.0 \< result }
    /// </code>
    ///
    /// </details>
    #[inline]
    pub fn width(&self) -> u32 {
        self.rows.width()
    }
}
