// Made of crates/ent_storage/src/sparse_map/entry.rt by rust/erase. It isn't edited by hand.

use crate::components::handle_map::InsertError;
use crate::components::sparse_map::SparseMap;
use crate::handles::{HandedBack, Handle};
use core::mem;

/// A view into the entry of one handle in a sparse map, which is occupied or vacant.
///
/// It is created by [`SparseMap::entry`](super::SparseMap::entry).
///
/// ```
/// use forgeni::sparse_map::{Entry, SparseMap};
///
/// let mut names = SparseMap::new();
/// let said = match names.entry("0v1".parse()?) {
///     Entry::Occupied(entry) => format!("{} again", entry.get()),
///     Entry::Vacant(entry) => format!("{} is new", entry.insert("Ada")?),
/// };
/// assert_eq!(said, "Ada is new");
/// # Ok::<(), Box<dyn std::error::Error>>(())
/// ```
pub enum Entry<'a, T> {
    /// The handle has a value.
    Occupied(OccupiedEntry<'a, T>),
    /// The handle has no value.
    Vacant(VacantEntry<'a, T>),
}

/// A view into an occupied entry: a handle that has a value, and its map.
///
/// ```
/// use forgeni::sparse_map::{Entry, SparseMap};
///
/// let mut left = SparseMap::new();
/// let fuse = "0v1".parse()?;
/// left.insert(fuse, 1)?;
/// if let Entry::Occupied(mut entry) = left.entry(fuse) {
///     *entry.get_mut() -= 1;
///     if *entry.get() == 0 {
///         entry.remove();
///     }
/// }
/// assert!(left.is_empty());
/// # Ok::<(), Box<dyn std::error::Error>>(())
/// ```
pub struct OccupiedEntry<'a, T> {
    pub(super) map: &'a mut SparseMap<T>,
    pub(super) handle: Handle,
}

/// A view into a vacant entry: a handle that has no value, and its map.
///
/// ```
/// use forgeni::sparse_map::{Entry, SparseMap};
///
/// let mut names = SparseMap::new();
/// if let Entry::Vacant(entry) = names.entry("3v2".parse()?) {
///     let name = format!("entity {}", entry.handle());
///     entry.insert(name)?;
/// }
/// assert!(names.values().eq(["entity 3v2"]));
/// # Ok::<(), Box<dyn std::error::Error>>(())
/// ```
pub struct VacantEntry<'a, T> {
    pub(super) map: &'a mut SparseMap<T>,
    pub(super) handle: Handle,
}

impl<'a, T> Entry<'a, T> {
    /// Returns the handle.
    ///
    /// ```
    /// use forgeni::SparseMap;
    ///
    /// let mut names: SparseMap<String> = SparseMap::new();
    /// let entry = names.entry("3v2".parse()?);
    /// // A name for an entity that has none.
    /// let name = format!("entity {}", entry.handle());
    /// assert_eq!(entry.or_insert(name)?, "entity 3v2");
    /// # Ok::<(), Box<dyn std::error::Error>>(())
    /// ```
    ///
    /// <details><summary>Contract</summary>
    ///
    /// <code style="display: block; tab-size: 4; white-space: pre-wrap">// In the words of [contracts](crate::contracts):
    /// ensures { result ≡ [entry_handle](crate::contracts::ent_storage::sparse_entry#entry_handle) self.now }
    /// </code>
    ///
    /// </details>
    #[must_use]
    #[inline]
    pub fn handle(&self) -> Handle {
        match self {
            Entry::Occupied(entry) => entry.handle(),
            Entry::Vacant(entry) => entry.handle(),
        }
    }

    /// Returns a mutable reference to the handle's value. If the handle has none, it gets this one
    /// first.
    ///
    /// ```
    /// use forgeni::SparseMap;
    ///
    /// let mut hits = SparseMap::new();
    /// let cart = "0v1".parse()?;
    /// for damage in [3, 4] {
    ///     *hits.entry(cart).or_insert(0)? += damage;
    /// }
    /// assert_eq!(hits[cart], 7);
    /// # Ok::<(), Box<dyn std::error::Error>>(())
    /// ```
    ///
    /// # Errors
    ///
    /// [`HandedBack`] has the value, as [`SparseMap::insert`] hands it back.
    ///
    /// <details><summary>Contract</summary>
    ///
    /// <code style="display: block; tab-size: 4; white-space: pre-wrap">// In the words of [contracts](crate::contracts):
    /// ensures\* writes_back { [sem](crate::contracts::logic#sem) 𝓛 ([entry_lends](crate::contracts::ent_storage::sparse_entry#entry_lends) T.row self.entry result) }
    /// ensures value { [IfOk](crate::contracts::logic#IfOk) result (λ x. x.now ≡ [unwrap_or](crate::contracts::logic#unwrap_or) ([entry_value](crate::contracts::ent_storage::sparse_entry#entry_value) self.entry) value) }
    /// ensures occupied { [IsSome](crate::contracts::logic#IsSome) ([entry_value](crate::contracts::ent_storage::sparse_entry#entry_value) self.entry) → [IsOk](crate::contracts::logic#IsOk) result }
    /// ensures refused { [entry_value](crate::contracts::ent_storage::sparse_entry#entry_value) self.entry ≡ [None](crate::contracts::logic#None)
    /// &#9;→ [IsRefusal](crate::contracts::ent_storage::sparse_entry#IsRefusal) ([entry_map](crate::contracts::ent_storage::sparse_entry#entry_map) self.entry) ([entry_handle](crate::contracts::ent_storage::sparse_entry#entry_handle) self.entry) ([error_of](crate::contracts::ent_storage::handle_map#error_of) result) }
    /// ensures back { [IfErr](crate::contracts::logic#IfErr) result (λ refused. refused.value ≡ value) }
    /// </code>
    ///
    /// </details>
    #[inline]
    pub fn or_insert(self, value: T) -> Result<&'a mut T, HandedBack<T, InsertError>> {
        match self {
            Entry::Occupied(entry) => Ok(entry.into_mut()),
            Entry::Vacant(entry) => entry.insert(value),
        }
    }

    /// Returns a mutable reference to the handle's value. If the handle has none, it first gets the
    /// one that `make` returns.
    ///
    /// ```
    /// use forgeni::SparseMap;
    ///
    /// let mut paths: SparseMap<Vec<u32>> = SparseMap::new();
    /// let cart = "0v1".parse()?;
    /// for step in [5, 6] {
    ///     paths.entry(cart).or_insert_with(Vec::new)?.push(step);
    /// }
    /// assert_eq!(paths[cart], [5, 6]);
    /// # Ok::<(), Box<dyn std::error::Error>>(())
    /// ```
    ///
    /// # Errors
    ///
    /// [`HandedBack`] has the value that `make` returned.
    ///
    /// # Panics
    ///
    /// A panic in `make` is propagated. Nothing has changed.
    ///
    /// <details><summary>Contract</summary>
    ///
    /// <code style="display: block; tab-size: 4; white-space: pre-wrap">// In the words of [contracts](crate::contracts):
    /// requires { F.IsAlwaysCallable make }
    /// ensures\* writes_back { [sem](crate::contracts::logic#sem) 𝓛 ([entry_lends](crate::contracts::ent_storage::sparse_entry#entry_lends) T.row self.entry result) }
    /// ensures value { [IfOk](crate::contracts::logic#IfOk) result (λ x.
    /// &#9;[UnwrapsOrElse](crate::contracts::logic#UnwrapsOrElse) ([entry_value](crate::contracts::ent_storage::sparse_entry#entry_value) self.entry) (F.post make) x.now) }
    /// ensures occupied { [IsSome](crate::contracts::logic#IsSome) ([entry_value](crate::contracts::ent_storage::sparse_entry#entry_value) self.entry) → [IsOk](crate::contracts::logic#IsOk) result }
    /// ensures refused { [entry_value](crate::contracts::ent_storage::sparse_entry#entry_value) self.entry ≡ [None](crate::contracts::logic#None)
    /// &#9;→ [IsRefusal](crate::contracts::ent_storage::sparse_entry#IsRefusal) ([entry_map](crate::contracts::ent_storage::sparse_entry#entry_map) self.entry) ([entry_handle](crate::contracts::ent_storage::sparse_entry#entry_handle) self.entry) ([error_of](crate::contracts::ent_storage::handle_map#error_of) result) }
    /// ensures back { [IfErr](crate::contracts::logic#IfErr) result (λ refused. F.post make refused.value) }
    /// </code>
    ///
    /// </details>
    #[inline]
    pub fn or_insert_with<F: FnOnce() -> T>(
        self,
        make: F,
    ) -> Result<&'a mut T, HandedBack<T, InsertError>> {
        match self {
            Entry::Occupied(occupied) => Ok(occupied.into_mut()),
            Entry::Vacant(vacant) => vacant.insert(make()),
        }
    }

    /// Calls `change` on the value, if the handle has one.
    ///
    /// ```
    /// use forgeni::SparseMap;
    ///
    /// let mut heats = SparseMap::new();
    /// let cart = "0v1".parse()?;
    /// for _ in 0..3 {
    ///     // It begins at 20, and doubles.
    ///     heats.entry(cart).and_modify(|heat| *heat *= 2).or_insert(20)?;
    /// }
    /// assert_eq!(heats[cart], 80);
    /// # Ok::<(), Box<dyn std::error::Error>>(())
    /// ```
    ///
    /// # Panics
    ///
    /// A panic in `change` is propagated. The value stays, with the changes that `change` had made
    /// to it.
    ///
    /// <details><summary>Contract</summary>
    ///
    /// <code style="display: block; tab-size: 4; white-space: pre-wrap">// In the words of [contracts](crate::contracts):
    /// requires { F.IsAlwaysCallable change }
    /// ensures same_map { ([entry_ref](crate::contracts::ent_storage::sparse_entry#entry_ref) result).ghost_name ≡ ([entry_ref](crate::contracts::ent_storage::sparse_entry#entry_ref) self.entry).ghost_name }
    /// ensures handle { [entry_handle](crate::contracts::ent_storage::sparse_entry#entry_handle) result ≡ [entry_handle](crate::contracts::ent_storage::sparse_entry#entry_handle) self.entry }
    /// ensures value { [ModifiesValue](crate::contracts::logic#ModifiesValue) F.FnOnce change ([entry_value](crate::contracts::ent_storage::sparse_entry#entry_value) self.entry) ([entry_value](crate::contracts::ent_storage::sparse_entry#entry_value) result) }
    /// ensures gives { (w : T) (m : \_) → [Gives](crate::contracts::ent_storage::sparse_entry#Gives) result w m → [Gives](crate::contracts::ent_storage::sparse_entry#Gives) self.entry w m }
    /// </code>
    ///
    /// </details>
    #[must_use]
    #[inline]
    pub fn and_modify<F: FnOnce(&mut T)>(self, change: F) -> Entry<'a, T> {
        match self {
            Entry::Occupied(mut entry) => {
                change(entry.get_mut());
                Entry::Occupied(entry)
            }
            Entry::Vacant(entry) => Entry::Vacant(entry),
        }
    }
}

impl<'a, T> OccupiedEntry<'a, T> {
    /// Returns the handle.
    ///
    /// ```
    /// use forgeni::sparse_map::{Entry, SparseMap};
    ///
    /// let cart = "3v2".parse()?;
    /// let mut names = SparseMap::from([(cart, "cart")]);
    /// if let Entry::Occupied(entry) = names.entry(cart) {
    ///     assert_eq!(entry.handle(), cart);
    /// }
    /// # Ok::<(), forgeni::ParseHandleError>(())
    /// ```
    ///
    /// <details><summary>Contract</summary>
    ///
    /// <code style="display: block; tab-size: 4; white-space: pre-wrap">// In the words of [contracts](crate::contracts):
    /// ensures { result ≡ [entry_handle](crate::contracts::ent_storage::sparse_entry#entry_handle) ([Occupied](crate::contracts::ent_storage::sparse_entry#Occupied) self.now) }
    /// </code>
    ///
    /// </details>
    #[must_use]
    #[inline]
    pub fn handle(&self) -> Handle {
        self.handle
    }

    /// Returns a reference to the value.
    ///
    /// ```
    /// use forgeni::sparse_map::{Entry, SparseMap};
    ///
    /// let cart = "3v2".parse()?;
    /// let mut names = SparseMap::from([(cart, "cart")]);
    /// if let Entry::Occupied(entry) = names.entry(cart) {
    ///     assert_eq!(entry.get(), &"cart");
    /// }
    /// # Ok::<(), forgeni::ParseHandleError>(())
    /// ```
    ///
    /// <details><summary>Contract</summary>
    ///
    /// <code style="display: block; tab-size: 4; white-space: pre-wrap">// In the words of [contracts](crate::contracts):
    /// ensures { [entry_value](crate::contracts::ent_storage::sparse_entry#entry_value) ([Occupied](crate::contracts::ent_storage::sparse_entry#Occupied) self.now) ≡ [Some](crate::contracts::logic#Some) result.now }
    /// </code>
    ///
    /// </details>
    #[must_use]
    #[inline]
    pub fn get(&self) -> &T {
        let Some(value) = self.map.get(self.handle) else {
            unreachable!()
        };
        value
    }

    /// Returns a mutable reference to the value.
    ///
    /// ```
    /// use forgeni::sparse_map::{Entry, SparseMap};
    ///
    /// let cart = "3v2".parse()?;
    /// let mut hits = SparseMap::from([(cart, 3)]);
    /// if let Entry::Occupied(mut entry) = hits.entry(cart) {
    ///     *entry.get_mut() += 1;
    /// }
    /// assert_eq!(hits[cart], 4);
    /// # Ok::<(), forgeni::ParseHandleError>(())
    /// ```
    ///
    /// <details><summary>Contract</summary>
    ///
    /// <code style="display: block; tab-size: 4; white-space: pre-wrap">// In the words of [contracts](crate::contracts):
    /// ensures\* writes_back { [sem](crate::contracts::logic#sem) 𝓛 ([lends_in](crate::contracts::ent_storage::sparse_entry#lends_in) T.row self.entry result) }
    /// ensures value { [entry_value](crate::contracts::ent_storage::sparse_entry#entry_value) ([Occupied](crate::contracts::ent_storage::sparse_entry#Occupied) self.old) ≡ [Some](crate::contracts::logic#Some) result.now }
    /// ensures written { (w : T) → [IsWritten](crate::contracts::ent_storage::sparse_entry#IsWritten) self.old w ([with_value](crate::contracts::ent_storage::sparse_entry#with_value) self.old w) }
    /// </code>
    ///
    /// </details>
    #[must_use]
    #[inline]
    pub fn get_mut(&mut self) -> &mut T {
        let handle = self.handle;
        self.map.value_mut(handle)
    }

    /// Converts the entry into a mutable reference to the value, which lives as long as the borrow
    /// of the map.
    ///
    /// ```
    /// use forgeni::sparse_map::{Entry, SparseMap};
    /// use forgeni::Handle;
    ///
    /// /// The shield of an entity, if it isn't 0.
    /// fn whole(shields: &mut SparseMap<u32>, of: Handle) -> Option<&mut u32> {
    ///     match shields.entry(of) {
    ///         Entry::Occupied(entry) if *entry.get() > 0 => Some(entry.into_mut()),
    ///         _ => None,
    ///     }
    /// }
    ///
    /// let knight = "0v1".parse()?;
    /// let mut shields = SparseMap::from([(knight, 100)]);
    /// assert_eq!(whole(&mut shields, knight), Some(&mut 100));
    /// # Ok::<(), Box<dyn std::error::Error>>(())
    /// ```
    ///
    /// <details><summary>Contract</summary>
    ///
    /// <code style="display: block; tab-size: 4; white-space: pre-wrap">// In the words of [contracts](crate::contracts):
    /// ensures\* writes_back { [sem](crate::contracts::logic#sem) 𝓛 ([occupied_lends](crate::contracts::ent_storage::sparse_entry#occupied_lends) T.row self.entry result) }
    /// ensures value { [entry_value](crate::contracts::ent_storage::sparse_entry#entry_value) ([Occupied](crate::contracts::ent_storage::sparse_entry#Occupied) self.entry) ≡ [Some](crate::contracts::logic#Some) result.now }
    /// </code>
    ///
    /// </details>
    #[must_use]
    #[inline]
    pub fn into_mut(self) -> &'a mut T {
        let map = self.map;
        map.value_mut(self.handle)
    }

    /// Gives the handle another value, and returns the one that it had.
    ///
    /// ```
    /// use forgeni::sparse_map::{Entry, SparseMap};
    ///
    /// let cart = "0v1".parse()?;
    /// let mut names = SparseMap::from([(cart, "cart")]);
    /// if let Entry::Occupied(mut entry) = names.entry(cart) {
    ///     assert_eq!(entry.insert("wreck"), "cart");
    /// }
    /// assert_eq!(names[cart], "wreck");
    /// # Ok::<(), Box<dyn std::error::Error>>(())
    /// ```
    ///
    /// <details><summary>Contract</summary>
    ///
    /// <code style="display: block; tab-size: 4; white-space: pre-wrap">// In the words of [contracts](crate::contracts):
    /// ensures before { [entry_value](crate::contracts::ent_storage::sparse_entry#entry_value) ([Occupied](crate::contracts::ent_storage::sparse_entry#Occupied) self.old) ≡ [Some](crate::contracts::logic#Some) result }
    /// ensures written { [IsWritten](crate::contracts::ent_storage::sparse_entry#IsWritten) self.old value self.new }
    /// </code>
    ///
    /// </details>
    #[inline]
    pub fn insert(&mut self, value: T) -> T {
        mem::replace(self.get_mut(), value)
    }

    /// Removes the value, and returns it.
    ///
    /// ```
    /// use forgeni::sparse_map::{Entry, SparseMap};
    ///
    /// let cart = "0v1".parse()?;
    /// let mut names = SparseMap::from([(cart, String::from("cart"))]);
    /// if let Entry::Occupied(entry) = names.entry(cart) {
    ///     // The value itself, without a clone.
    ///     let name: String = entry.remove();
    ///     assert_eq!(name, "cart");
    /// }
    /// # Ok::<(), Box<dyn std::error::Error>>(())
    /// ```
    ///
    /// <details><summary>Contract</summary>
    ///
    /// <code style="display: block; tab-size: 4; white-space: pre-wrap">// In the words of [contracts](crate::contracts):
    /// ensures value { [entry_value](crate::contracts::ent_storage::sparse_entry#entry_value) ([Occupied](crate::contracts::ent_storage::sparse_entry#Occupied) self.entry) ≡ [Some](crate::contracts::logic#Some) result }
    /// ensures map { self.exit.0.now ≡ record ([entry_map](crate::contracts::ent_storage::sparse_entry#entry_map) ([Occupied](crate::contracts::ent_storage::sparse_entry#Occupied) self.entry)) {
    /// &#32;&#32;values = [finite.remove](crate::contracts::logic#FinMap.remove) ([entry_map](crate::contracts::ent_storage::sparse_entry#entry_map) ([Occupied](crate::contracts::ent_storage::sparse_entry#Occupied) self.entry)).values
    /// &#9;&#32;&#32;([entry_handle](crate::contracts::ent_storage::sparse_entry#entry_handle) ([Occupied](crate::contracts::ent_storage::sparse_entry#Occupied) self.entry));
    /// } }
    /// </code>
    ///
    /// </details>
    #[inline]
    pub fn remove(self) -> T {
        let handle = self.handle;
        let Some(value) = self.map.remove(handle) else {
            unreachable!()
        };
        value
    }
}

impl<'a, T> VacantEntry<'a, T> {
    /// Returns the handle.
    ///
    /// ```
    /// use forgeni::sparse_map::{Entry, SparseMap};
    ///
    /// let mut names: SparseMap<&str> = SparseMap::new();
    /// if let Entry::Vacant(entry) = names.entry("3v2".parse()?) {
    ///     assert_eq!(entry.handle().index(), 3);
    /// }
    /// # Ok::<(), forgeni::ParseHandleError>(())
    /// ```
    ///
    /// <details><summary>Contract</summary>
    ///
    /// <code style="display: block; tab-size: 4; white-space: pre-wrap">// In the words of [contracts](crate::contracts):
    /// ensures { result ≡ [entry_handle](crate::contracts::ent_storage::sparse_entry#entry_handle) ([Vacant](crate::contracts::ent_storage::sparse_entry#Vacant) self.now) }
    /// </code>
    ///
    /// </details>
    #[must_use]
    #[inline]
    pub fn handle(&self) -> Handle {
        self.handle
    }

    /// Gives the handle its value. If an earlier occupant of the slot has one, that is dropped.
    ///
    /// ```
    /// use forgeni::sparse_map::{Entry, SparseMap};
    ///
    /// let mut shields = SparseMap::new();
    /// let knight = "0v1".parse()?;
    /// if let Entry::Vacant(entry) = shields.entry(knight) {
    ///     let shield = entry.insert(100)?;
    ///     *shield -= 30;
    /// }
    /// assert_eq!(shields[knight], 70);
    /// # Ok::<(), Box<dyn std::error::Error>>(())
    /// ```
    ///
    /// # Errors
    ///
    /// [`HandedBack`] has the value, as [`SparseMap::insert`] hands it back.
    ///
    /// <details><summary>Contract</summary>
    ///
    /// <code style="display: block; tab-size: 4; white-space: pre-wrap">// In the words of [contracts](crate::contracts):
    /// ensures\* writes_back { [sem](crate::contracts::logic#sem) 𝓛 ([entry_lends](crate::contracts::ent_storage::sparse_entry#entry_lends) T.row ([Vacant](crate::contracts::ent_storage::sparse_entry#Vacant) self.entry) result) }
    /// ensures value { [IfOk](crate::contracts::logic#IfOk) result (λ x. x.now ≡ value) }
    /// ensures refused { [IsRefusal](crate::contracts::ent_storage::sparse_entry#IsRefusal) ([entry_map](crate::contracts::ent_storage::sparse_entry#entry_map) ([Vacant](crate::contracts::ent_storage::sparse_entry#Vacant) self.entry))
    /// &#9;([entry_handle](crate::contracts::ent_storage::sparse_entry#entry_handle) ([Vacant](crate::contracts::ent_storage::sparse_entry#Vacant) self.entry)) ([error_of](crate::contracts::ent_storage::handle_map#error_of) result) }
    /// ensures back { [IfErr](crate::contracts::logic#IfErr) result (λ refused. refused.value ≡ value) }
    /// </code>
    ///
    /// </details>
    #[inline]
    pub fn insert(self, value: T) -> Result<&'a mut T, HandedBack<T, InsertError>> {
        let VacantEntry { map, handle } = self;
        match map.insert(handle, value) {
            Ok(_) => {}
            Err(refused) => return Err(refused),
        }
        Ok(map.value_mut(handle))
    }
}
