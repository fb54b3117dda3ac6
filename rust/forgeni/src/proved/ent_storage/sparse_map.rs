// Made of crates/ent_storage/src/sparse_map.rt by rust/erase. It isn't edited by hand.

//! A map from handles to values of any type, of which few handles have one.

mod entry;
mod iter;
mod positions;

use alloc::vec::Vec;
use crate::kit::vec::FallibleVec;
use crate::components::handle_map::{InsertError, index_of};
use crate::components::limit::Limit;
use crate::components::lists::overwrite;
pub use crate::components::sparse_map::entry::{Entry, OccupiedEntry, VacantEntry};
pub use crate::components::sparse_map::iter::Iter;
use crate::components::sparse_map::positions::{make_position, position_of};
use crate::handles::{HandedBack, Handle, OutOfMemory};
use crate::kit::alloc::AllocError;
use core::mem;

/// A map from handles to values of any type, for a component that few entities have. At most one
/// handle of a slot has a value.
///
/// It takes and refuses what a [`HandleMap`](crate::components::handle_map::HandleMap) does. The values lie
/// side by side, and each slot takes only four bytes, for the position of its value. So ten values
/// among a million slots take 4.5 MB with values of any size, and a walk over them takes the time
/// of the ten. A look-up is two accesses to vectors, where a `HandleMap` makes one.
///
/// It does not know which handles an allocator has given or freed. A value that isn't removed stays
/// until a later occupant of its slot gets one, and that occupant's handle doesn't find it.
/// [`Follows::despawn`](crate::Follows::despawn) frees an entity and removes its value.
///
/// ```
/// use forgeni::{Entities, SparseMap};
///
/// let mut entities = Entities::new();
/// let mut names = SparseMap::new();
/// let all = entities.alloc_many(1000)?;
/// names.insert(all[7], "Ada".to_string())?;
/// names.insert(all[900], "Bob".to_string())?;
/// assert_eq!(names[all[7]], "Ada");
/// assert_eq!(names.entries().len(), 2);
///
/// entities.free(all[7])?;
/// assert_eq!(names.remove(all[7]).as_deref(), Some("Ada"));
/// assert!(!names.contains(all[7]));
/// # Ok::<(), Box<dyn std::error::Error + Send + Sync>>(())
/// ```
///
/// **A handle from a save or a network can make the map take a lot of memory**, four bytes for each
/// slot up to its own. So give a map for such handles a [limit](Self::with_limit).
///
/// Contracts see a finite map from handles to values (`values`), for how many values there is room
/// (`room`), for how many slots (`slots`), and for how many slots there may be values (`limit`).
pub struct SparseMap<T> {
    pub(crate) entries: Vec<(Handle, T)>,
    /// At a slot the position of its entry. It counts only if that entry is of the slot, so nothing
    /// is cleared when an entry goes.
    pub(crate) positions: Vec<u32>,
    limit: Limit,
}

/// # Making one
impl<T> SparseMap<T> {
    /// Creates a map without values and without a limit. It doesn't allocate.
    ///
    /// ```
    /// use forgeni::{Handle, SparseMap};
    ///
    /// let mut names = SparseMap::new();
    /// // The place of one name in a million slots: 4 MB, not 24.
    /// names.insert(Handle::new(999_999, 1).ok_or("out of range")?, String::from("Ada"))?;
    /// assert_eq!((names.len(), names.slots() >= 1_000_000), (1, true));
    /// # Ok::<(), Box<dyn std::error::Error>>(())
    /// ```
    ///
    /// <details><summary>Contract</summary>
    ///
    /// <code style="display: block; tab-size: 4; white-space: pre-wrap">// In the words of [contracts](crate::contracts):
    /// ensures { result ≡ record { values = [map.empty](crate::contracts::logic#FinMap.empty); room = 0; slots = 0; limit = [no_limit](crate::contracts::ent_storage::handle_map#no_limit) } }
    /// </code>
    ///
    /// </details>
    #[must_use]
    #[inline]
    pub fn new() -> Self {
        SparseMap::with_limit(u32::MAX)
    }

    /// Creates a map without values, which refuses each handle whose slot is at or above this
    /// limit. It doesn't allocate.
    ///
    /// [`Entities::total`](crate::Entities::total) is a limit that fits an allocator as long as
    /// it makes no new slots. [`set_limit`](Self::set_limit) changes the limit.
    ///
    /// ```
    /// use forgeni::{InsertError, SparseMap};
    ///
    /// // A forged handle of a save can't make the map take gigabytes.
    /// let mut names = SparseMap::with_limit(1_000);
    /// let refused = names.insert("4000000000v1".parse()?, "Eve").err().ok_or("it was inserted")?;
    /// assert_eq!((refused.error(), names.slots()), (&InsertError::Limit, 0));
    /// # Ok::<(), Box<dyn std::error::Error>>(())
    /// ```
    ///
    /// <details><summary>Contract</summary>
    ///
    /// <code style="display: block; tab-size: 4; white-space: pre-wrap">// In the words of [contracts](crate::contracts):
    /// ensures { result ≡ record { values = [map.empty](crate::contracts::logic#FinMap.empty); room = 0; slots = 0; limit = limit } }
    /// </code>
    ///
    /// </details>
    #[must_use]
    #[inline]
    pub fn with_limit(limit: u32) -> Self {
        SparseMap {
            entries: Vec::new(),
            positions: Vec::new(),
            limit: Limit::of(limit),
        }
    }
}

/// # Values
impl<T> SparseMap<T> {
    /// Gives the handle a value, and returns the one that it had. If an earlier occupant of the
    /// slot has one, that is dropped.
    ///
    /// If there is room for the slot ([`slots`](Self::slots)) and for one value more
    /// ([`capacity`](Self::capacity)), or the slot has a value, it takes constant time and doesn't
    /// allocate. If not, it takes room for all slots up to that of the handle, and for an eighth
    /// more.
    ///
    /// ```
    /// use forgeni::{Handle, InsertError, SparseMap};
    ///
    /// let [first, second] = [Handle::new(7, 1).unwrap(), Handle::new(7, 2).unwrap()];
    /// let mut map = SparseMap::new();
    /// assert_eq!(map.insert(first, "a")?, None);
    /// assert_eq!(map.insert(first, "b")?, Some("a"));
    /// assert_eq!(map.insert(second, "c")?, None);
    /// assert_eq!((map.get(first), map.get(second)), (None, Some(&"c")));
    ///
    /// let refused = map.insert(first, "d").unwrap_err();
    /// assert_eq!(refused.into_parts(), ("d", InsertError::Later));
    /// # Ok::<(), Box<dyn std::error::Error + Send + Sync>>(())
    /// ```
    ///
    /// # Errors
    ///
    /// [`HandedBack`] has the value, and no value of the map has changed. The reason is the first
    /// of these that applies:
    ///
    /// - `Limit`: the handle's slot is at or above the [`limit`](Self::limit), or the handle is
    ///   [`Handle::PLACEHOLDER`], which no map takes.
    /// - `Later`: a later occupant of the slot has a value.
    /// - `Memory`: memory ran out, and no occupant of the slot has a value. There may be more room
    ///   than before.
    ///
    /// <details><summary>Contract</summary>
    ///
    /// <code style="display: block; tab-size: 4; white-space: pre-wrap">// In the words of [contracts](crate::contracts):
    /// ensures ok { [OnOk](crate::contracts::logic#OnOk) result (self.new.values
    /// &#9;≡ [map.insert](crate::contracts::logic#FinMap.insert) ([without_slot](crate::contracts::ent_storage::handle_map#without_slot) self.old.values handle.index) handle value) }
    /// ensures before { [IfOk](crate::contracts::logic#IfOk) result (λ before. before ≡ [map.get](crate::contracts::logic#FinMap.get) self.old.values handle) }
    /// ensures slots { self.old.slots ≤ self.new.slots }
    /// ensures slots_within { self.new.slots
    /// &#9;≤ [max](crate::contracts::logic#max) self.old.slots (handle.index + 1 + handle.index / 8) }
    /// ensures room { self.old.room ≤ self.new.room }
    /// ensures kept { self.new.limit ≡ self.old.limit }
    /// &#32;
    /// ensures limit { ([error_of](crate::contracts::ent_storage::handle_map#error_of) result ≡ [Some](crate::contracts::logic#Some) InsertError.Limit)
    /// &#9;↔ [IsBeyond](crate::contracts::ent_storage::handle_map#IsBeyond) self.old.limit handle }
    /// ensures later { ([error_of](crate::contracts::ent_storage::handle_map#error_of) result ≡ [Some](crate::contracts::logic#Some) InsertError.Later)
    /// &#9;↔ (¬ ([IsBeyond](crate::contracts::ent_storage::handle_map#IsBeyond) self.old.limit handle) × [HasLater](crate::contracts::ent_storage::handle_map#HasLater) self.old.values handle) }
    /// ensures memory { [error_of](crate::contracts::ent_storage::handle_map#error_of) result ≡ [Some](crate::contracts::logic#Some) InsertError.Memory
    /// &#9;→ [IsFullFor](crate::contracts::ent_storage::sparse_map#IsFullFor) self.old handle.index }
    /// ensures memory_for_a_new_slot { [error_of](crate::contracts::ent_storage::handle_map#error_of) result ≡ [Some](crate::contracts::logic#Some) InsertError.Memory
    /// &#9;→ [HasNone](crate::contracts::ent_storage::sparse_map#HasNone) self.old.values handle.index }
    /// ensures back { [IfErr](crate::contracts::logic#IfErr) result (λ refused. refused.value ≡ value) }
    /// ensures err { [OnErr](crate::contracts::logic#OnErr) result (self.new.values ≡ self.old.values) }
    /// ensures unchanged { [OnErr](crate::contracts::logic#OnErr) result ([error_of](crate::contracts::ent_storage::handle_map#error_of) result ≢ [Some](crate::contracts::logic#Some) InsertError.Memory
    /// &#9;→ self.new ≡ self.old) }
    /// </code>
    ///
    /// </details>
    #[inline]
    pub fn insert(
        &mut self,
        handle: Handle,
        value: T,
    ) -> Result<Option<T>, HandedBack<T, InsertError>> {
        if self.limit.refuses(handle) {
            return Err(HandedBack::new(value, InsertError::Limit));
        }
        put(&mut self.entries, &mut self.positions, handle, value)
    }

    /// Returns a reference to the handle's value, if it has one. It takes constant time.
    ///
    /// ```
    /// use forgeni::{Entities, SparseMap};
    ///
    /// let mut entities = Entities::new();
    /// let mut names = SparseMap::new();
    /// let player = entities.alloc()?;
    /// names.insert(player, "Ada")?;
    /// assert_eq!(names.get(player), Some(&"Ada"));
    ///
    /// let next = entities.free(player)?.next.unwrap();
    /// assert_eq!(names.get(next), None);
    /// # Ok::<(), Box<dyn std::error::Error + Send + Sync>>(())
    /// ```
    ///
    /// <details><summary>Contract</summary>
    ///
    /// <code style="display: block; tab-size: 4; white-space: pre-wrap">// In the words of [contracts](crate::contracts):
    /// ensures { [option_copied](crate::contracts::logic#option_copied) result ≡ [map.get](crate::contracts::logic#FinMap.get) self.now.values handle }
    /// </code>
    ///
    /// </details>
    #[must_use]
    #[inline]
    pub fn get(&self, handle: Handle) -> Option<&T> {
        find(&self.entries, &self.positions, handle)
    }

    /// Returns a mutable reference to the handle's value, if it has one. It takes constant time.
    ///
    /// ```
    /// use forgeni::SparseMap;
    ///
    /// let mut shields = SparseMap::new();
    /// let (knight, horse) = ("0v1".parse()?, "1v1".parse()?);
    /// shields.insert(knight, 50)?;
    /// for one in [knight, horse] {
    ///     // The few that have a shield lose some of it.
    ///     if let Some(shield) = shields.get_mut(one) {
    ///         *shield -= 20;
    ///     }
    /// }
    /// assert_eq!(shields[knight], 30);
    /// # Ok::<(), Box<dyn std::error::Error>>(())
    /// ```
    ///
    /// <details><summary>Contract</summary>
    ///
    /// <code style="display: block; tab-size: 4; white-space: pre-wrap">// In the words of [contracts](crate::contracts):
    /// ensures\* writes_back { [sem](crate::contracts::logic#sem) 𝓛 ([lends_get](crate::contracts::ent_storage::sparse_lends#lends_get) T.row self.entry handle result) }
    /// ensures value { [option_copied_mut](crate::contracts::logic#option_copied_mut) result ≡ [map.get](crate::contracts::logic#FinMap.get) self.old.values handle }
    /// </code>
    ///
    /// </details>
    #[must_use]
    #[inline]
    pub fn get_mut(&mut self, handle: Handle) -> Option<&mut T> {
        if self.contains(handle) {
            Some(self.value_mut(handle))
        } else {
            None
        }
    }

    /// Removes the handle's value, and returns it if there was one. It takes constant time and
    /// doesn't allocate.
    ///
    /// ```
    /// use forgeni::{Handle, SparseMap};
    ///
    /// let crate_of_gold = Handle::new(0, 1).unwrap();
    /// let mut weight = SparseMap::new();
    /// weight.insert(crate_of_gold, 900)?;
    /// assert_eq!(weight.remove(crate_of_gold), Some(900));
    /// assert_eq!(weight.remove(crate_of_gold), None);
    /// # Ok::<(), Box<dyn std::error::Error + Send + Sync>>(())
    /// ```
    ///
    /// <details><summary>Contract</summary>
    ///
    /// <code style="display: block; tab-size: 4; white-space: pre-wrap">// In the words of [contracts](crate::contracts):
    /// ensures value { result ≡ [map.get](crate::contracts::logic#FinMap.get) self.old.values handle }
    /// ensures map { self.new
    /// &#9;≡ record self.old { values = [map.remove](crate::contracts::logic#FinMap.remove) self.old.values handle } }
    /// </code>
    ///
    /// </details>
    #[inline]
    pub fn remove(&mut self, handle: Handle) -> Option<T> {
        if !self.contains(handle) {
            return None;
        }
        Some(take(&mut self.entries, &mut self.positions, handle))
    }

    /// Returns `true` if the handle has a value. It takes constant time.
    ///
    /// ```
    /// use forgeni::SparseMap;
    ///
    /// let mut bosses = SparseMap::new();
    /// let (old, new) = ("7v1".parse()?, "7v2".parse()?);
    /// bosses.insert(old, "dragon")?;
    /// assert!(bosses.contains(old) && !bosses.contains(new));
    /// # Ok::<(), Box<dyn std::error::Error>>(())
    /// ```
    ///
    /// <details><summary>Contract</summary>
    ///
    /// <code style="display: block; tab-size: 4; white-space: pre-wrap">// In the words of [contracts](crate::contracts):
    /// ensures { result ≡ [map.contains_key](crate::contracts::logic#FinMap.contains_key) self.now.values handle }
    /// </code>
    ///
    /// </details>
    #[must_use]
    #[inline]
    pub fn contains(&self, handle: Handle) -> bool {
        self.get(handle).is_some()
    }

    /// Returns the handle's entry: occupied if the handle has a value, vacant if not. Each call on
    /// the entry looks the handle up again.
    ///
    /// ```
    /// use forgeni::sparse_map::Entry;
    /// use forgeni::{Entities, SparseMap};
    ///
    /// let mut entities = Entities::new();
    /// let mut hits: SparseMap<u32> = SparseMap::new();
    /// let [ball, cart] = [entities.alloc()?, entities.alloc()?];
    /// for one in [ball, cart, ball] {
    ///     *hits.entry(one).or_insert(0)? += 1;
    /// }
    /// hits.entry(cart).and_modify(|hits| *hits += 10).or_insert(1)?;
    /// assert_eq!((hits[ball], hits[cart]), (2, 11));
    ///
    /// if let Entry::Occupied(entry) = hits.entry(ball) {
    ///     assert_eq!(entry.remove(), 2);
    /// }
    /// assert!(!hits.contains(ball));
    /// # Ok::<(), Box<dyn std::error::Error + Send + Sync>>(())
    /// ```
    ///
    /// <details><summary>Contract</summary>
    ///
    /// <code style="display: block; tab-size: 4; white-space: pre-wrap">// In the words of [contracts](crate::contracts):
    /// ensures handle { [entry_handle](crate::contracts::ent_storage::sparse_entry#entry_handle) result ≡ handle }
    /// ensures value { [entry_value](crate::contracts::ent_storage::sparse_entry#entry_value) result ≡ [map.get](crate::contracts::logic#FinMap.get) self.old.values handle }
    /// ensures map { [entry_map](crate::contracts::ent_storage::sparse_entry#entry_map) result ≡ self.old }
    /// ensures same_map { ([entry_ref](crate::contracts::ent_storage::sparse_entry#entry_ref) result).ghost_name ≡ self.entry.ghost_name }
    /// </code>
    ///
    /// </details>
    #[must_use]
    #[inline]
    pub fn entry(&mut self, handle: Handle) -> Entry<'_, T> {
        if self.contains(handle) {
            Entry::Occupied(OccupiedEntry { map: self, handle })
        } else {
            Entry::Vacant(VacantEntry { map: self, handle })
        }
    }
}

/// # All values
impl<T> SparseMap<T> {
    /// Returns an iterator over the handles and their values, in the order of
    /// [`entries`](Self::entries).
    ///
    /// ```
    /// use forgeni::SparseMap;
    ///
    /// let mut shields = SparseMap::new();
    /// shields.insert("900v1".parse()?, 50)?;
    /// shields.insert("7v1".parse()?, 30)?;
    /// // Two entries, however many slots there are.
    /// assert_eq!(shields.iter().map(|(_, shield)| shield).sum::<u32>(), 80);
    /// # Ok::<(), Box<dyn std::error::Error>>(())
    /// ```
    ///
    /// <details><summary>Contract</summary>
    ///
    /// <code style="display: block; tab-size: 4; white-space: pre-wrap">// In the words of [contracts](crate::contracts):
    /// ensures { [AreEntries](crate::contracts::ent_storage::sparse_map#AreEntries) self.now.values result }
    /// </code>
    ///
    /// </details>
    #[inline]
    pub fn iter(&self) -> Iter<'_, T> {
        Iter::new(&self.entries)
    }

    /// Returns the handles and their values, in no particular order. The same calls always leave
    /// them in the same order.
    ///
    /// ```
    /// use forgeni::{Entities, SparseMap};
    ///
    /// let mut entities = Entities::new();
    /// let mut health = SparseMap::new();
    /// let all = entities.alloc_many(2)?;
    /// health.insert(all[1], 20)?;
    /// health.insert(all[0], 10)?;
    /// let least = health.entries().iter().min_by_key(|(_, health)| health);
    /// assert_eq!(least, Some(&(all[0], 10)));
    /// # Ok::<(), Box<dyn std::error::Error + Send + Sync>>(())
    /// ```
    ///
    /// <details><summary>Contract</summary>
    ///
    /// <code style="display: block; tab-size: 4; white-space: pre-wrap">// In the words of [contracts](crate::contracts):
    /// ensures { [AreEntries](crate::contracts::ent_storage::sparse_map#AreEntries) self.now.values result.now }
    /// </code>
    ///
    /// </details>
    #[must_use]
    #[inline]
    pub fn entries(&self) -> &[(Handle, T)] {
        &self.entries
    }

    /// Drops all values. The room stays.
    ///
    /// ```
    /// use forgeni::SparseMap;
    ///
    /// let mut marks = SparseMap::new();
    /// for frame in 0..3 {
    ///     // From the second frame on it doesn't allocate.
    ///     marks.clear();
    ///     marks.insert("99v1".parse()?, frame)?;
    /// }
    /// assert_eq!(marks.len(), 1);
    /// # Ok::<(), Box<dyn std::error::Error>>(())
    /// ```
    ///
    /// <details><summary>Contract</summary>
    ///
    /// <code style="display: block; tab-size: 4; white-space: pre-wrap">// In the words of [contracts](crate::contracts):
    /// ensures { self.new ≡ record self.old { values = [map.empty](crate::contracts::logic#FinMap.empty) } }
    /// </code>
    ///
    /// </details>
    #[inline]
    pub fn clear(&mut self) {
        self.entries.clear();
    }

    /// Returns the handles and their values, in the order of [`entries`](Self::entries). It doesn't
    /// allocate.
    ///
    /// ```
    /// use forgeni::SparseMap;
    ///
    /// let mut names = SparseMap::new();
    /// let ada = "7v1".parse()?;
    /// names.insert(ada, String::from("Ada"))?;
    /// assert_eq!(names.into_entries(), [(ada, String::from("Ada"))]);
    /// # Ok::<(), Box<dyn std::error::Error>>(())
    /// ```
    ///
    /// <details><summary>Contract</summary>
    ///
    /// <code style="display: block; tab-size: 4; white-space: pre-wrap">// In the words of [contracts](crate::contracts):
    /// ensures { [AreEntries](crate::contracts::ent_storage::sparse_map#AreEntries) self.values result.items }
    /// </code>
    ///
    /// </details>
    #[must_use]
    #[inline]
    pub fn into_entries(self) -> Vec<(Handle, T)> {
        self.entries
    }
}

/// # Counts and room
impl<T> SparseMap<T> {
    /// Returns the number of values. It takes constant time.
    ///
    /// ```
    /// use forgeni::SparseMap;
    ///
    /// let mut names = SparseMap::new();
    /// names.insert("7v1".parse()?, "Ada")?;
    /// names.insert("7v2".parse()?, "Bob")?;
    /// // A slot has one value.
    /// assert_eq!(names.len(), 1);
    /// # Ok::<(), Box<dyn std::error::Error>>(())
    /// ```
    ///
    /// <details><summary>Contract</summary>
    ///
    /// <code style="display: block; tab-size: 4; white-space: pre-wrap">// In the words of [contracts](crate::contracts):
    /// ensures { result ≡ [map.len](crate::contracts::logic#FinMap.len) self.now.values }
    /// </code>
    ///
    /// </details>
    #[must_use]
    #[inline]
    pub fn len(&self) -> usize {
        self.entries.len()
    }

    /// Returns `true` if the map has no values.
    ///
    /// ```
    /// use forgeni::SparseMap;
    ///
    /// let mut bosses = SparseMap::new();
    /// let dragon = "99v1".parse()?;
    /// bosses.insert(dragon, "dragon")?;
    /// bosses.remove(dragon);
    /// assert!(bosses.is_empty());
    /// # Ok::<(), Box<dyn std::error::Error>>(())
    /// ```
    ///
    /// <details><summary>Contract</summary>
    ///
    /// <code style="display: block; tab-size: 4; white-space: pre-wrap">// In the words of [contracts](crate::contracts):
    /// ensures { [IsTrue](crate::contracts::logic#IsTrue) result ↔ ([map.len](crate::contracts::logic#FinMap.len) self.now.values ≡ 0) }
    /// </code>
    ///
    /// </details>
    #[must_use]
    #[inline]
    pub fn is_empty(&self) -> bool {
        self.len() == 0
    }

    /// Returns the number of slots that there is room for, from slot 0 on. Each takes four bytes.
    ///
    /// ```
    /// use forgeni::SparseMap;
    ///
    /// let mut names = SparseMap::new();
    /// names.insert("999v1".parse()?, "Ada")?;
    /// // From here on, a name in one of these slots allocates nothing for its slot.
    /// assert!(names.slots() >= 1_000);
    /// # Ok::<(), Box<dyn std::error::Error>>(())
    /// ```
    ///
    /// <details><summary>Contract</summary>
    ///
    /// <code style="display: block; tab-size: 4; white-space: pre-wrap">// In the words of [contracts](crate::contracts):
    /// ensures value { result ≡ self.now.slots }
    /// ensures values { (handle : [Handle](crate::contracts::ent_handle::handle#Handle)) → [IsSome](crate::contracts::logic#IsSome) ([map.get](crate::contracts::logic#FinMap.get) self.now.values handle)
    /// &#9;→ handle.index \< self.now.slots }
    /// </code>
    ///
    /// </details>
    #[must_use]
    #[inline]
    pub fn slots(&self) -> usize {
        self.positions.len()
    }

    /// Returns the limit: for how many slots, from slot 0 on, the map takes values. It is the limit
    /// that was set, or 4,294,967,295, which is no limit.
    ///
    /// ```
    /// use forgeni::SparseMap;
    ///
    /// let names: SparseMap<&str> = SparseMap::with_limit(1_000);
    /// assert_eq!((names.limit(), SparseMap::<&str>::new().limit()), (1_000, u32::MAX));
    /// ```
    ///
    /// <details><summary>Contract</summary>
    ///
    /// <code style="display: block; tab-size: 4; white-space: pre-wrap">// In the words of [contracts](crate::contracts):
    /// ensures { result ≡ self.now.limit }
    /// </code>
    ///
    /// </details>
    #[must_use]
    #[inline]
    pub fn limit(&self) -> u32 {
        self.limit.slots()
    }

    /// Sets the limit. The map keeps the values that it has, even those of slots at or above the
    /// limit.
    ///
    /// ```
    /// use forgeni::SparseMap;
    ///
    /// let mut names = SparseMap::new();
    /// let (last, next) = ("999v1".parse()?, "1000v1".parse()?);
    /// names.set_limit(1_000);
    /// names.insert(last, "Ada")?;
    /// assert!(names.insert(next, "Bob").is_err());
    /// # Ok::<(), Box<dyn std::error::Error>>(())
    /// ```
    ///
    /// <details><summary>Contract</summary>
    ///
    /// <code style="display: block; tab-size: 4; white-space: pre-wrap">// In the words of [contracts](crate::contracts):
    /// ensures { self.new ≡ record self.old { limit = limit } }
    /// </code>
    ///
    /// </details>
    #[inline]
    pub fn set_limit(&mut self, limit: u32) {
        self.limit = Limit::of(limit);
    }

    /// Returns the number of values that there is room for.
    ///
    /// ```
    /// use forgeni::{Handle, SparseMap};
    ///
    /// let mut names = SparseMap::with_capacity(10)?;
    /// for index in 0..10 {
    ///     names.insert(Handle::new(index, 1).ok_or("out of range")?, index)?;
    /// }
    /// assert_eq!(names.capacity(), 10);
    /// # Ok::<(), Box<dyn std::error::Error>>(())
    /// ```
    ///
    /// <details><summary>Contract</summary>
    ///
    /// <code style="display: block; tab-size: 4; white-space: pre-wrap">// In the words of [contracts](crate::contracts):
    /// ensures { result ≡ self.now.room }
    /// </code>
    ///
    /// </details>
    #[must_use]
    #[inline]
    pub fn capacity(&self) -> usize {
        self.entries.sized_capacity()
    }

    /// Frees the room that no value needs, like `Vec::shrink_to_fit`. If there isn't enough memory
    /// to move the values to, the room stays. The room for slots always stays.
    ///
    /// ```
    /// use forgeni::SparseMap;
    ///
    /// let mut names = SparseMap::with_capacity(1_000)?;
    /// names.insert("0v1".parse()?, "Ada")?;
    /// names.shrink_to_fit();
    /// assert_eq!(names.capacity(), 1);
    /// # Ok::<(), Box<dyn std::error::Error>>(())
    /// ```
    ///
    /// <details><summary>Contract</summary>
    ///
    /// <code style="display: block; tab-size: 4; white-space: pre-wrap">// In the words of [contracts](crate::contracts):
    /// ensures kept { self.new ≡ record self.old { room = self.new.room } }
    /// ensures shrinks { self.new.room ≤ self.old.room }
    /// ensures fits { [map.len](crate::contracts::logic#FinMap.len) self.old.values ≤ self.new.room }
    /// ensures frees { [map.len](crate::contracts::logic#FinMap.len) self.old.values ≡ 0 → self.new.room ≡ 0 }
    /// </code>
    ///
    /// </details>
    #[inline]
    pub fn shrink_to_fit(&mut self) {
        self.entries.shrink_to_fit_fallibly();
    }
}

impl<T> SparseMap<T> {
    /// The value of a handle that has one.
    #[inline]
    fn value_mut(&mut self, handle: Handle) -> &mut T
        // requires { IsSome (map.get self.old.values handle) }
        // ensures* writes_back { sem 𝓛 (lends_value T.row self.entry handle result) }
        // ensures value { map.get self.old.values handle ≡ Some result.now }
    {
        let position = self.positions[handle.index() as usize] as usize;
        &mut self.entries[position].1
    }
}

/// # Snapshots
impl<T: Clone> SparseMap<T> {
    /// Returns a map with a clone of each value, with room for the same slots, and with the same
    /// limit. Without room for slots it doesn't allocate.
    ///
    /// ```
    /// use forgeni::SparseMap;
    ///
    /// let mut now = SparseMap::new();
    /// let cart = "7v1".parse()?;
    /// now.insert(cart, 3)?;
    /// let before = now.try_clone()?;
    /// now[cart] += 1;
    /// assert_eq!((now[cart], before[cart]), (4, 3));
    /// # Ok::<(), Box<dyn std::error::Error>>(())
    /// ```
    ///
    /// # Errors
    ///
    /// Out of memory.
    ///
    /// <details><summary>Contract</summary>
    ///
    /// <code style="display: block; tab-size: 4; white-space: pre-wrap">// In the words of [contracts](crate::contracts):
    /// ensures clones { [IfOk](crate::contracts::logic#IfOk) result (λ m. [AreCloned](crate::contracts::ent_storage::sparse_map#AreCloned) T.is_clone self.now.values m.values) }
    /// ensures slots { [IfOk](crate::contracts::logic#IfOk) result (λ m. m.slots ≡ self.now.slots) }
    /// ensures room { [IfOk](crate::contracts::logic#IfOk) result (λ m. [map.len](crate::contracts::logic#FinMap.len) self.now.values ≤ m.room) }
    /// ensures limit { [IfOk](crate::contracts::logic#IfOk) result (λ m. m.limit ≡ self.now.limit) }
    /// ensures memory { [OnErr](crate::contracts::logic#OnErr) result (0 \< self.now.slots) }
    /// </code>
    ///
    /// </details>
    #[inline]
    pub fn try_clone(&self) -> Result<Self, OutOfMemory> {
        let mut positions = Vec::with_capacity_fallibly(self.positions.len())?;
        positions.extend_from_slice_fallibly(&self.positions)?;
        let mut entries = Vec::with_capacity_fallibly(self.entries.len())?;
        append_entries(&mut entries, &self.entries)?;
        Ok(SparseMap {
            entries,
            positions,
            limit: Limit::of(self.limit()),
        })
    }

    /// Drops all values, and gives this map a clone of each value of the source, room for the slots
    /// of the source, and its limit.
    ///
    /// If there is room for as many slots and values as the source has, it takes memory only for
    /// the clones.
    ///
    /// ```
    /// use forgeni::SparseMap;
    ///
    /// let (mut now, mut before) = (SparseMap::new(), SparseMap::new());
    /// let cart = "7v1".parse()?;
    /// for frame in 0..3 {
    ///     // A snapshot a frame, in the room of the last one.
    ///     before.try_clone_from(&now)?;
    ///     now.insert(cart, frame)?;
    /// }
    /// assert_eq!((now[cart], before[cart]), (2, 1));
    /// # Ok::<(), Box<dyn std::error::Error>>(())
    /// ```
    ///
    /// # Errors
    ///
    /// Out of memory. Nothing has changed if there wasn't room for the source. If there was, no
    /// values are left, and the limit is as before.
    ///
    /// # Panics
    ///
    /// A panic in `clone` is propagated. Nothing has changed, or no values are left, as after an
    /// error.
    ///
    /// <details><summary>Contract</summary>
    ///
    /// <code style="display: block; tab-size: 4; white-space: pre-wrap">// In the words of [contracts](crate::contracts):
    /// ensures clones { [OnOk](crate::contracts::logic#OnOk) result ([AreCloned](crate::contracts::ent_storage::sparse_map#AreCloned) T.is_clone source.now.values self.new.values) }
    /// ensures slots { [OnOk](crate::contracts::logic#OnOk) result (self.new.slots ≡ source.now.slots) }
    /// ensures limit { [OnOk](crate::contracts::logic#OnOk) result (self.new.limit ≡ source.now.limit) }
    /// ensures memory { [OnErr](crate::contracts::logic#OnErr) result (0 \< source.now.slots) }
    /// ensures memory_in_place { [OnErr](crate::contracts::logic#OnErr) result (source.now.slots ≤ self.old.slots
    /// &#9;→ 0 \< [map.len](crate::contracts::logic#FinMap.len) source.now.values) }
    /// ensures refused { [OnErr](crate::contracts::logic#OnErr) result (self.old.room \< [map.len](crate::contracts::logic#FinMap.len) source.now.values
    /// &#9;→ self.new ≡ self.old) }
    /// ensures left { [OnErr](crate::contracts::logic#OnErr) result ((self.new ≡ self.old)
    /// &#9;⊎ (self.new ≡ record self.old {
    /// &#9;&#32;&#32;values = [map.empty](crate::contracts::logic#FinMap.empty);
    /// &#9;&#32;&#32;slots = source.now.slots;
    /// &#9;&#32;&#32;room = self.new.room;
    /// &#9;})) }
    /// ensures emptied { [OnErr](crate::contracts::logic#OnErr) result (source.now.slots ≤ self.old.slots
    /// &#9;→ [map.len](crate::contracts::logic#FinMap.len) source.now.values ≤ self.old.room → self.new ≡ record self.old {
    /// &#9;&#32;&#32;values = [map.empty](crate::contracts::logic#FinMap.empty);
    /// &#9;&#32;&#32;slots = source.now.slots;
    /// &#9;&#32;&#32;room = self.new.room;
    /// &#9;}) }
    /// ensures room { [OnErr](crate::contracts::logic#OnErr) result (self.old.room ≤ self.new.room) }
    /// ensures room_in_place { source.now.slots ≤ self.old.slots → self.old.room ≤ self.new.room }
    /// </code>
    ///
    /// </details>
    #[inline]
    pub fn try_clone_from(&mut self, source: &Self) -> Result<(), OutOfMemory> {
        let values = source.entries.len();
        let slots = source.positions.len();
        if self.entries.sized_capacity() < values || self.positions.sized_capacity() < slots {
            *self = source.try_clone()?;
            return Ok(());
        }
        // While the list is out of the map, a panic of a value's `drop` or `clone` leaves a map
        // without values.
        let mut entries = mem::replace(&mut self.entries, Vec::new());
        entries.clear();
        overwrite(&mut self.positions, &source.positions);
        let cloned = append_entries(&mut entries, &source.entries);
        self.entries = entries;
        cloned?;
        self.limit = Limit::of(source.limit());
        Ok(())
    }
}

/// The value of a handle, if it has one.
#[inline]
fn find<'a, T>(entries: &'a [(Handle, T)], positions: &[u32], handle: Handle) -> Option<&'a T>
    // requires { IsPositioned entries.now positions.now }
    // ensures { option_copied result ≡ map.get (values_of entries.now) handle }
{
    let position = *positions.get(handle.index() as usize)? as usize;
    let entry = entries.get(position)?;
    if entry.0 == handle {
        Some(&entry.1)
    } else {
        None
    }
}

/// Gives the handle a value, as [`SparseMap::insert`] does below the limit.
#[inline]
fn put<T>(
    entries: &mut Vec<(Handle, T)>,
    positions: &mut Vec<u32>,
    handle: Handle,
    value: T,
) -> Result<Option<T>, HandedBack<T, InsertError>>
    // requires positioned { IsPositioned entries.old.items positions.old.items }
    // ensures positioned { IsPositioned entries.new.items positions.new.items }
    // ensures ok { OnOk result (values_of entries.new.items
    //     ≡ map.insert (without_slot (values_of entries.old.items) handle.index) handle value) }
    // ensures before { IfOk result (λ before. before
    //     ≡ map.get (values_of entries.old.items) handle) }
    // ensures slots { length positions.old.items ≤ length positions.new.items }
    // ensures slots_within { length positions.new.items
    //     ≤ max (length positions.old.items) (handle.index + 1 + handle.index / 8) }
    // ensures room { vec_capacity entries.old ≤ vec_capacity entries.new }
    // ensures limit { error_of result ≢ Some InsertError.Limit }
    // ensures later { (error_of result ≡ Some InsertError.Later)
    //     ↔ HasLater (values_of entries.old.items) handle }
    // ensures memory { error_of result ≡ Some InsertError.Memory
    //     → (length positions.old.items ≤ handle.index)
    //     ⊎ (vec_capacity entries.old ≤ length entries.old.items) }
    // ensures memory_for_a_new_slot { error_of result ≡ Some InsertError.Memory
    //     → IsFree entries.old.items handle.index }
    // ensures back { IfErr result (λ refused. refused.value ≡ value) }
    // ensures err { OnErr result (entries.new.items ≡ entries.old.items) }
    // ensures unchanged { OnErr result (error_of result ≢ Some InsertError.Memory
    //     → (entries.new ≡ entries.old) × (positions.new.items ≡ positions.old.items)) }
{
    let index = index_of(handle);
    let Some(position) = position_of(entries, positions, index) else {
        return add(entries, positions, handle, value);
    };
    if handle.generation() < entries[position].0.generation() {
        return Err(HandedBack::new(value, InsertError::Later));
    }
    let (standing, before) = mem::replace(&mut entries[position], (handle, value));
    if standing == handle {
        Ok(Some(before))
    } else {
        Ok(None)
    }
}

/// Adds a value to a slot that has none.
#[inline]
fn add<T>(
    entries: &mut Vec<(Handle, T)>,
    positions: &mut Vec<u32>,
    handle: Handle,
    value: T,
) -> Result<Option<T>, HandedBack<T, InsertError>>
    // requires in_range { handle.index < 2 ^ 32 - 1 }
    // requires positioned { IsPositioned entries.old.items positions.old.items }
    // requires free { IsFree entries.old.items handle.index }
    // ensures positioned { IsPositioned entries.new.items positions.new.items }
    // ensures ok { OnOk result (values_of entries.new.items
    //     ≡ map.insert (without_slot (values_of entries.old.items) handle.index) handle value) }
    // ensures before { IfOk result (λ before. before ≡ None) }
    // ensures slots { length positions.old.items ≤ length positions.new.items }
    // ensures slots_within { length positions.new.items
    //     ≤ max (length positions.old.items) (handle.index + 1 + handle.index / 8) }
    // ensures room { vec_capacity entries.old ≤ vec_capacity entries.new }
    // ensures memory { IfErr result (λ refused. refused.error ≡ InsertError.Memory) }
    // ensures full { OnErr result ((length positions.old.items ≤ handle.index)
    //     ⊎ (vec_capacity entries.old ≤ length entries.old.items)) }
    // ensures back { IfErr result (λ refused. refused.value ≡ value) }
    // ensures err { OnErr result (entries.new.items ≡ entries.old.items) }
{
    let index = handle.index() as usize;
    if make_position(positions, index).is_err() || entries.reserve_fallibly(1).is_err() {
        return Err(HandedBack::new(value, InsertError::Memory));
    }
    positions[index] = entries.len() as u32;
    entries.push_reserved((handle, value));
    Ok(None)
}

/// Takes the value of a handle out. The last entry takes its position.
#[inline]
fn take<T>(entries: &mut Vec<(Handle, T)>, positions: &mut Vec<u32>, handle: Handle) -> T
    // requires positioned { IsPositioned entries.old.items positions.old.items }
    // requires has { IsSome (map.get (values_of entries.old.items) handle) }
    // ensures positioned { IsPositioned entries.new.items positions.new.items }
    // ensures value { map.get (values_of entries.old.items) handle ≡ Some result }
    // ensures values { values_of entries.new.items
    //     ≡ map.remove (values_of entries.old.items) handle }
    // ensures slots { length positions.new.items ≡ length positions.old.items }
    // ensures room { vec_capacity entries.new ≡ vec_capacity entries.old }
{
    let position = positions[handle.index() as usize];
    let (_, value) = entries.swap_remove(position as usize);
    if (position as usize) < entries.len() {
        positions[entries[position as usize].0.index() as usize] = position;
    }
    value
}

/// Puts clones of these entries behind those that are there. With none, it doesn't allocate.
#[inline]
fn append_entries<T: Clone>(
    entries: &mut Vec<(Handle, T)>,
    others: &[(Handle, T)],
) -> Result<(), AllocError>
    // ensures ok { OnOk result (AppendsClones (IsEntryClone T.is_clone)
    //     entries.old.items entries.new.items others.now) }
    // ensures err { OnErr result (entries.new.items ≡ entries.old.items) }
    // ensures capacity { vec_capacity entries.old ≤ vec_capacity entries.new }
    // ensures memory { OnErr result (0 < length others.now) }
{
    if others.is_empty() {
        return Ok(());
    }
    entries.extend_from_slice_fallibly(others)
}
