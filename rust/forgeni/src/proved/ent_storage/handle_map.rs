// Made of crates/ent_storage/src/handle_map.rt by rust/erase. It isn't edited by hand.

//! A map from handles to values of any type, at most one for each slot.

mod emptying;
mod entry;
mod error;
mod generation;
mod iter;
mod keys;
mod retaining;
pub(crate) mod slot;
mod values;

use alloc::vec::Vec;
use crate::kit::vec::FallibleVec;
use crate::components::handle_map::emptying::move_values;
pub use crate::components::handle_map::entry::{Entry, OccupiedEntry, VacantEntry};
pub use crate::components::handle_map::error::InsertError;
pub use crate::components::handle_map::iter::Iter;
pub use crate::components::handle_map::keys::Keys;
use crate::components::handle_map::retaining::retain_slots;
use crate::components::handle_map::slot::{Slot, add_slots, append_clones};
pub use crate::components::handle_map::values::Values;
use crate::components::limit::Limit;
use crate::handles::{HandedBack, Handle, OutOfMemory};
use core::mem;

/// A map from handles to values of any type, for a component that many entities have. At most one
/// handle of a slot has a value.
///
/// It is what this package recommends for components: one map for each type, beside an
/// [`Entities`](crate::Entities) or in what a program calls its world. A look-up is one access to
/// a vector by the handle's index, and a comparison of the generation. So a map has room for all
/// slots up to the greatest index of its handles, and nothing moves when a value goes.
///
/// It does not know which handles an allocator has given or freed. A value that isn't removed stays
/// until a later occupant of its slot gets one, and that occupant's handle doesn't find it.
/// [`Follows::despawn`](crate::Follows::despawn) frees an entity and removes its value.
///
/// ```
/// use forgeni::{Entities, HandleMap};
///
/// let mut entities = Entities::new();
/// let mut names = HandleMap::new();
/// let cart = entities.alloc()?;
/// names.insert(cart, "cart")?;
/// assert_eq!(names.get(cart), Some(&"cart"));
/// assert_eq!(names.remove(cart), Some("cart"));
/// assert_eq!(names.get(cart), None);
/// # Ok::<(), Box<dyn std::error::Error + Send + Sync>>(())
/// ```
///
/// An entity can have a value in each of several maps:
///
/// ```
/// use forgeni::{Entities, HandleMap};
///
/// struct Body {
///     place: [f32; 2],
///     speed: [f32; 2],
/// }
///
/// let mut entities = Entities::new();
/// let mut bodies = HandleMap::new();
/// let mut names = HandleMap::new();
/// let ball = entities.alloc()?;
/// bodies.insert(ball, Body { place: [0.0; 2], speed: [1.0, 2.0] })?;
/// names.insert(ball, "ball")?;
///
/// bodies.for_each_mut(|_, body| {
///     body.place[0] += body.speed[0];
///     body.place[1] += body.speed[1];
/// });
/// assert_eq!((names[ball], bodies[ball].place), ("ball", [1.0, 2.0]));
/// # Ok::<(), Box<dyn std::error::Error + Send + Sync>>(())
/// ```
///
/// **A handle from a save or a network can make the map take a lot of memory.** The map takes room
/// for all slots up to the handle's index, and `200000000v1` is a well-formed handle. So give a map
/// for such handles a [limit](Self::with_limit). The map refuses each handle whose slot is at or
/// above the limit:
///
/// ```
/// use forgeni::{Entities, Handle, HandleMap, InsertError};
///
/// let mut entities = Entities::new();
/// let cart = entities.alloc()?;
/// let mut names = HandleMap::with_limit(entities.total());
/// names.insert(cart, "cart")?;
/// let saved: Handle = "200000000v1".parse()?;
/// let refused = names.insert(saved, "ship").unwrap_err();
/// assert_eq!(refused.into_parts(), ("ship", InsertError::Limit));
/// # Ok::<(), Box<dyn std::error::Error + Send + Sync>>(())
/// ```
///
/// A slot takes the size of a value, 4 bytes for the generation, and what alignment adds: 8 bytes
/// for values of up to 4 bytes, and 16 bytes for values of 8.
///
/// Contracts see a finite map from handles to values (`values`), how many slots there are
/// (`slots`), for how many slots there is room (`room`), and for how many slots there may be values
/// (`limit`).
pub struct HandleMap<T> {
    pub(crate) slots: Vec<Slot<T>>,
    pub(crate) len: usize,
    limit: Limit,
}

/// # Making one
impl<T> HandleMap<T> {
    /// Creates a map without values and without a limit. It doesn't allocate.
    ///
    /// ```
    /// use forgeni::HandleMap;
    ///
    /// static NAMES: std::sync::Mutex<HandleMap<String>> = std::sync::Mutex::new(HandleMap::new());
    ///
    /// let cart = "0v1".parse()?;
    /// let mut names = NAMES.lock()?;
    /// names.insert(cart, "cart".into())?;
    /// assert_eq!(names[cart], "cart");
    /// # Ok::<(), Box<dyn std::error::Error>>(())
    /// ```
    ///
    /// <details><summary>Contract</summary>
    ///
    /// <code style="display: block; tab-size: 4; white-space: pre-wrap">// In the words of [contracts](crate::contracts):
    /// ensures { result ≡ record { values = [map.empty](crate::contracts::logic#FinMap.empty); slots = 0; room = 0; limit = [no_limit](crate::contracts::ent_storage::handle_map#no_limit) } }
    /// </code>
    ///
    /// </details>
    #[must_use]
    #[inline]
    pub const fn new() -> Self {
        HandleMap::with_limit(u32::MAX)
    }

    /// Creates a map without values, which refuses each handle whose slot is at or above this
    /// limit. It doesn't allocate.
    ///
    /// [`Entities::total`](crate::Entities::total) is a limit that fits an allocator as long as
    /// it makes no new slots. [`set_limit`](Self::set_limit) changes the limit.
    ///
    /// ```
    /// use forgeni::{HandleMap, InsertError};
    ///
    /// // A forged handle of a save can't make the map take gigabytes.
    /// let mut names = HandleMap::with_limit(1_000);
    /// let refused = names.insert("4000000000v1".parse()?, "Eve").err().ok_or("it was inserted")?;
    /// assert_eq!((refused.error(), names.capacity()), (&InsertError::Limit, 0));
    /// # Ok::<(), Box<dyn std::error::Error>>(())
    /// ```
    ///
    /// <details><summary>Contract</summary>
    ///
    /// <code style="display: block; tab-size: 4; white-space: pre-wrap">// In the words of [contracts](crate::contracts):
    /// ensures { result ≡ record { values = [map.empty](crate::contracts::logic#FinMap.empty); slots = 0; room = 0; limit = limit } }
    /// </code>
    ///
    /// </details>
    #[must_use]
    #[inline]
    pub const fn with_limit(limit: u32) -> Self {
        HandleMap {
            slots: Vec::new(),
            len: 0,
            limit: Limit::of(limit),
        }
    }

    /// Creates a map without values and without a limit, with room for exactly that many slots. For
    /// 0 slots it doesn't allocate.
    ///
    /// ```
    /// use forgeni::{Entities, HandleMap};
    ///
    /// let mut entities = Entities::new();
    /// let all = entities.alloc_many(1_000)?;
    /// let mut healths = HandleMap::with_capacity(entities.total() as usize)?;
    /// for one in all {
    ///     // There is room, so this doesn't allocate.
    ///     healths.insert(one, 100)?;
    /// }
    /// assert_eq!(healths.capacity(), 1_000);
    /// # Ok::<(), Box<dyn std::error::Error>>(())
    /// ```
    ///
    /// # Errors
    ///
    /// Out of memory.
    ///
    /// <details><summary>Contract</summary>
    ///
    /// <code style="display: block; tab-size: 4; white-space: pre-wrap">// In the words of [contracts](crate::contracts):
    /// ensures empty { [IfOk](crate::contracts::logic#IfOk) result (λ m. m.values ≡ [map.empty](crate::contracts::logic#FinMap.empty)) }
    /// ensures slots { [IfOk](crate::contracts::logic#IfOk) result (λ m. m.slots ≡ 0) }
    /// ensures room { [IfOk](crate::contracts::logic#IfOk) result (λ m. m.room ≡ slots) }
    /// ensures limit { [IfOk](crate::contracts::logic#IfOk) result (λ m. m.limit ≡ [no_limit](crate::contracts::ent_storage::handle_map#no_limit)) }
    /// ensures memory { [OnErr](crate::contracts::logic#OnErr) result (0 \< slots) }
    /// </code>
    ///
    /// </details>
    #[inline]
    pub fn with_capacity(slots: usize) -> Result<Self, OutOfMemory> {
        Ok(HandleMap {
            slots: Vec::with_capacity_fallibly(slots)?,
            len: 0,
            limit: Limit::of(u32::MAX),
        })
    }
}

/// # Values
impl<T> HandleMap<T> {
    /// Gives the handle a value, and returns the one that it had. If an earlier occupant of the
    /// slot has one, that is dropped.
    ///
    /// If there is room for the slot ([`capacity`](Self::capacity)), it takes constant time and
    /// doesn't allocate. If not, it takes memory and time for all slots up to that of the handle.
    ///
    /// ```
    /// use forgeni::{Handle, HandleMap, InsertError};
    ///
    /// let [first, second] = [Handle::new(7, 1).unwrap(), Handle::new(7, 2).unwrap()];
    /// let mut map = HandleMap::new();
    /// assert_eq!(map.insert(first, "a")?, None);
    /// assert_eq!(map.insert(first, "b")?, Some("a"));
    /// assert_eq!(map.insert(second, "c")?, None);
    /// assert_eq!((map.get(first), map.get(second)), (None, Some(&"c")));
    ///
    /// let refused = map.insert(first, "d").unwrap_err();
    /// assert_eq!(refused.into_parts(), ("d", InsertError::Later));
    /// # Ok::<(), Box<dyn std::error::Error + Send + Sync>>(())
    /// ```
    ///
    /// # Errors
    ///
    /// [`HandedBack`] has the value, and nothing has changed. The reason is the first of these that
    /// applies:
    ///
    /// - `Limit`: the handle's slot is at or above the [`limit`](Self::limit), or the handle is
    ///   [`Handle::PLACEHOLDER`], which no map takes.
    /// - `Later`: a later occupant of the slot has a value.
    /// - `Memory`: memory ran out.
    ///
    /// <details><summary>Contract</summary>
    ///
    /// <code style="display: block; tab-size: 4; white-space: pre-wrap">// In the words of [contracts](crate::contracts):
    /// ensures ok { [OnOk](crate::contracts::logic#OnOk) result (self.new.values
    /// &#9;≡ [map.insert](crate::contracts::logic#FinMap.insert) ([without_slot](crate::contracts::ent_storage::handle_map#without_slot) self.old.values handle.index) handle value) }
    /// ensures before { [IfOk](crate::contracts::logic#IfOk) result (λ before. before ≡ [map.get](crate::contracts::logic#FinMap.get) self.old.values handle) }
    /// ensures slots { [OnOk](crate::contracts::logic#OnOk) result (self.new.slots ≡ [max](crate::contracts::logic#max) self.old.slots (handle.index + 1)) }
    /// ensures room { self.old.room ≤ self.new.room }
    /// ensures kept { self.new.limit ≡ self.old.limit }
    /// &#32;
    /// ensures limit { ([error_of](crate::contracts::ent_storage::handle_map#error_of) result ≡ [Some](crate::contracts::logic#Some) InsertError.Limit)
    /// &#9;↔ [IsBeyond](crate::contracts::ent_storage::handle_map#IsBeyond) self.old.limit handle }
    /// ensures later { ([error_of](crate::contracts::ent_storage::handle_map#error_of) result ≡ [Some](crate::contracts::logic#Some) InsertError.Later)
    /// &#9;↔ (¬ ([IsBeyond](crate::contracts::ent_storage::handle_map#IsBeyond) self.old.limit handle) × [HasLater](crate::contracts::ent_storage::handle_map#HasLater) self.old.values handle) }
    /// ensures memory { [error_of](crate::contracts::ent_storage::handle_map#error_of) result ≡ [Some](crate::contracts::logic#Some) InsertError.Memory → self.old.room ≤ handle.index }
    /// ensures back { [IfErr](crate::contracts::logic#IfErr) result (λ refused. refused.value ≡ value) }
    /// ensures err { [OnErr](crate::contracts::logic#OnErr) result (self.new ≡ self.old) }
    /// </code>
    ///
    /// </details>
    #[inline(always)]
    pub fn insert(
        &mut self,
        handle: Handle,
        value: T,
    ) -> Result<Option<T>, HandedBack<T, InsertError>> {
        if self.limit.refuses(handle) {
            return Err(HandedBack::new(value, InsertError::Limit));
        }
        let index = index_of(handle);
        let made = self.slots.len();
        if index < made {
            return self.insert_in_place(index, handle, value);
        }
        if made == self.slots.sized_capacity() || index > made {
            return self.insert_beyond(index, handle, value);
        }
        self.insert_next(handle, value);
        Ok(None)
    }

    /// Returns a reference to the handle's value, if it has one. It takes constant time.
    ///
    /// ```
    /// use forgeni::{Entities, HandleMap};
    ///
    /// let mut entities = Entities::new();
    /// let mut names = HandleMap::new();
    /// let player = entities.alloc()?;
    /// names.insert(player, "Ada")?;
    /// assert_eq!(names.get(player), Some(&"Ada"));
    ///
    /// let next = entities.free(player)?.next.unwrap();
    /// assert_eq!(names.get(next), None);
    /// # Ok::<(), Box<dyn std::error::Error + Send + Sync>>(())
    /// ```
    ///
    /// <details><summary>Contract</summary>
    ///
    /// <code style="display: block; tab-size: 4; white-space: pre-wrap">// In the words of [contracts](crate::contracts):
    /// ensures { [option_copied](crate::contracts::logic#option_copied) result ≡ [map.get](crate::contracts::logic#FinMap.get) self.now.values handle }
    /// </code>
    ///
    /// </details>
    #[must_use]
    #[inline]
    pub fn get(&self, handle: Handle) -> Option<&T> {
        find(&self.slots, handle)
    }

    /// Returns a mutable reference to the handle's value, if it has one. It takes constant time.
    ///
    /// ```
    /// use forgeni::HandleMap;
    ///
    /// let mut healths = HandleMap::new();
    /// let (cart, horse) = ("0v1".parse()?, "1v1".parse()?);
    /// healths.insert(cart, 100)?;
    /// for one in [cart, horse] {
    ///     // Whatever is hit and has a health loses some.
    ///     if let Some(health) = healths.get_mut(one) {
    ///         *health -= 30;
    ///     }
    /// }
    /// assert_eq!(healths[cart], 70);
    /// # Ok::<(), Box<dyn std::error::Error>>(())
    /// ```
    ///
    /// <details><summary>Contract</summary>
    ///
    /// <code style="display: block; tab-size: 4; white-space: pre-wrap">// In the words of [contracts](crate::contracts):
    /// ensures\* writes_back { [sem](crate::contracts::logic#sem) 𝓛 ([lends_get](crate::contracts::ent_storage::lends#lends_get) T.row self.entry handle result) }
    /// ensures value { [option_copied_mut](crate::contracts::logic#option_copied_mut) result ≡ [map.get](crate::contracts::logic#FinMap.get) self.old.values handle }
    /// </code>
    ///
    /// </details>
    #[must_use]
    #[inline]
    pub fn get_mut(&mut self, handle: Handle) -> Option<&mut T> {
        if self.contains(handle) {
            Some(self.value_mut(handle))
        } else {
            None
        }
    }

    /// Removes the handle's value, and returns it if there was one. It takes constant time and
    /// doesn't allocate.
    ///
    /// ```
    /// use forgeni::{Handle, HandleMap};
    ///
    /// let crate_of_gold = Handle::new(0, 1).unwrap();
    /// let mut weight = HandleMap::new();
    /// weight.insert(crate_of_gold, 900)?;
    /// assert_eq!(weight.remove(crate_of_gold), Some(900));
    /// assert_eq!(weight.remove(crate_of_gold), None);
    /// # Ok::<(), Box<dyn std::error::Error + Send + Sync>>(())
    /// ```
    ///
    /// <details><summary>Contract</summary>
    ///
    /// <code style="display: block; tab-size: 4; white-space: pre-wrap">// In the words of [contracts](crate::contracts):
    /// ensures value { result ≡ [map.get](crate::contracts::logic#FinMap.get) self.old.values handle }
    /// ensures map { self.new
    /// &#9;≡ record self.old { values = [map.remove](crate::contracts::logic#FinMap.remove) self.old.values handle } }
    /// </code>
    ///
    /// </details>
    #[inline]
    pub fn remove(&mut self, handle: Handle) -> Option<T> {
        if !self.contains(handle) {
            return None;
        }
        self.len -= 1;
        let slot = mem::replace(&mut self.slots[handle.index() as usize], Slot::Vacant);
        slot.into_value(handle.generation())
    }

    /// Returns `true` if the handle has a value. It takes constant time.
    ///
    /// ```
    /// use forgeni::HandleMap;
    ///
    /// let mut burning = HandleMap::new();
    /// let (old, new) = ("7v1".parse()?, "7v2".parse()?);
    /// burning.insert(old, 3)?;
    /// assert!(burning.contains(old) && !burning.contains(new));
    /// # Ok::<(), Box<dyn std::error::Error>>(())
    /// ```
    ///
    /// <details><summary>Contract</summary>
    ///
    /// <code style="display: block; tab-size: 4; white-space: pre-wrap">// In the words of [contracts](crate::contracts):
    /// ensures { result ≡ [map.contains_key](crate::contracts::logic#FinMap.contains_key) self.now.values handle }
    /// </code>
    ///
    /// </details>
    #[must_use]
    #[inline]
    pub fn contains(&self, handle: Handle) -> bool {
        self.get(handle).is_some()
    }

    /// Returns the handle's entry: occupied if the handle has a value, vacant if not. Each call on
    /// the entry looks the handle up again.
    ///
    /// ```
    /// use forgeni::handle_map::Entry;
    /// use forgeni::{Entities, HandleMap};
    ///
    /// let mut entities = Entities::new();
    /// let mut hits: HandleMap<u32> = HandleMap::new();
    /// let [ball, cart] = [entities.alloc()?, entities.alloc()?];
    /// for one in [ball, cart, ball] {
    ///     *hits.entry(one).or_insert(0)? += 1;
    /// }
    /// hits.entry(cart).and_modify(|hits| *hits += 10).or_insert(1)?;
    /// assert_eq!((hits[ball], hits[cart]), (2, 11));
    ///
    /// if let Entry::Occupied(entry) = hits.entry(ball) {
    ///     assert_eq!(entry.remove(), 2);
    /// }
    /// assert!(!hits.contains(ball));
    /// # Ok::<(), Box<dyn std::error::Error + Send + Sync>>(())
    /// ```
    ///
    /// <details><summary>Contract</summary>
    ///
    /// <code style="display: block; tab-size: 4; white-space: pre-wrap">// In the words of [contracts](crate::contracts):
    /// ensures handle { [entry_handle](crate::contracts::ent_storage::entry#entry_handle) result ≡ handle }
    /// ensures value { [entry_value](crate::contracts::ent_storage::entry#entry_value) result ≡ [map.get](crate::contracts::logic#FinMap.get) self.old.values handle }
    /// ensures map { [entry_map](crate::contracts::ent_storage::entry#entry_map) result ≡ self.old }
    /// ensures same_map { ([entry_ref](crate::contracts::ent_storage::entry#entry_ref) result).ghost_name ≡ self.entry.ghost_name }
    /// </code>
    ///
    /// </details>
    #[must_use]
    #[inline]
    pub fn entry(&mut self, handle: Handle) -> Entry<'_, T> {
        if self.contains(handle) {
            Entry::Occupied(OccupiedEntry { map: self, handle })
        } else {
            Entry::Vacant(VacantEntry { map: self, handle })
        }
    }
}

/// # All values
impl<T> HandleMap<T> {
    /// Returns an iterator over the handles and their values, in slot order. It takes time for each
    /// slot.
    ///
    /// ```
    /// use forgeni::{Entities, HandleMap};
    ///
    /// let mut entities = Entities::new();
    /// let mut health = HandleMap::new();
    /// let all = entities.alloc_many(2)?;
    /// health.insert(all[1], 20)?;
    /// health.insert(all[0], 10)?;
    /// assert!(health.iter().eq([(all[0], &10), (all[1], &20)]));
    /// # Ok::<(), Box<dyn std::error::Error + Send + Sync>>(())
    /// ```
    ///
    /// <details><summary>Contract</summary>
    ///
    /// <code style="display: block; tab-size: 4; white-space: pre-wrap">// In the words of [contracts](crate::contracts):
    /// ensures entries { result ≡ [map.entries](crate::contracts::logic#FinMap.entries) self.now.values }
    /// ensures rising { [AllPairs](crate::contracts::logic#AllPairs) (λ a b. a.0.index \< b.0.index) result }
    /// ensures count { [length](crate::contracts::logic#length) result ≡ [map.len](crate::contracts::logic#FinMap.len) self.now.values }
    /// </code>
    ///
    /// </details>
    #[inline]
    pub fn iter(&self) -> Iter<'_, T> {
        Iter::new(&self.slots, self.len)
    }

    /// Returns an iterator over the handles that have a value, in slot order.
    ///
    /// ```
    /// use forgeni::{Entities, HandleMap};
    ///
    /// let mut entities = Entities::new();
    /// let mut burning = HandleMap::new();
    /// let all = entities.alloc_many(3)?;
    /// burning.insert(all[2], ())?;
    /// burning.insert(all[0], ())?;
    /// assert!(burning.keys().eq([all[0], all[2]]));
    /// # Ok::<(), Box<dyn std::error::Error>>(())
    /// ```
    ///
    /// <details><summary>Contract</summary>
    ///
    /// <code style="display: block; tab-size: 4; white-space: pre-wrap">// In the words of [contracts](crate::contracts):
    /// ensures { result ≡ [map.keys](crate::contracts::logic#FinMap.keys) self.now.values }
    /// </code>
    ///
    /// </details>
    #[inline]
    pub fn keys(&self) -> Keys<'_, T> {
        Keys::new(self.iter())
    }

    /// Returns an iterator over the values, in slot order.
    ///
    /// ```
    /// use forgeni::HandleMap;
    ///
    /// let mut masses = HandleMap::new();
    /// masses.insert("0v1".parse()?, 900)?;
    /// masses.insert("7v2".parse()?, 80)?;
    /// assert_eq!(masses.values().sum::<u32>(), 980);
    /// # Ok::<(), Box<dyn std::error::Error>>(())
    /// ```
    ///
    /// <details><summary>Contract</summary>
    ///
    /// <code style="display: block; tab-size: 4; white-space: pre-wrap">// In the words of [contracts](crate::contracts):
    /// ensures { result ≡ [map.values](crate::contracts::logic#FinMap.values) self.now.values }
    /// </code>
    ///
    /// </details>
    #[inline]
    pub fn values(&self) -> Values<'_, T> {
        Values::new(self.iter())
    }

    /// Calls `keep` on each value once, in slot order, and drops the values for which it returns
    /// `false`. It may change those that stay. The room stays.
    ///
    /// ```
    /// use forgeni::{Entities, HandleMap};
    ///
    /// let mut entities = Entities::new();
    /// let mut frames_left: HandleMap<u32> = HandleMap::new();
    /// for (frames, one) in (1..).zip(entities.alloc_many(3)?) {
    ///     frames_left.insert(one, frames)?;
    /// }
    /// frames_left.retain(|one, frames| {
    ///     *frames -= 1;
    ///     *frames > 0 || entities.free(one).is_err()
    /// });
    /// assert!(frames_left.keys().eq(&entities));
    /// assert!(frames_left.values().eq(&[1, 2]));
    /// # Ok::<(), Box<dyn std::error::Error + Send + Sync>>(())
    /// ```
    ///
    /// # Panics
    ///
    /// A panic in `keep` is propagated. The map then has the values that were kept, those that
    /// `keep` wasn't called on, and the one on which it panicked, with the changes that `keep` had
    /// made to it.
    ///
    /// <details><summary>Contract</summary>
    ///
    /// <code style="display: block; tab-size: 4; white-space: pre-wrap">// In the words of [contracts](crate::contracts):
    /// requires { F.IsAlwaysCallable keep }
    /// ensures retained { [Retains](crate::contracts::ent_storage::retained#Retains) F.step keep ([map.entries](crate::contracts::logic#FinMap.entries) self.old.values)
    /// &#9;([map.entries](crate::contracts::logic#FinMap.entries) self.new.values) }
    /// ensures kept { self.new ≡ record self.old { values = self.new.values } }
    /// </code>
    ///
    /// </details>
    #[inline]
    pub fn retain<F: FnMut(Handle, &mut T) -> bool>(&mut self, keep: F) {
        retain_slots(&mut self.slots, &mut self.len, keep);
    }

    /// Drops all values. The room stays.
    ///
    /// ```
    /// use forgeni::HandleMap;
    ///
    /// let mut hits = HandleMap::new();
    /// for frame in 0..3 {
    ///     // From the second frame on it doesn't allocate.
    ///     hits.clear();
    ///     hits.insert("99v1".parse()?, frame)?;
    /// }
    /// assert_eq!((hits.len(), hits.capacity() >= 100), (1, true));
    /// # Ok::<(), Box<dyn std::error::Error>>(())
    /// ```
    ///
    /// <details><summary>Contract</summary>
    ///
    /// <code style="display: block; tab-size: 4; white-space: pre-wrap">// In the words of [contracts](crate::contracts):
    /// ensures { self.new ≡ record self.old { values = [map.empty](crate::contracts::logic#FinMap.empty); slots = 0 } }
    /// </code>
    ///
    /// </details>
    #[inline]
    pub fn clear(&mut self) {
        self.len = 0;
        self.slots.clear();
    }

    /// Returns the handles and their values, in slot order.
    ///
    /// ```
    /// use forgeni::{Handle, HandleMap};
    ///
    /// let handle = |index| Handle::new(index, 1).unwrap();
    /// let names: HandleMap<&str> = [(handle(8), "Bob"), (handle(3), "Ada")].into_iter().collect();
    /// assert_eq!(names.into_entries()?, [(handle(3), "Ada"), (handle(8), "Bob")]);
    /// # Ok::<(), forgeni::OutOfMemory>(())
    /// ```
    ///
    /// # Errors
    ///
    /// Out of memory. The values are dropped.
    ///
    /// <details><summary>Contract</summary>
    ///
    /// <code style="display: block; tab-size: 4; white-space: pre-wrap">// In the words of [contracts](crate::contracts):
    /// ensures entries { [IfOk](crate::contracts::logic#IfOk) result (λ all. all.items ≡ [map.entries](crate::contracts::logic#FinMap.entries) self.values) }
    /// ensures memory { [OnErr](crate::contracts::logic#OnErr) result (0 \< [map.len](crate::contracts::logic#FinMap.len) self.values) }
    /// </code>
    ///
    /// </details>
    #[inline]
    pub fn into_entries(self) -> Result<Vec<(Handle, T)>, OutOfMemory> {
        let mut all = Vec::with_capacity_fallibly(self.len)?;
        move_values(self.slots, self.len, &mut all);
        Ok(all)
    }
}

/// # Counts and room
impl<T> HandleMap<T> {
    /// Returns the number of values. It takes constant time.
    ///
    /// ```
    /// use forgeni::HandleMap;
    ///
    /// let mut names = HandleMap::new();
    /// names.insert("7v1".parse()?, "Ada")?;
    /// names.insert("7v2".parse()?, "Bob")?;
    /// // A slot has one value.
    /// assert_eq!((names.len(), names.slots()), (1, 8));
    /// # Ok::<(), Box<dyn std::error::Error>>(())
    /// ```
    ///
    /// <details><summary>Contract</summary>
    ///
    /// <code style="display: block; tab-size: 4; white-space: pre-wrap">// In the words of [contracts](crate::contracts):
    /// ensures { result ≡ [map.len](crate::contracts::logic#FinMap.len) self.now.values }
    /// </code>
    ///
    /// </details>
    #[must_use]
    #[inline]
    pub fn len(&self) -> usize {
        self.len
    }

    /// Returns `true` if the map has no values.
    ///
    /// ```
    /// use forgeni::HandleMap;
    ///
    /// let mut burning = HandleMap::new();
    /// let cart = "0v1".parse()?;
    /// burning.insert(cart, 3)?;
    /// burning.remove(cart);
    /// assert!(burning.is_empty());
    /// # Ok::<(), Box<dyn std::error::Error>>(())
    /// ```
    ///
    /// <details><summary>Contract</summary>
    ///
    /// <code style="display: block; tab-size: 4; white-space: pre-wrap">// In the words of [contracts](crate::contracts):
    /// ensures { [IsTrue](crate::contracts::logic#IsTrue) result ↔ ([map.len](crate::contracts::logic#FinMap.len) self.now.values ≡ 0) }
    /// </code>
    ///
    /// </details>
    #[must_use]
    #[inline]
    pub fn is_empty(&self) -> bool {
        self.len() == 0
    }

    /// Returns the number of slots. The last one is the slot with the greatest index among those
    /// that were given a value since the map was made or cleared.
    ///
    /// ```
    /// use forgeni::HandleMap;
    ///
    /// let mut names = HandleMap::new();
    /// let ada = "99v1".parse()?;
    /// names.insert(ada, "Ada")?;
    /// names.remove(ada);
    /// // A walk looks at each of them.
    /// assert_eq!((names.len(), names.slots()), (0, 100));
    /// # Ok::<(), Box<dyn std::error::Error>>(())
    /// ```
    ///
    /// <details><summary>Contract</summary>
    ///
    /// <code style="display: block; tab-size: 4; white-space: pre-wrap">// In the words of [contracts](crate::contracts):
    /// ensures value { result ≡ self.now.slots }
    /// ensures room { self.now.slots ≤ self.now.room }
    /// ensures values { (handle : [Handle](crate::contracts::ent_handle::handle#Handle)) → [IsSome](crate::contracts::logic#IsSome) ([map.get](crate::contracts::logic#FinMap.get) self.now.values handle)
    /// &#9;→ handle.index \< self.now.slots }
    /// </code>
    ///
    /// </details>
    #[must_use]
    #[inline]
    pub fn slots(&self) -> usize {
        self.slots.len()
    }

    /// Returns the limit: for how many slots, from slot 0 on, the map takes values. It is the limit
    /// that was set, or 4,294,967,295, which is no limit.
    ///
    /// ```
    /// use forgeni::HandleMap;
    ///
    /// let names: HandleMap<&str> = HandleMap::new();
    /// assert_eq!(names.limit(), u32::MAX);
    /// assert_eq!(HandleMap::<&str>::with_limit(1_000).limit(), 1_000);
    /// ```
    ///
    /// <details><summary>Contract</summary>
    ///
    /// <code style="display: block; tab-size: 4; white-space: pre-wrap">// In the words of [contracts](crate::contracts):
    /// ensures { result ≡ self.now.limit }
    /// </code>
    ///
    /// </details>
    #[must_use]
    #[inline]
    pub const fn limit(&self) -> u32 {
        self.limit.slots()
    }

    /// Sets the limit. The map keeps the values that it has, even those of slots at or above the
    /// limit.
    ///
    /// ```
    /// use forgeni::{Handle, HandleMap, InsertError};
    ///
    /// let [third, fourth] = [Handle::new(3, 1).unwrap(), Handle::new(4, 1).unwrap()];
    /// let mut map = HandleMap::new();
    /// map.insert(third, "c")?;
    /// map.set_limit(3);
    /// assert_eq!((map.limit(), map.get(third)), (3, Some(&"c")));
    /// assert_eq!(*map.insert(fourth, "d").unwrap_err().error(), InsertError::Limit);
    /// # Ok::<(), Box<dyn std::error::Error + Send + Sync>>(())
    /// ```
    ///
    /// <details><summary>Contract</summary>
    ///
    /// <code style="display: block; tab-size: 4; white-space: pre-wrap">// In the words of [contracts](crate::contracts):
    /// ensures { self.new ≡ record self.old { limit = limit } }
    /// </code>
    ///
    /// </details>
    #[inline]
    pub fn set_limit(&mut self, limit: u32) {
        self.limit = Limit::of(limit);
    }

    /// Returns the number of slots that there is room for. Inserting a handle with an index below
    /// it doesn't allocate.
    ///
    /// ```
    /// use forgeni::{Handle, HandleMap};
    ///
    /// let mut names = HandleMap::with_capacity(100)?;
    /// let last = Handle::new(99, 1).ok_or("out of range")?;
    /// assert!(names.capacity() > last.index() as usize);
    /// names.insert(last, "Ada")?;
    /// assert_eq!(names.capacity(), 100);
    /// # Ok::<(), Box<dyn std::error::Error>>(())
    /// ```
    ///
    /// <details><summary>Contract</summary>
    ///
    /// <code style="display: block; tab-size: 4; white-space: pre-wrap">// In the words of [contracts](crate::contracts):
    /// ensures { result ≡ self.now.room }
    /// </code>
    ///
    /// </details>
    #[must_use]
    #[inline]
    pub fn capacity(&self) -> usize {
        self.slots.sized_capacity()
    }

    /// Makes room for that many more slots than there [are](Self::slots), like `Vec::reserve`. It
    /// doesn't allocate if there is room.
    ///
    /// ```
    /// use forgeni::{Handle, HandleMap};
    ///
    /// let mut map = HandleMap::new();
    /// map.insert(Handle::new(9, 1).unwrap(), "last")?;
    /// map.reserve(90)?;
    /// assert!(map.slots() == 10 && map.capacity() >= 100);
    /// # Ok::<(), Box<dyn std::error::Error + Send + Sync>>(())
    /// ```
    ///
    /// # Errors
    ///
    /// Out of memory. Nothing has changed.
    ///
    /// <details><summary>Contract</summary>
    ///
    /// <code style="display: block; tab-size: 4; white-space: pre-wrap">// In the words of [contracts](crate::contracts):
    /// ensures room { [OnOk](crate::contracts::logic#OnOk) result (self.old.slots + additional ≤ self.new.room) }
    /// ensures kept { self.new ≡ record self.old { room = self.new.room } }
    /// ensures grows { self.old.room ≤ self.new.room }
    /// ensures in_place { self.old.slots + additional ≤ self.old.room → self.new ≡ self.old }
    /// ensures memory { [OnErr](crate::contracts::logic#OnErr) result (self.old.room \< self.old.slots + additional) }
    /// ensures err { [OnErr](crate::contracts::logic#OnErr) result (self.new ≡ self.old) }
    /// </code>
    ///
    /// </details>
    #[inline]
    pub fn reserve(&mut self, additional: usize) -> Result<(), OutOfMemory> {
        if self.slots.sized_capacity() - self.slots.len() < additional {
            self.slots.reserve_fallibly(additional)?;
        }
        Ok(())
    }

    /// Frees the room that no slot needs, like `Vec::shrink_to_fit`. If there isn't enough memory
    /// to move the slots to, the room stays.
    ///
    /// ```
    /// use forgeni::{Handle, HandleMap};
    ///
    /// let mut map = HandleMap::with_capacity(1000)?;
    /// map.insert(Handle::new(9, 1).unwrap(), "last")?;
    /// map.shrink_to_fit();
    /// assert_eq!((map.slots(), map.capacity()), (10, 10));
    /// # Ok::<(), Box<dyn std::error::Error + Send + Sync>>(())
    /// ```
    ///
    /// <details><summary>Contract</summary>
    ///
    /// <code style="display: block; tab-size: 4; white-space: pre-wrap">// In the words of [contracts](crate::contracts):
    /// ensures kept { self.new ≡ record self.old { room = self.new.room } }
    /// ensures shrinks { self.new.room ≤ self.old.room }
    /// ensures fits { self.old.slots ≤ self.new.room }
    /// ensures frees { self.old.slots ≡ 0 → self.new.room ≡ 0 }
    /// </code>
    ///
    /// </details>
    #[inline]
    pub fn shrink_to_fit(&mut self) {
        self.slots.shrink_to_fit_fallibly();
    }
}

impl<T> HandleMap<T> {
    /// The value of a handle that has one.
    #[inline]
    fn value_mut(&mut self, handle: Handle) -> &mut T
        // requires { IsSome (map.get self.old.values handle) }
        // ensures* writes_back { sem 𝓛 (lends_value T.row self.entry handle result) }
        // ensures value { map.get self.old.values handle ≡ Some result.now }
    {
        self.slots[handle.index() as usize].value_mut()
    }

    /// `insert` into a slot that there is.
    #[inline(always)]
    fn insert_in_place(
        &mut self,
        index: usize,
        handle: Handle,
        value: T,
    ) -> Result<Option<T>, HandedBack<T, InsertError>>
        // requires slot { index ≡ handle.index }
        // requires made { index < self.old.slots }
        // ensures ok { OnOk result (self.new ≡ record self.old {
        //   values = map.insert (without_slot self.old.values handle.index) handle value;
        // }) }
        // ensures before { IfOk result (λ before. before ≡ map.get self.old.values handle) }
        // ensures later { (error_of result ≡ Some InsertError.Later)
        //     ↔ HasLater self.old.values handle }
        // ensures reason { IfErr result (λ refused. refused.error ≡ InsertError.Later) }
        // ensures back { IfErr result (λ refused. refused.value ≡ value) }
        // ensures err { OnErr result (self.new ≡ self.old) }
    {
        let slot = &mut self.slots[index];
        match slot {
            Slot::Vacant => {
                *slot = Slot::of(handle, value);
                self.len += 1;
                Ok(None)
            }
            Slot::Occupied {
                generation,
                value: there,
            } => {
                if handle.generation() == generation.number() {
                    return Ok(Some(mem::replace(there, value)));
                }
                if handle.generation() < generation.number() {
                    return Err(HandedBack::new(value, InsertError::Later));
                }
                *slot = Slot::of(handle, value);
                Ok(None)
            }
        }
    }

    /// `insert` into a slot that isn't the next one, or for which there may be no room. It is
    /// apart, so that nothing is called for the next slot if there is room.
    #[cold]
    #[inline(never)]
    fn insert_beyond(
        &mut self,
        index: usize,
        handle: Handle,
        value: T,
    ) -> Result<Option<T>, HandedBack<T, InsertError>>
        // requires slot { index ≡ handle.index }
        // requires beyond { self.old.slots ≤ index }
        // requires few { index < 2 ^ 32 - 1 }
        // ensures ok { OnOk result (self.new.values
        //     ≡ map.insert (without_slot self.old.values handle.index) handle value) }
        // ensures slots { OnOk result (self.new.slots ≡ index + 1) }
        // ensures before { IfOk result (λ before. before ≡ map.get self.old.values handle) }
        // ensures first { ¬ HasLater self.old.values handle }
        // ensures room { self.old.room ≤ self.new.room }
        // ensures kept { self.new.limit ≡ self.old.limit }
        // ensures reason { IfErr result (λ refused. refused.error ≡ InsertError.Memory) }
        // ensures memory { OnErr result (self.old.room ≤ index) }
        // ensures back { IfErr result (λ refused. refused.value ≡ value) }
        // ensures err { OnErr result (self.new ≡ self.old) }
    {
        let Ok(()) = add_slots(&mut self.slots, index) else {
            return Err(HandedBack::new(value, InsertError::Memory));
        };
        self.insert_next(handle, value);
        Ok(None)
    }

    /// Makes the next slot, with the value of a handle. There has to be room.
    #[inline(always)]
    fn insert_next(&mut self, handle: Handle, value: T)
        // requires slot { self.old.slots ≡ handle.index }
        // requires few { handle.index < 2 ^ 32 - 1 }
        // requires room { self.old.slots < self.old.room }
        // ensures { self.new ≡ record self.old {
        //   values = map.insert (without_slot self.old.values handle.index) handle value;
        //   slots = self.old.slots + 1;
        // } }
    {
        self.slots.push_reserved(Slot::of(handle, value));
        self.len += 1;
    }
}

/// # Snapshots
impl<T: Clone> HandleMap<T> {
    /// Returns a map with a clone of each value, and with the same slots and the same limit.
    /// Without slots it doesn't allocate.
    ///
    /// ```
    /// use forgeni::{Handle, HandleMap};
    ///
    /// let cart = Handle::new(0, 1).unwrap();
    /// let mut now = HandleMap::new();
    /// now.insert(cart, 3)?;
    /// let before = now.try_clone()?;
    /// now[cart] += 1;
    /// assert_eq!((now[cart], before[cart]), (4, 3));
    /// # Ok::<(), Box<dyn std::error::Error + Send + Sync>>(())
    /// ```
    ///
    /// # Errors
    ///
    /// Out of memory.
    ///
    /// <details><summary>Contract</summary>
    ///
    /// <code style="display: block; tab-size: 4; white-space: pre-wrap">// In the words of [contracts](crate::contracts):
    /// ensures keys { [IfOk](crate::contracts::logic#IfOk) result (λ m. [map.keys](crate::contracts::logic#FinMap.keys) m.values ≡ [map.keys](crate::contracts::logic#FinMap.keys) self.now.values) }
    /// ensures clones { [IfOk](crate::contracts::logic#IfOk) result (λ m.
    /// &#9;[AllZip](crate::contracts::logic#AllZip) T.is_clone ([map.values](crate::contracts::logic#FinMap.values) self.now.values) ([map.values](crate::contracts::logic#FinMap.values) m.values)) }
    /// ensures slots { [IfOk](crate::contracts::logic#IfOk) result (λ m. m.slots ≡ self.now.slots) }
    /// ensures limit { [IfOk](crate::contracts::logic#IfOk) result (λ m. m.limit ≡ self.now.limit) }
    /// ensures memory { [OnErr](crate::contracts::logic#OnErr) result (0 \< self.now.slots) }
    /// </code>
    ///
    /// </details>
    #[inline]
    pub fn try_clone(&self) -> Result<Self, OutOfMemory> {
        let mut slots = Vec::with_capacity_fallibly(self.slots.len())?;
        append_clones(&mut slots, &self.slots)?;
        Ok(HandleMap {
            slots,
            len: self.len,
            limit: Limit::of(self.limit()),
        })
    }

    /// Drops all values, and gives this map a clone of each value of the source, and the slots and
    /// the limit of the source.
    ///
    /// If there is room for the slots of the source ([`capacity`](Self::capacity)), it takes memory
    /// only for the clones. So a map into which another one is cloned again and again takes memory
    /// only as that one grows.
    ///
    /// ```
    /// use forgeni::{Handle, HandleMap};
    ///
    /// let cart = Handle::new(0, 1).unwrap();
    /// let mut now = HandleMap::new();
    /// let mut before = HandleMap::new();
    /// for frame in 0..3 {
    ///     before.try_clone_from(&now)?;
    ///     now.insert(cart, frame)?;
    /// }
    /// assert_eq!((now[cart], before[cart]), (2, 1));
    /// # Ok::<(), Box<dyn std::error::Error + Send + Sync>>(())
    /// ```
    ///
    /// # Errors
    ///
    /// Out of memory for the slots of the source: nothing has changed. In Rattle, where a clone can
    /// fail, also out of memory for a clone although there was room for the slots: no values are
    /// left.
    ///
    /// # Panics
    ///
    /// A panic in `clone` is propagated. If there was room for the slots of the source, no values
    /// are left. If there wasn't, nothing has changed.
    ///
    /// <details><summary>Contract</summary>
    ///
    /// <code style="display: block; tab-size: 4; white-space: pre-wrap">// In the words of [contracts](crate::contracts):
    /// ensures keys { [OnOk](crate::contracts::logic#OnOk) result ([map.keys](crate::contracts::logic#FinMap.keys) self.new.values ≡ [map.keys](crate::contracts::logic#FinMap.keys) source.now.values) }
    /// ensures clones { [OnOk](crate::contracts::logic#OnOk) result
    /// &#9;([AllZip](crate::contracts::logic#AllZip) T.is_clone ([map.values](crate::contracts::logic#FinMap.values) source.now.values) ([map.values](crate::contracts::logic#FinMap.values) self.new.values)) }
    /// ensures slots { [OnOk](crate::contracts::logic#OnOk) result (self.new.slots ≡ source.now.slots) }
    /// ensures limit { [OnOk](crate::contracts::logic#OnOk) result (self.new.limit ≡ source.now.limit) }
    /// ensures room { self.old.room ≤ self.new.room }
    /// &#32;
    /// ensures memory { [OnErr](crate::contracts::logic#OnErr) result (0 \< source.now.slots) }
    /// ensures refused { [OnErr](crate::contracts::logic#OnErr) result (self.old.room \< source.now.slots → self.new ≡ self.old) }
    /// ensures emptied { [OnErr](crate::contracts::logic#OnErr) result (source.now.slots ≤ self.old.room
    /// &#9;→ self.new ≡ record self.old {
    /// &#9;&#32;&#32;values = [map.empty](crate::contracts::logic#FinMap.empty);
    /// &#9;&#32;&#32;slots = 0;
    /// &#9;&#32;&#32;room = self.new.room;
    /// &#9;}) }
    /// </code>
    ///
    /// </details>
    #[inline]
    pub fn try_clone_from(&mut self, source: &Self) -> Result<(), OutOfMemory> {
        if self.slots.sized_capacity() < source.slots.len() {
            *self = source.try_clone()?;
            return Ok(());
        }
        // While the list is out of the map, a panic of a value's `drop` or `clone` leaves a map
        // without values.
        self.len = 0;
        let mut slots = mem::replace(&mut self.slots, Vec::new());
        slots.clear();
        let cloned = append_clones(&mut slots, &source.slots);
        self.slots = slots;
        cloned?;
        self.len = source.len;
        self.limit = Limit::of(source.limit());
        Ok(())
    }
}

/// Which slot a handle is of. It says too that there is such a slot.
#[inline]
pub(crate) fn index_of(handle: Handle) -> usize
    // ensures value { result ≡ handle.index }
    // ensures in_range { result < 2 ^ 32 - 1 }
{
    // All that a handle keeps is in range, as its bits tell.
    let _bits = handle.to_bits();
    handle.index() as usize
}

/// The value of a handle, if it has one.
#[inline]
fn find<T>(slots: &[Slot<T>], handle: Handle) -> Option<&T>
    // ensures { option_copied result ≡ value_in slots.now handle }
{
    match slots.get(handle.index() as usize) {
        Some(slot) => slot.value(handle.generation()),
        None => None,
    }
}
