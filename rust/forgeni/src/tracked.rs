//! Maps that know when their values were last lent mutably. Hand-written: a map, and a row of
//! numbers beside it.

use crate::errors::{HandedBack, OutOfMemory};
use crate::follows::Follows;
use crate::handle::Handle;
use crate::joining::Walk;
use crate::{AnyMap, Entities, InsertError};
use alloc::vec::Vec;
use core::fmt;
use core::ops::{Deref, Index};

/// A map of components, and the tick at which each value was last lent mutably.
///
/// A *tick* is a number of the program's own, such as that of its frame, and goes up. A system that
/// keeps the first tick that it hasn't seen walks over what has changed since, as with Bevy's
/// `Changed`. A `Tracked` map is read as the map itself. Each call that lends values mutably takes
/// a tick: [`get_mut`](Self::get_mut) one value, and [`map_mut`](Self::map_mut) all of them, with
/// every call that the map has. A map that isn't tracked pays nothing for it.
///
/// ```
/// use forgeni::{Handle, HandleMap, JoinMaps, Tracked};
///
/// let [ball, cart] = [Handle::new(0, 1).unwrap(), Handle::new(7, 1).unwrap()];
/// let mut places = Tracked::new(HandleMap::from([(ball, 1), (cart, 2)]), 0);
/// assert_eq!(places.changed_since(0).count(), 2);
///
/// *places.get_mut(cart, 1)?.unwrap() += 5;
/// assert!(places.changed_since(1).eq([(cart, &7)]));
/// assert_eq!(places[ball] + places[cart], 8);
///
/// let speeds = Tracked::new(HandleMap::from([(ball, 10)]), 0);
/// for (_, place, speed) in (places.map_mut(2), &*speeds).join() {
///     *place += speed;
/// }
/// assert_eq!((places.changed_since(2).count(), speeds.changed_since(1).count()), (2, 0));
/// # Ok::<(), forgeni::OutOfMemory>(())
/// ```
///
/// # What it costs
///
/// `map_mut` writes one number: the tick of all values. So a walk that changes all, and each that
/// reads, takes as long as over the map itself. The ticks of single values are in a row of their
/// own: 8 bytes for each slot of a [`HandleMap`](crate::HandleMap), or for each value of a
/// [`SparseMap`](crate::SparseMap), up to the last one with a tick of its own. The row begins
/// without memory. A call that needs more of it returns an error if there is none, and has then
/// changed nothing.
///
/// # Ticks
///
/// A tick has 64 bits and doesn't wrap around: one every nanosecond lasts for 584 years. Ticks
/// don't go back: one that is less than the greatest that a call was given counts as that one. So
/// no change is missed. [`new`](Self::new) of [`into_inner`](Self::into_inner) begins anew.
///
/// If the program goes back to a snapshot, the values have the ticks that they had then. The
/// program's ticks go on, and whatever was kept up to date by `changed_since` has to be rebuilt
/// once from all values, as after [`History::restart`](crate::History::restart).
#[derive(Clone, Default)]
pub struct Tracked<M> {
    map: M,
    ticks: Ticks,
}

/// How many ticks are looked at together.
const BLOCK: usize = 16;

/// The ticks of the values of a map, by the place of each.
#[derive(Clone, Default)]
struct Ticks {
    /// A value's tick is its own or that of all, whichever is greater. What a place has beyond the
    /// row, or without a value, doesn't count: a value that comes there has a tick as great as
    /// `newest`.
    own: Vec<u64>,
    /// That of the last call that lent all.
    all: u64,
    /// The greatest one of all calls.
    newest: u64,
}

impl Ticks {
    /// That of the value at this place.
    #[inline]
    fn at(&self, place: usize) -> u64 {
        let own = self.own.get(place).copied();
        own.unwrap_or(0).max(self.all)
    }

    /// Gives a value its own tick, unless that of all says as much. After an error nothing has
    /// changed.
    #[inline]
    fn put(&mut self, place: usize, tick: u64) -> Result<(), OutOfMemory> {
        if tick > self.all {
            match self.own.get_mut(place) {
                Some(own) => *own = tick,
                None => self.put_beyond(place, tick)?,
            }
        }
        self.newest = self.newest.max(tick);
        Ok(())
    }

    /// The same for a place beyond the row. It isn't inlined, so that lending takes less code.
    #[cold]
    #[inline(never)]
    fn put_beyond(&mut self, place: usize, tick: u64) -> Result<(), OutOfMemory> {
        self.own.try_reserve(place + 1 - self.own.len())?;
        self.own.resize(place, 0);
        self.own.push(tick);
        Ok(())
    }
}

impl<M> Tracked<M> {
    /// Tracks a map, whose values are new at this tick. It doesn't allocate.
    ///
    /// ```
    /// use forgeni::{HandleMap, Tracked};
    ///
    /// let cart = "7v1".parse()?;
    /// let places = Tracked::new(HandleMap::from([(cart, 3)]), 7);
    /// assert_eq!((places[cart], places.tick(cart)), (3, Some(7)));
    /// # Ok::<(), forgeni::ParseHandleError>(())
    /// ```
    pub const fn new(map: M, tick: u64) -> Self {
        let ticks = Ticks {
            own: Vec::new(),
            all: tick,
            newest: tick,
        };
        Self { map, ticks }
    }

    /// Lends the map mutably, at this tick. All its values count as changed, even if nothing is
    /// written, and so do those that are inserted meanwhile.
    ///
    /// ```
    /// use forgeni::{Handle, HandleMap, Tracked};
    ///
    /// let handle = |index| Handle::new(index, 1).unwrap();
    /// let map: HandleMap<u32> = (0..3).map(|index| (handle(index), index)).collect();
    /// let mut fuels = Tracked::new(map, 0);
    /// fuels.map_mut(5).values_mut().for_each(|fuel| *fuel += 10);
    /// assert!(fuels.changed_since(5).eq([(handle(0), &10), (handle(1), &11), (handle(2), &12)]));
    /// ```
    pub fn map_mut(&mut self, tick: u64) -> &mut M {
        self.ticks.newest = self.ticks.newest.max(tick);
        self.ticks.all = self.ticks.newest;
        &mut self.map
    }

    /// Returns the map.
    ///
    /// ```
    /// use forgeni::{SparseMap, Tracked};
    ///
    /// let names = Tracked::new(SparseMap::from([("7v1".parse()?, "Ada")]), 0);
    /// assert_eq!(names.into_inner().entries()[0].1, "Ada");
    /// # Ok::<(), forgeni::ParseHandleError>(())
    /// ```
    pub fn into_inner(self) -> M {
        self.map
    }
}

/// # Making one
impl<M: AnyMap> Tracked<M> {
    /// Creates a map without values, which refuses each handle whose slot is at or above this
    /// limit. It doesn't allocate.
    ///
    /// ```
    /// use forgeni::{HandleMap, InsertError, Tracked};
    ///
    /// let mut names: Tracked<HandleMap<&str>> = Tracked::with_limit(1_000);
    /// let refused = names.insert("4000000000v1".parse()?, "Eve", 0).unwrap_err();
    /// assert_eq!(refused.into_parts(), ("Eve", InsertError::Limit));
    /// # Ok::<(), forgeni::ParseHandleError>(())
    /// ```
    #[must_use]
    pub fn with_limit(limit: u32) -> Self {
        Self::new(M::with_limit(limit), 0)
    }
}

/// # Values
impl<M: AnyMap> Tracked<M> {
    /// Gives the handle a value at this tick, and returns the one that it had, as `insert` of the
    /// map does.
    ///
    /// ```
    /// use forgeni::{HandleMap, Tracked};
    ///
    /// let (cart, horse) = ("0v1".parse()?, "1v1".parse()?);
    /// let mut names = Tracked::new(HandleMap::from([(cart, "cart")]), 0);
    /// names.insert(horse, "horse", 3)?;
    /// assert_eq!(names.insert(cart, "coach", 4)?, Some("cart"));
    /// assert_eq!((names.tick(horse), names.tick(cart)), (Some(3), Some(4)));
    /// # Ok::<(), Box<dyn std::error::Error + Send + Sync>>(())
    /// ```
    ///
    /// # Errors
    ///
    /// Those of [`HandleMap::insert`](crate::HandleMap::insert). `Memory` also says that there
    /// isn't enough for the tick. The values have the ticks that they had.
    pub fn insert(
        &mut self,
        handle: Handle,
        value: M::Value,
        tick: u64,
    ) -> Result<Option<M::Value>, HandedBack<M::Value, InsertError>> {
        self.insert_with_tick(handle, (value, tick.max(self.ticks.newest)))
    }

    /// The same with this very tick, for one that is read.
    pub(crate) fn insert_with_tick(
        &mut self,
        handle: Handle,
        (value, tick): (M::Value, u64),
    ) -> Result<Option<M::Value>, HandedBack<M::Value, InsertError>> {
        let place = self.map.place(handle);
        let is_later = self.map.at(place).is_some_and(|(one, _)| one > handle);
        let end = Handle::new(self.map.limit(), 1).unwrap_or(Handle::PLACEHOLDER);
        // The tick comes first: an earlier occupant's value may panic when it is dropped. One that
        // the map refuses changes no tick, and takes no memory.
        if handle < end && !is_later && self.ticks.put(place, tick).is_err() {
            return Err(HandedBack::new(value, InsertError::Memory));
        }
        self.map.insert(handle, value)
    }

    /// Removes the handle's value, and returns it if there was one. It doesn't allocate.
    ///
    /// ```
    /// use forgeni::{HandleMap, Tracked};
    ///
    /// let cart = "0v1".parse()?;
    /// let mut names = Tracked::new(HandleMap::from([(cart, "cart")]), 0);
    /// assert_eq!(names.remove(cart), Some("cart"));
    /// assert_eq!((names.get(cart), names.tick(cart)), (None, None));
    /// # Ok::<(), forgeni::ParseHandleError>(())
    /// ```
    pub fn remove(&mut self, handle: Handle) -> Option<M::Value> {
        let place = self.map.place(handle);
        let value = self.map.remove(handle)?;
        // The last value of a `SparseMap` has come to the place. In a `HandleMap` no value has.
        let moved = self.ticks.at(self.map.len());
        let own = self.ticks.own.get_mut(place);
        own.into_iter().for_each(|own| *own = moved);
        Some(value)
    }

    /// Lends the handle's value mutably at this tick, if it has one. It counts as changed even if
    /// nothing is written.
    ///
    /// It allocates only if the value has no tick of its own yet, and no value in a later place has
    /// one.
    ///
    /// ```
    /// use forgeni::{HandleMap, Tracked};
    ///
    /// let (cart, horse) = ("0v1".parse()?, "1v1".parse()?);
    /// let mut places = Tracked::new(HandleMap::from([(cart, 3), (horse, 4)]), 0);
    /// if let Some(place) = places.get_mut(cart, 5)? {
    ///     *place += 1;
    /// }
    /// assert_eq!((places[cart], places.tick(cart), places.tick(horse)), (4, Some(5), Some(0)));
    /// # Ok::<(), Box<dyn std::error::Error>>(())
    /// ```
    ///
    /// # Errors
    ///
    /// Out of memory for the tick. Nothing has changed.
    pub fn get_mut(
        &mut self,
        handle: Handle,
        tick: u64,
    ) -> Result<Option<&mut M::Value>, OutOfMemory> {
        let (place, tick) = (self.map.place(handle), tick.max(self.ticks.newest));
        let value = self.map.get_mut(handle);
        let lent = value.map(|it| self.ticks.put(place, tick).map(|()| it));
        lent.transpose()
    }

    /// Writes a value at this tick if it differs from the handle's current one, and returns whether
    /// it did: Bevy's `set_if_neq`. It doesn't if the handle has no value.
    ///
    /// ```
    /// use forgeni::{HandleMap, Tracked};
    ///
    /// let cart = "0v1".parse()?;
    /// let mut places = Tracked::new(HandleMap::from([(cart, 3)]), 0);
    /// assert!(!places.set_if_neq(cart, 3, 1)? && places.set_if_neq(cart, 4, 2)?);
    /// assert_eq!((places[cart], places.tick(cart)), (4, Some(2)));
    /// # Ok::<(), Box<dyn std::error::Error>>(())
    /// ```
    ///
    /// # Errors
    ///
    /// Out of memory for the tick. [`HandedBack`] has the value, and nothing has changed.
    ///
    /// # Panics
    ///
    /// A panic in the comparison is propagated, and nothing has changed.
    pub fn set_if_neq(
        &mut self,
        handle: Handle,
        value: M::Value,
        tick: u64,
    ) -> Result<bool, HandedBack<M::Value, OutOfMemory>>
    where
        M::Value: PartialEq,
    {
        let (place, tick) = (self.map.place(handle), tick.max(self.ticks.newest));
        let Some(current) = self.map.get_mut(handle).filter(|it| **it != value) else {
            return Ok(false);
        };
        if let Err(error) = self.ticks.put(place, tick) {
            return Err(HandedBack::new(value, error));
        }
        *current = value;
        Ok(true)
    }

    /// Lends the handle's value mutably, if it has one, and keeps its tick: Bevy's
    /// `bypass_change_detection`.
    ///
    /// ```
    /// use forgeni::{HandleMap, Tracked};
    ///
    /// let cart = "0v1".parse()?;
    /// let mut places = Tracked::new(HandleMap::from([(cart, 3)]), 0);
    /// *places.get_mut_unseen(cart).unwrap() += 1;
    /// assert!(places[cart] == 4 && !places.is_changed_since(cart, 1));
    /// # Ok::<(), forgeni::ParseHandleError>(())
    /// ```
    #[must_use]
    pub fn get_mut_unseen(&mut self, handle: Handle) -> Option<&mut M::Value> {
        self.map.get_mut(handle)
    }

    /// Drops the values for which `keep` returns `false`, from the last to the first in the order
    /// of the map's `iter`. The others keep their ticks, and the room stays.
    ///
    /// ```
    /// use forgeni::{HandleMap, Tracked};
    ///
    /// let (cart, horse) = ("0v1".parse()?, "1v1".parse()?);
    /// let mut heats = Tracked::new(HandleMap::from([(cart, 0), (horse, 50)]), 0);
    /// heats.retain(|_, heat| *heat > 0);
    /// assert!(heats.keys().eq([horse]) && heats.tick(horse) == Some(0));
    /// # Ok::<(), forgeni::ParseHandleError>(())
    /// ```
    ///
    /// # Panics
    ///
    /// A panic in `keep` is propagated. The map then has the values that were kept, those that
    /// `keep` wasn't called on, and the one on which it panicked.
    pub fn retain(&mut self, mut keep: impl FnMut(Handle, &M::Value) -> bool) {
        // What comes to the place of a value that goes was kept.
        (0..self.places()).rev().for_each(|place| {
            let goes = self.map.at(place).filter(|(one, it)| !keep(*one, it));
            drop(goes.map(|it| it.0).map(|one| self.remove(one)));
        });
    }

    /// Drops the values of all handles that are neither alive nor reserved, as
    /// [`AnyMap::sweep`] does. The others keep their ticks.
    ///
    /// ```
    /// use forgeni::{Entities, HandleMap, Tracked};
    ///
    /// let mut entities = Entities::new();
    /// let (cart, horse) = (entities.alloc()?, entities.alloc()?);
    /// let mut names = Tracked::new(HandleMap::from([(cart, "cart"), (horse, "horse")]), 0);
    /// entities.free(cart)?;
    /// names.sweep(&entities);
    /// assert!(names.keys().eq([horse]));
    /// # Ok::<(), Box<dyn std::error::Error>>(())
    /// ```
    pub fn sweep(&mut self, entities: &Entities) {
        self.retain(|one, _| entities.contains(one));
    }

    /// Drops all values. The room stays.
    ///
    /// ```
    /// use forgeni::{HandleMap, Tracked};
    ///
    /// let mut hits = Tracked::new(HandleMap::from([("0v1".parse()?, 3)]), 0);
    /// hits.clear();
    /// assert!(hits.is_empty() && hits.capacity() > 0);
    /// # Ok::<(), forgeni::ParseHandleError>(())
    /// ```
    pub fn clear(&mut self) {
        self.map.clear();
    }
}

/// # Changes
impl<M: AnyMap> Tracked<M> {
    /// Returns the tick at which the handle's value was inserted, or last lent mutably. `None` if
    /// it has no value.
    ///
    /// ```
    /// use forgeni::{HandleMap, Tracked};
    ///
    /// let (cart, horse) = ("0v1".parse()?, "1v1".parse()?);
    /// let mut places = Tracked::new(HandleMap::from([(cart, 3)]), 0);
    /// *places.get_mut(cart, 5)?.unwrap() += 1;
    /// // To read it changes no tick.
    /// assert_eq!((places[cart], places.tick(cart), places.tick(horse)), (4, Some(5), None));
    /// # Ok::<(), Box<dyn std::error::Error>>(())
    /// ```
    #[must_use]
    pub fn tick(&self, handle: Handle) -> Option<u64> {
        self.map.get(handle)?;
        Some(self.ticks.at(self.map.place(handle)))
    }

    /// Returns `true` if the handle has a value that was inserted, or last lent mutably, at this
    /// tick or later.
    ///
    /// ```
    /// use forgeni::{HandleMap, Tracked};
    ///
    /// let cart = "0v1".parse()?;
    /// let mut places = Tracked::new(HandleMap::from([(cart, 3)]), 0);
    /// places.get_mut(cart, 5)?;
    /// assert!(places.is_changed_since(cart, 5) && !places.is_changed_since(cart, 6));
    /// # Ok::<(), Box<dyn std::error::Error>>(())
    /// ```
    #[must_use]
    pub fn is_changed_since(&self, handle: Handle, tick: u64) -> bool {
        self.tick(handle).is_some_and(|at| at >= tick)
    }

    /// Returns an iterator over the handles and their values, in the order of the map's `iter`, for
    /// each value that was inserted or lent mutably at this tick or later.
    ///
    /// It takes constant time if nothing has changed since, and otherwise time for each place of
    /// the row of ticks, or of the map if all values were lent since.
    ///
    /// ```
    /// use forgeni::{Handle, HandleMap, Tracked};
    ///
    /// let handle = |index| Handle::new(index, 1).unwrap();
    /// let map: HandleMap<u32> = (0..9).map(|at| (handle(at), at)).collect();
    /// let mut ages = Tracked::new(map, 0);
    /// ages.map_mut(1).values_mut().for_each(|age| *age += 1);
    /// *ages.get_mut(handle(5), 2)?.unwrap() += 100;
    /// assert!(ages.changed_since(2).eq([(handle(5), &106)]));
    /// assert_eq!(ages.changed_since(1).count(), 9);
    /// # Ok::<(), forgeni::OutOfMemory>(())
    /// ```
    pub fn changed_since(
        &self,
        tick: u64,
    ) -> impl DoubleEndedIterator<Item = (Handle, &M::Value)> + Clone {
        let Ticks { own, all, newest } = &self.ticks;
        if tick <= *all {
            return Walk::First(self.map.iter());
        }
        let own = Some(&own[..]).filter(|_| tick <= *newest);
        let own = own.unwrap_or_default();
        // A block has no branch, and most have nothing.
        let has = move |own: &[u64]| own.iter().fold(false, |has, it| has | (*it >= tick));
        let blocks = own.chunks(BLOCK).enumerate().filter(move |it| has(it.1));
        Walk::Other(blocks.flat_map(move |(at, own)| {
            let own = own.iter().enumerate().filter(move |(_, it)| **it >= tick);
            own.filter_map(move |(nth, _)| self.map.at(BLOCK * at + nth))
        }))
    }

    /// The values and their ticks.
    pub(crate) fn with_ticks(&self) -> impl Iterator<Item = (Handle, (&M::Value, u64))> {
        let values = self.map.iter();
        values.map(|(one, it)| (one, (it, self.ticks.at(self.map.place(one)))))
    }

    /// The number of places, up to the last value.
    fn places(&self) -> usize {
        let last = self.map.iter().next_back();
        last.map_or(0, |(one, _)| self.map.place(one) + 1)
    }
}

/// # Room
impl<M: AnyMap> Tracked<M> {
    /// Makes room for a tick of each value, so that [`get_mut`](Self::get_mut) doesn't allocate,
    /// nor [`set_if_neq`](Self::set_if_neq).
    ///
    /// ```
    /// use forgeni::{HandleMap, Tracked};
    ///
    /// let cart = "7v1".parse()?;
    /// let mut places = Tracked::new(HandleMap::from([(cart, 3)]), 0);
    /// // Before the match.
    /// places.reserve_ticks()?;
    /// *places.get_mut(cart, 1)?.unwrap() += 1;
    /// # Ok::<(), Box<dyn std::error::Error>>(())
    /// ```
    ///
    /// # Errors
    ///
    /// Out of memory.
    pub fn reserve_ticks(&mut self) -> Result<(), OutOfMemory> {
        let more = self.places().saturating_sub(self.ticks.own.len());
        Ok(self.ticks.own.try_reserve(more)?)
    }

    /// Makes room for all that another one has, so that [`try_clone_from`](Self::try_clone_from)
    /// doesn't allocate for it.
    ///
    /// ```
    /// use forgeni::{HandleMap, Tracked};
    ///
    /// let now = Tracked::new(HandleMap::from([("99v1".parse()?, 5)]), 0);
    /// let mut snapshot: Tracked<HandleMap<u32>> = Tracked::default();
    /// // Before the match, so that snapshots within a frame don't allocate.
    /// snapshot.reserve_for(&now)?;
    /// snapshot.try_clone_from(&now)?;
    /// assert_eq!(snapshot, now);
    /// # Ok::<(), Box<dyn std::error::Error>>(())
    /// ```
    ///
    /// # Errors
    ///
    /// Out of memory.
    pub fn reserve_for(&mut self, source: &Self) -> Result<(), OutOfMemory> {
        self.map.reserve_for(&source.map)?;
        let more = source.ticks.own.len().saturating_sub(self.ticks.own.len());
        Ok(self.ticks.own.try_reserve(more)?)
    }
}

/// # Snapshots
impl<M: AnyMap> Tracked<M>
where
    M::Value: Clone,
{
    /// Returns a clone with the same values, ticks and limit.
    ///
    /// ```
    /// use forgeni::{HandleMap, Tracked};
    ///
    /// let cart = "0v1".parse()?;
    /// let mut places = Tracked::new(HandleMap::from([(cart, 3)]), 0);
    /// let before = places.try_clone()?;
    /// *places.get_mut(cart, 1)?.unwrap() += 1;
    /// assert_eq!((before[cart], before.tick(cart)), (3, Some(0)));
    /// # Ok::<(), Box<dyn std::error::Error>>(())
    /// ```
    ///
    /// # Errors
    ///
    /// Out of memory.
    pub fn try_clone(&self) -> Result<Self, OutOfMemory> {
        let mut clone = Self::default();
        clone.try_clone_from(self)?;
        Ok(clone)
    }

    /// Makes it a clone of the source. It takes memory only for room that it lacks.
    ///
    /// ```
    /// use forgeni::{HandleMap, Tracked};
    ///
    /// let cart = "0v1".parse()?;
    /// let mut places = Tracked::new(HandleMap::from([(cart, 3)]), 0);
    /// let before = places.try_clone()?;
    /// *places.get_mut(cart, 1)?.unwrap() += 1;
    /// places.try_clone_from(&before)?;
    /// assert_eq!((places[cart], places.tick(cart)), (3, Some(0)));
    /// # Ok::<(), Box<dyn std::error::Error>>(())
    /// ```
    ///
    /// # Errors
    ///
    /// Out of memory. Nothing has changed then, except that it may have more room.
    ///
    /// # Panics
    ///
    /// A panic of a value's `clone` or `drop` is propagated, as by `try_clone_from` of the map.
    /// Call it again then, with this source or another.
    pub fn try_clone_from(&mut self, source: &Self) -> Result<(), OutOfMemory> {
        self.reserve_for(source)?;
        self.map.try_clone_from(&source.map)?;
        self.ticks.own.clone_from(&source.ticks.own);
        (self.ticks.all, self.ticks.newest) = (source.ticks.all, source.ticks.newest);
        Ok(())
    }
}

/// For every call of the map that changes nothing.
impl<M> Deref for Tracked<M> {
    type Target = M;

    fn deref(&self) -> &M {
        &self.map
    }
}

impl<M: AnyMap> Index<Handle> for Tracked<M> {
    type Output = M::Value;

    /// The value of the handle.
    ///
    /// # Panics
    ///
    /// If the handle has no value.
    #[track_caller]
    fn index(&self, handle: Handle) -> &M::Value {
        &self.map[handle]
    }
}

impl<M: AnyMap> Follows for Tracked<M> {
    fn forget(&mut self, handle: Handle) {
        self.remove(handle);
    }
}

/// Each value with its tick.
impl<M: AnyMap> fmt::Debug for Tracked<M>
where
    M::Value: fmt::Debug,
{
    fn fmt(&self, out: &mut fmt::Formatter<'_>) -> fmt::Result {
        out.debug_map().entries(self.with_ticks()).finish()
    }
}

/// Two are equal if their maps are, and each value has the same tick in both.
impl<M: AnyMap + PartialEq> PartialEq for Tracked<M> {
    fn eq(&self, other: &Self) -> bool {
        let have_equal_ticks = |(one, (_, tick))| other.tick(one) == Some(tick);
        self.map == other.map && self.with_ticks().all(have_equal_ticks)
    }
}

impl<M: AnyMap + Eq> Eq for Tracked<M> {}
