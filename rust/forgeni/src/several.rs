//! Several values of a map lent at once, or all moved out. No contract can say what a map is in the
//! meantime, so this is hand-written, in safe Rust. It changes no slot's generation, and keeps the
//! count right.

use crate::components::handle_map::slot::Slot;
use crate::errors::OutOfMemory;
use crate::handle::Handle;
use crate::{HandleMap, SparseMap};
use alloc::vec;
use core::iter::{Enumerate, FusedIterator, Map};
use core::ops::Range;
use core::slice;

/// Adjacent slots of a [`HandleMap`], whose values can be changed. No value can be added or
/// removed.
///
/// [`HandleMap::split_at_mut`] makes two, so that two threads can write to one map. It stores the
/// index of the first slot.
///
/// ```
/// use forgeni::{handle_map, Entities, HandleMap};
///
/// fn heat(mut part: handle_map::SlotsMut<'_, u32>) {
///     part.iter_mut().for_each(|(_, heat)| *heat += 10);
/// }
///
/// let all = Entities::new().alloc_many(100)?;
/// let mut heats: HandleMap<u32> = all.into_iter().map(|one| (one, 0)).collect();
/// let (low, high) = heats.split_at_mut(50);
/// std::thread::scope(|scope| {
///     scope.spawn(|| heat(low));
///     scope.spawn(|| heat(high));
/// });
/// assert!(heats.values().all(|it| *it == 10));
/// # Ok::<(), Box<dyn std::error::Error>>(())
/// ```
pub struct SlotsMut<'a, T>(&'a mut [Slot<T>], u32);

impl<'a, T> SlotsMut<'a, T> {
    /// Returns the range of slots that this part covers.
    ///
    /// ```
    /// use forgeni::{Entities, HandleMap};
    ///
    /// let all = Entities::new().alloc_many(100)?;
    /// let mut heats: HandleMap<u32> = all.into_iter().map(|one| (one, 0)).collect();
    /// let (low, high) = heats.split_at_mut(30);
    /// assert_eq!((low.slots(), high.slots()), (0..30, 30..100));
    /// # Ok::<(), Box<dyn std::error::Error>>(())
    /// ```
    #[must_use]
    pub fn slots(&self) -> Range<u32> {
        self.1..self.1 + self.0.len() as u32
    }

    /// Splits the part at this slot of the map, into the slots below it and the others, so that
    /// more threads can have a part.
    ///
    /// ```
    /// use forgeni::{Entities, HandleMap};
    ///
    /// let all = Entities::new().alloc_many(100)?;
    /// let mut heats: HandleMap<u32> = all.into_iter().map(|one| (one, 0)).collect();
    /// let (mut parts, mut rest) = (Vec::new(), heats.split_at_mut(0).1);
    /// for end in [25, 50, 75] {
    ///     let (part, others) = rest.split_at_mut(end);
    ///     parts.push(part);
    ///     rest = others;
    /// }
    /// assert!(parts.iter().all(|part| part.slots().len() == 25));
    /// # Ok::<(), Box<dyn std::error::Error>>(())
    /// ```
    pub fn split_at_mut(self, slot: u32) -> (Self, Self) {
        let Self(slots, first) = self;
        let count = slot.saturating_sub(first) as usize;
        let (below, above) = slots.split_at_mut(count.min(slots.len()));
        let middle = first + below.len() as u32;
        (Self(below, first), Self(above, middle))
    }

    /// Returns a mutable reference to the handle's value, if it has one and its slot is in this
    /// part.
    ///
    /// ```
    /// use forgeni::HandleMap;
    ///
    /// let mut heats: HandleMap<u32> = HandleMap::new();
    /// let (cart, horse) = ("3v1".parse()?, "7v1".parse()?);
    /// heats.insert(cart, 20)?;
    /// heats.insert(horse, 20)?;
    /// let (mut low, _high) = heats.split_at_mut(5);
    /// // The horse is in the other part.
    /// assert_eq!(low.get_mut(horse), None);
    /// assert_eq!(low.get_mut(cart), Some(&mut 20));
    /// # Ok::<(), Box<dyn std::error::Error>>(())
    /// ```
    pub fn get_mut(&mut self, handle: Handle) -> Option<&mut T> {
        let at = handle.index().checked_sub(self.1)?;
        let slot = self.0.get_mut(at as usize)?;
        (slot.generation() == handle.generation()).then(|| slot.value_mut())
    }

    /// Returns an iterator over the handles and mutable references to their values, in slot order.
    ///
    /// ```
    /// use forgeni::{Entities, HandleMap};
    ///
    /// let all = Entities::new().alloc_many(10)?;
    /// let mut heats: HandleMap<u32> = all.into_iter().map(|one| (one, 0)).collect();
    /// let (_low, mut high) = heats.split_at_mut(7);
    /// high.iter_mut().for_each(|(_, heat)| *heat += 10);
    /// assert_eq!(heats.values().filter(|it| **it == 10).count(), 3);
    /// # Ok::<(), Box<dyn std::error::Error>>(())
    /// ```
    pub fn iter_mut(&mut self) -> IterMut<'_, T> {
        SlotsMut(self.0, self.1).into_iter()
    }
}

impl<'a, T> IntoIterator for SlotsMut<'a, T> {
    type Item = (Handle, &'a mut T);
    type IntoIter = IterMut<'a, T>;

    fn into_iter(self) -> IterMut<'a, T> {
        IterMut(self.0.iter_mut().enumerate(), self.1)
    }
}

/// An iterator over the handles of a [`HandleMap`], or of some of its slots, and mutable references
/// to their values, in slot order.
///
/// It is created by [`HandleMap::iter_mut`].
///
/// ```
/// use forgeni::{Entities, HandleMap};
///
/// let all = Entities::new().alloc_many(10)?;
/// let mut heats: HandleMap<u32> = all.into_iter().map(|one| (one, 20)).collect();
/// // The first and the last one burn.
/// let mut ends = heats.iter_mut();
/// for (_, heat) in [ends.next(), ends.next_back()].into_iter().flatten() {
///     *heat = 900;
/// }
/// assert_eq!(heats.values().sum::<u32>(), 2 * 900 + 8 * 20);
/// # Ok::<(), Box<dyn std::error::Error>>(())
/// ```
#[must_use]
pub struct IterMut<'a, T>(Enumerate<slice::IterMut<'a, Slot<T>>>, u32);

impl<'a, T> Iterator for IterMut<'a, T> {
    type Item = (Handle, &'a mut T);

    #[inline]
    fn next(&mut self) -> Option<Self::Item> {
        self.0.find_map(|it| lent(self.1, it))
    }

    #[inline]
    fn size_hint(&self) -> (usize, Option<usize>) {
        (0, Some(self.0.len()))
    }

    #[inline]
    fn fold<B, F: FnMut(B, Self::Item) -> B>(self, init: B, change: F) -> B {
        let first = self.1;
        let values = self.0.filter_map(|it| lent(first, it));
        values.fold(init, change)
    }
}

impl<T> DoubleEndedIterator for IterMut<'_, T> {
    #[inline]
    fn next_back(&mut self) -> Option<Self::Item> {
        let first = self.1;
        let mut values = self.0.by_ref().filter_map(|it| lent(first, it));
        values.next_back()
    }
}

impl<T> FusedIterator for IterMut<'_, T> {}

/// The value of a slot, mutably. The slots are numbered from this first one on.
#[inline]
fn lent<T>(first: u32, (at, slot): (usize, &mut Slot<T>)) -> Option<(Handle, &mut T)> {
    Some((slot.handle(first + at as u32)?, slot.value_mut()))
}

/// The value of a slot. The slots are numbered from this first one on.
#[inline]
fn seen<T>(first: u32, (at, slot): (usize, &Slot<T>)) -> Option<(Handle, &T)> {
    match slot {
        Slot::Vacant => None,
        Slot::Occupied { value, .. } => Some((slot.handle(first + at as u32)?, value)),
    }
}

/// Those of these slots that exist.
fn within(slots: Range<u32>, count: usize) -> Range<usize> {
    let end = count.min(slots.end as usize);
    end.min(slots.start as usize)..end
}

/// # Several values at once
impl<T> HandleMap<T> {
    /// Returns an iterator over the handles and mutable references to their values, in slot order.
    /// It takes time for each slot.
    ///
    /// ```
    /// use forgeni::{Handle, HandleMap};
    ///
    /// let handle = |index| Handle::new(index, 1).unwrap();
    /// let mut places: HandleMap<f32> = (0..3).map(|index| (handle(index), 0.0)).collect();
    /// for (one, place) in places.iter_mut() {
    ///     *place += one.index() as f32;
    /// }
    /// assert!(places.values().eq(&[0.0, 1.0, 2.0]));
    /// ```
    #[inline]
    pub fn iter_mut(&mut self) -> IterMut<'_, T> {
        self.all_slots().into_iter()
    }

    /// Returns mutable references to the values of several handles, or `None` if one of them has no
    /// value or is passed twice.
    ///
    /// ```
    /// use forgeni::{Handle, HandleMap};
    /// use std::mem;
    ///
    /// let [ball, cart] = [Handle::new(0, 1).unwrap(), Handle::new(7, 1).unwrap()];
    /// let mut places: HandleMap<u32> = [(ball, 1), (cart, 2)].into_iter().collect();
    /// let [one, other] = places.get_disjoint_mut([cart, ball]).unwrap();
    /// mem::swap(one, other);
    /// assert_eq!((places[ball], places[cart]), (2, 1));
    /// assert!(places.get_disjoint_mut([ball, ball]).is_none());
    /// ```
    pub fn get_disjoint_mut<const N: usize>(&mut self, all: [Handle; N]) -> Option<[&mut T; N]> {
        let known = all.iter().all(|one| self.contains(*one));
        let slots = known.then_some(all)?.map(|one| one.index() as usize);
        let slots = self.slots.get_disjoint_mut(slots).ok()?;
        Some(slots.map(Slot::value_mut))
    }

    /// Moves all values out, in slot order. Those that the iterator doesn't reach are dropped with
    /// it. The map is empty afterwards, and keeps its room.
    ///
    /// ```
    /// use forgeni::{Handle, HandleMap};
    ///
    /// let one = Handle::new(3, 1).unwrap();
    /// let mut hits: HandleMap<u32> = [(one, 5)].into_iter().collect();
    /// assert!(hits.drain().eq([(one, 5)]));
    /// assert!(hits.is_empty() && hits.capacity() >= 4);
    /// ```
    pub fn drain(&mut self) -> impl DoubleEndedIterator<Item = (Handle, T)> {
        self.len = 0;
        let slots = self.slots.drain(..).enumerate();
        slots.filter_map(|(at, slot)| {
            let handle = slot.handle(at as u32)?;
            Some((handle, slot.into_value(handle.generation())?))
        })
    }
}

/// # Part of the slots
impl<T> HandleMap<T> {
    /// Returns an iterator over the handles of some slots and their values, in slot order. It takes
    /// time for each of these slots.
    ///
    /// ```
    /// use forgeni::{Handle, HandleMap};
    ///
    /// let handle = |index| Handle::new(index, 1).unwrap();
    /// let mut places: HandleMap<u32> = (0..9).map(|index| (handle(index), index)).collect();
    /// places.iter_range_mut(2..4).for_each(|(_, place)| *place *= 10);
    /// assert!(places.iter_range(3..5).eq([(handle(3), &30), (handle(4), &4)]));
    /// ```
    pub fn iter_range(
        &self,
        slots: Range<u32>,
    ) -> impl DoubleEndedIterator<Item = (Handle, &T)> + Clone {
        let slots = within(slots, self.slots.len());
        let first = slots.start as u32;
        let slots = self.slots[slots].iter().enumerate();
        slots.filter_map(move |it| seen(first, it))
    }

    /// Returns an iterator over the handles of some slots and mutable references to their values,
    /// in slot order.
    ///
    /// ```
    /// use forgeni::{Entities, HandleMap};
    ///
    /// let all = Entities::new().alloc_many(10)?;
    /// let mut heats: HandleMap<u32> = all.into_iter().map(|one| (one, 0)).collect();
    /// // A tenth of the slots a frame.
    /// for frame in 0..5 {
    ///     heats.iter_range_mut(frame..frame + 1).for_each(|(_, heat)| *heat += 10);
    /// }
    /// assert_eq!(heats.values().sum::<u32>(), 50);
    /// # Ok::<(), Box<dyn std::error::Error>>(())
    /// ```
    pub fn iter_range_mut(&mut self, slots: Range<u32>) -> IterMut<'_, T> {
        let slots = within(slots, self.slots.len());
        let first = slots.start as u32;
        SlotsMut(&mut self.slots[slots], first).into_iter()
    }

    /// Splits the map into the slots below this one and the others, so that two threads can write
    /// to one map. A part gives its values through [`get_mut`](SlotsMut::get_mut) and
    /// [`iter_mut`](SlotsMut::iter_mut).
    ///
    /// ```
    /// use forgeni::{Handle, HandleMap};
    /// use std::thread;
    ///
    /// let handle = |index| Handle::new(index, 1).unwrap();
    /// let mut places: HandleMap<u64> = (0..100).map(|index| (handle(index), 0)).collect();
    /// let (mut low, mut high) = places.split_at_mut(50);
    /// thread::scope(|scope| {
    ///     scope.spawn(|| low.iter_mut().for_each(|(_, place)| *place = 1));
    ///     scope.spawn(|| high.iter_mut().for_each(|(_, place)| *place = 2));
    /// });
    /// assert_eq!((places[handle(49)], places[handle(50)]), (1, 2));
    /// ```
    pub fn split_at_mut(&mut self, slot: u32) -> (SlotsMut<'_, T>, SlotsMut<'_, T>) {
        self.all_slots().split_at_mut(slot)
    }
}

/// # Room for a snapshot
impl<T> HandleMap<T> {
    /// Makes room for all slots of another map, so that [`try_clone_from`](Self::try_clone_from)
    /// doesn't allocate for them.
    ///
    /// ```
    /// use forgeni::HandleMap;
    ///
    /// let now: HandleMap<u32> = [("99v1".parse()?, 5)].into_iter().collect();
    /// let mut snapshot = HandleMap::new();
    /// // Before the match, so that snapshots within a frame don't allocate.
    /// snapshot.reserve_for(&now)?;
    /// snapshot.try_clone_from(&now)?;
    /// assert_eq!(snapshot.len(), 1);
    /// # Ok::<(), Box<dyn std::error::Error>>(())
    /// ```
    ///
    /// # Errors
    ///
    /// Out of memory.
    pub fn reserve_for(&mut self, source: &Self) -> Result<(), OutOfMemory> {
        self.reserve(source.slots.len().saturating_sub(self.slots.len()))
    }
}

impl<T> HandleMap<T> {
    /// All slots, whose values can be changed.
    pub(crate) fn all_slots(&mut self) -> SlotsMut<'_, T> {
        SlotsMut(&mut self.slots, 0)
    }

    /// The value of a slot.
    #[inline]
    pub(crate) fn at(&self, slot: usize) -> Option<(Handle, &T)> {
        seen(0, (slot, self.slots.get(slot)?))
    }
}

/// The handles of a map, in slot order, for a walk over several maps.
pub trait BySlot {
    /// All of them.
    fn handles(self) -> impl Iterator<Item = Handle>;

    /// Those that have a value in these slots too, which are all slots of a map.
    fn beside<T>(self, slots: SlotsMut<'_, T>) -> impl Iterator<Item = (Handle, &mut T)>;
}

/// It goes over the slots of both maps, one beside the other.
impl<V> BySlot for &HandleMap<V> {
    #[inline]
    fn handles(self) -> impl Iterator<Item = Handle> {
        self.keys()
    }

    #[inline]
    fn beside<T>(self, slots: SlotsMut<'_, T>) -> impl Iterator<Item = (Handle, &mut T)> {
        let both = self.slots.iter().zip(slots.0).enumerate();
        both.filter_map(|(at, (slot, other))| {
            let one = slot.handle(at as u32)?;
            (other.generation() == one.generation()).then(|| (one, other.value_mut()))
        })
    }
}

/// A list, of few of the slots.
impl BySlot for vec::IntoIter<Handle> {
    #[inline]
    fn handles(self) -> impl Iterator<Item = Handle> {
        self
    }

    #[inline]
    fn beside<T>(self, slots: SlotsMut<'_, T>) -> impl Iterator<Item = (Handle, &mut T)> {
        let (end, mut slots) = (slots.slots().end, slots.0.iter_mut());
        self.filter_map(move |one| {
            let first = end - slots.len() as u32;
            let other = slots.nth(one.index().wrapping_sub(first) as usize)?;
            (other.generation() == one.generation()).then(|| (one, other.value_mut()))
        })
    }
}

impl<'a, T> IntoIterator for &'a mut HandleMap<T> {
    type Item = (Handle, &'a mut T);
    type IntoIter = IterMut<'a, T>;

    #[inline]
    fn into_iter(self) -> IterMut<'a, T> {
        self.iter_mut()
    }
}

/// # Making one with room
impl<T> SparseMap<T> {
    /// Creates a map without values and without a limit, with room for that many values. For 0
    /// values it doesn't allocate.
    ///
    /// ```
    /// use forgeni::SparseMap;
    ///
    /// let mut bosses = SparseMap::with_capacity(3)?;
    /// bosses.insert("7v1".parse()?, "dragon")?;
    /// assert_eq!((bosses.len(), bosses.capacity()), (1, 3));
    /// # Ok::<(), Box<dyn std::error::Error>>(())
    /// ```
    ///
    /// # Errors
    ///
    /// Out of memory.
    pub fn with_capacity(values: usize) -> Result<Self, OutOfMemory> {
        let mut map = Self::new();
        map.entries.try_reserve_exact(values)?;
        Ok(map)
    }
}

/// # Several values at once
impl<T> SparseMap<T> {
    /// Returns an iterator over the handles and mutable references to their values, in the order of
    /// [`entries`](Self::entries).
    ///
    /// ```
    /// use forgeni::{Handle, SparseMap};
    ///
    /// let mut shields = SparseMap::from([("7v1".parse::<Handle>()?, 30), ("900v1".parse()?, 50)]);
    /// shields.iter_mut().for_each(|(_, shield)| *shield += 1);
    /// assert!(shields.values().eq(&[31, 51]));
    /// # Ok::<(), Box<dyn std::error::Error>>(())
    /// ```
    pub fn iter_mut(&mut self) -> impl DoubleEndedIterator<Item = (Handle, &mut T)> {
        self.entries.iter_mut().map(|(one, it)| (*one, it))
    }

    /// Returns mutable references to the values of several handles, or `None` if one of them has no
    /// value or is passed twice.
    ///
    /// ```
    /// use forgeni::{Handle, SparseMap};
    ///
    /// let (knight, dragon): (Handle, Handle) = ("0v1".parse()?, "7v1".parse()?);
    /// let mut shields = SparseMap::from([(knight, 50), (dragon, 900)]);
    /// // The blow hurts both.
    /// if let Some([one, other]) = shields.get_disjoint_mut([knight, dragon]) {
    ///     (*one, *other) = (*one - 10, *other - 5);
    /// }
    /// assert_eq!((shields[knight], shields[dragon]), (40, 895));
    /// # Ok::<(), Box<dyn std::error::Error>>(())
    /// ```
    pub fn get_disjoint_mut<const N: usize>(&mut self, all: [Handle; N]) -> Option<[&mut T; N]> {
        let known = all.iter().all(|one| self.contains(*one));
        let slots = known.then_some(all)?.map(|one| one.index() as usize);
        let entries = slots.map(|slot| self.positions[slot] as usize);
        let entries = self.entries.get_disjoint_mut(entries).ok()?;
        Some(entries.map(|(_, it)| it))
    }

    /// Moves all values out, in the order of [`entries`](Self::entries). Those that the iterator
    /// doesn't reach are dropped with it. The map is empty afterwards, and keeps its room.
    ///
    /// ```
    /// use forgeni::{Entities, SparseMap};
    ///
    /// let mut doomed = SparseMap::new();
    /// let mut entities = Entities::new();
    /// for one in entities.alloc_many(3)? {
    ///     doomed.insert(one, "burnt")?;
    /// }
    /// for (one, _why) in doomed.drain() {
    ///     entities.free(one)?;
    /// }
    /// assert!(doomed.is_empty() && entities.is_empty());
    /// # Ok::<(), Box<dyn std::error::Error>>(())
    /// ```
    pub fn drain(&mut self) -> impl DoubleEndedIterator<Item = (Handle, T)> {
        self.entries.drain(..)
    }
}

/// # Room
impl<T> SparseMap<T> {
    /// Makes room for that many more values. A value in a slot that has none yet also takes four
    /// bytes for each slot up to its own.
    ///
    /// ```
    /// use forgeni::SparseMap;
    ///
    /// let mut bosses = SparseMap::from([("7v1".parse()?, "dragon")]);
    /// bosses.reserve(10)?;
    /// assert!(bosses.capacity() >= 11);
    /// # Ok::<(), Box<dyn std::error::Error>>(())
    /// ```
    ///
    /// # Errors
    ///
    /// Out of memory.
    pub fn reserve(&mut self, additional: usize) -> Result<(), OutOfMemory> {
        Ok(self.entries.try_reserve(additional)?)
    }

    /// Makes room for all that another map has, so that [`try_clone_from`](Self::try_clone_from)
    /// doesn't allocate for it.
    ///
    /// ```
    /// use forgeni::SparseMap;
    ///
    /// let now = SparseMap::from([("99v1".parse()?, 5)]);
    /// let mut snapshot = SparseMap::new();
    /// // Before the match, so that snapshots within a frame don't allocate.
    /// snapshot.reserve_for(&now)?;
    /// snapshot.try_clone_from(&now)?;
    /// assert!(snapshot.slots() >= 100);
    /// # Ok::<(), Box<dyn std::error::Error>>(())
    /// ```
    ///
    /// # Errors
    ///
    /// Out of memory.
    pub fn reserve_for(&mut self, source: &Self) -> Result<(), OutOfMemory> {
        self.reserve(source.len().saturating_sub(self.len()))?;
        let slots = source.positions.len().saturating_sub(self.positions.len());
        Ok(self.positions.try_reserve(slots)?)
    }
}

impl<T> SparseMap<T> {
    /// The position of the entry of the handle's slot, or else that of a new one.
    #[inline]
    pub(crate) fn place(&self, handle: Handle) -> usize {
        let slot = handle.index();
        let place = self.positions.get(slot as usize).map(|it| *it as usize);
        let entry = |it: &usize| self.entries.get(*it).map(|(one, _)| one.index());
        place
            .filter(|it| entry(it) == Some(slot))
            .unwrap_or(self.len())
    }

    /// The handles and their values, in slot order. It takes time for each slot.
    pub(crate) fn iter_by_slot(&self) -> impl Iterator<Item = (Handle, &T)> {
        let slots = self.positions.iter().zip(0..);
        slots.filter_map(|(at, slot)| {
            let (one, it) = self.entries.get(*at as usize)?;
            (one.index() == slot).then_some((*one, it))
        })
    }
}

impl<'a, T> IntoIterator for &'a mut SparseMap<T> {
    type Item = (Handle, &'a mut T);
    type IntoIter = Map<slice::IterMut<'a, (Handle, T)>, fn(&'a mut (Handle, T)) -> Self::Item>;

    #[inline]
    fn into_iter(self) -> Self::IntoIter {
        self.entries.iter_mut().map(|(one, it)| (*one, it))
    }
}
