//! Values of any type, by handle. What is proved about them is in the contracts of [`HandleMap`];
//! here are the std traits, and the calls that end the process when memory runs out, as those of
//! `Vec` do.

use crate::entities::Entities;
use crate::errors::{HandedBack, OutOfMemory};
use crate::follows::Follows;
use crate::handle::Handle;
use crate::several::BySlot;
use crate::shown::{shows, walks};
use alloc::alloc::handle_alloc_error;
use alloc::vec;
use core::alloc::Layout;
use core::fmt;
use core::hash::{Hash, Hasher};
use core::ops::{Index, IndexMut};

use crate::components::sparse_map::{self, SparseMap};

pub use crate::components::handle_map::{Entry, HandleMap, InsertError, Iter, Keys};
pub use crate::components::handle_map::{OccupiedEntry, VacantEntry, Values};
pub use crate::several::{IterMut, SlotsMut};

/// Ends the process, as `Vec` does, when there isn't enough memory for a value and the caller can't
/// return an error.
#[cold]
fn out_of_memory<T>() -> ! {
    handle_alloc_error(Layout::new::<(u32, T)>())
}

/// The calls that both kinds of map have, for functions that take either.
///
/// The types say more about each call: [`HandleMap`] and [`SparseMap`].
///
/// ```
/// use forgeni::{AnyMap, Handle, HandleMap, SparseMap};
///
/// fn most(map: &impl AnyMap<Value = u32>) -> Option<Handle> {
///     map.iter().max_by_key(|(_, it)| **it).map(|(one, _)| one)
/// }
///
/// let [ball, cart] = [Handle::new(0, 1).unwrap(), Handle::new(7, 1).unwrap()];
/// assert_eq!(most(&HandleMap::from([(ball, 3), (cart, 2)])), Some(ball));
/// assert_eq!(most(&SparseMap::from([(ball, 1), (cart, 2)])), Some(cart));
/// ```
pub trait AnyMap:
    Follows
    + Default
    + Extend<(Handle, <Self as AnyMap>::Value)>
    + Index<Handle, Output = <Self as AnyMap>::Value>
    + IndexMut<Handle>
    + IntoIterator<Item = (Handle, <Self as AnyMap>::Value)>
{
    /// The type of the values.
    type Value;

    /// Returns a reference to the handle's value, if it has one.
    ///
    /// ```
    /// use forgeni::{AnyMap, Handle, SparseMap};
    ///
    /// /// The fuel of an entity, or 0 if it has none.
    /// fn fuel(map: &impl AnyMap<Value = u32>, of: Handle) -> u32 {
    ///     map.get(of).copied().unwrap_or(0)
    /// }
    ///
    /// let (cart, horse) = ("0v1".parse()?, "1v1".parse()?);
    /// let fuels = SparseMap::from([(cart, 30)]);
    /// assert_eq!((fuel(&fuels, cart), fuel(&fuels, horse)), (30, 0));
    /// # Ok::<(), forgeni::ParseHandleError>(())
    /// ```
    fn get(&self, handle: Handle) -> Option<&Self::Value>;

    /// Returns a mutable reference to the handle's value, if it has one.
    ///
    /// ```
    /// use forgeni::{AnyMap, Handle, HandleMap};
    ///
    /// fn refuel(map: &mut impl AnyMap<Value = u32>, of: Handle) {
    ///     if let Some(fuel) = map.get_mut(of) {
    ///         *fuel = 100;
    ///     }
    /// }
    ///
    /// let cart = "0v1".parse()?;
    /// let mut fuels = HandleMap::from([(cart, 30)]);
    /// refuel(&mut fuels, cart);
    /// assert_eq!(fuels[cart], 100);
    /// # Ok::<(), forgeni::ParseHandleError>(())
    /// ```
    fn get_mut(&mut self, handle: Handle) -> Option<&mut Self::Value>;

    /// Returns `true` if the handle has a value.
    ///
    /// ```
    /// use forgeni::{AnyMap, Handle, HandleMap, SparseMap};
    ///
    /// fn both(one: Handle, first: &impl AnyMap, second: &impl AnyMap) -> bool {
    ///     first.contains(one) && second.contains(one)
    /// }
    ///
    /// let cart = "0v1".parse()?;
    /// let (masses, names) = (HandleMap::from([(cart, 900)]), SparseMap::<&str>::new());
    /// assert!(!both(cart, &masses, &names));
    /// # Ok::<(), forgeni::ParseHandleError>(())
    /// ```
    fn contains(&self, handle: Handle) -> bool {
        self.get(handle).is_some()
    }

    /// Gives the handle a value, and returns the one that it had.
    ///
    /// ```
    /// use forgeni::{AnyMap, Entities, Handle, HandleMap, SparseMap};
    ///
    /// /// Marks them, in a map of either kind.
    /// fn mark(map: &mut impl AnyMap<Value = u32>, all: &[Handle]) {
    ///     for one in all {
    ///         // A handle that the map refuses isn't marked.
    ///         let _refused = map.insert(*one, 1);
    ///     }
    /// }
    ///
    /// let (mut few, mut many) = (SparseMap::new(), HandleMap::new());
    /// let all = Entities::new().alloc_many(3)?;
    /// mark(&mut few, &all[..1]);
    /// mark(&mut many, &all);
    /// assert_eq!((few.len(), many.len()), (1, 3));
    /// # Ok::<(), Box<dyn std::error::Error>>(())
    /// ```
    ///
    /// # Errors
    ///
    /// Those of [`HandleMap::insert`].
    fn insert(
        &mut self,
        handle: Handle,
        value: Self::Value,
    ) -> Result<Option<Self::Value>, HandedBack<Self::Value, InsertError>>;

    /// Removes the handle's value, and returns it if there was one.
    ///
    /// ```
    /// use forgeni::{AnyMap, Handle, HandleMap};
    ///
    /// fn take<T>(map: &mut impl AnyMap<Value = T>, of: Handle) -> Result<T, &'static str> {
    ///     map.remove(of).ok_or("it has none")
    /// }
    ///
    /// let cart = "0v1".parse()?;
    /// let mut names = HandleMap::from([(cart, "cart")]);
    /// assert_eq!(take(&mut names, cart), Ok("cart"));
    /// assert!(take(&mut names, cart).is_err());
    /// # Ok::<(), forgeni::ParseHandleError>(())
    /// ```
    fn remove(&mut self, handle: Handle) -> Option<Self::Value>;

    /// Returns the number of values.
    ///
    /// ```
    /// use forgeni::{AnyMap, SparseMap};
    ///
    /// fn line(name: &str, map: &impl AnyMap) -> String {
    ///     format!("{name}: {}", map.len())
    /// }
    ///
    /// let names = SparseMap::from([("0v1".parse()?, "cart")]);
    /// assert_eq!(line("names", &names), "names: 1");
    /// # Ok::<(), forgeni::ParseHandleError>(())
    /// ```
    fn len(&self) -> usize;

    /// Returns `true` if the map has no values.
    ///
    /// ```
    /// use forgeni::{AnyMap, SparseMap};
    ///
    /// fn is_burnt_out(fires: &impl AnyMap) -> bool {
    ///     fires.is_empty()
    /// }
    ///
    /// assert!(is_burnt_out(&SparseMap::<u32>::new()));
    /// ```
    fn is_empty(&self) -> bool {
        self.len() == 0
    }

    /// Returns an iterator over the handles and their values: in slot order for a `HandleMap`, in
    /// the order of `entries` for a `SparseMap`.
    ///
    /// ```
    /// use forgeni::{AnyMap, HandleMap};
    ///
    /// fn total(map: &impl AnyMap<Value = u32>) -> u32 {
    ///     map.iter().map(|(_, it)| *it).sum()
    /// }
    ///
    /// let masses = HandleMap::from([("0v1".parse()?, 900), ("1v1".parse()?, 80)]);
    /// assert_eq!(total(&masses), 980);
    /// # Ok::<(), forgeni::ParseHandleError>(())
    /// ```
    fn iter(&self) -> impl DoubleEndedIterator<Item = (Handle, &Self::Value)> + Clone;

    /// The handles, in slot order. Those of a `SparseMap` are collected into a list first: `None`
    /// if there isn't enough memory for it.
    #[doc(hidden)]
    fn by_slot(&self) -> Option<impl BySlot>;

    /// Where the value of the handle's slot is, or a new one would be, for what is kept beside each
    /// value. Places are in the order of `iter`. After a removal the last one may have moved there.
    #[doc(hidden)]
    fn place(&self, handle: Handle) -> usize;

    /// What is at this place.
    #[doc(hidden)]
    fn at(&self, place: usize) -> Option<(Handle, &Self::Value)>;

    #[doc(hidden)]
    fn with_limit(limit: u32) -> Self;

    #[doc(hidden)]
    fn limit(&self) -> u32;

    #[doc(hidden)]
    fn reserve_for(&mut self, source: &Self) -> Result<(), OutOfMemory>;

    #[doc(hidden)]
    fn try_clone_from(&mut self, source: &Self) -> Result<(), OutOfMemory>
    where
        Self::Value: Clone;

    /// Returns an iterator over the handles and mutable references to their values, in the same
    /// order.
    ///
    /// ```
    /// use forgeni::{AnyMap, SparseMap};
    ///
    /// fn burn(map: &mut impl AnyMap<Value = u32>) {
    ///     map.iter_mut().for_each(|(_, heat)| *heat += 10);
    /// }
    ///
    /// let mut heats = SparseMap::from([("0v1".parse()?, 20)]);
    /// burn(&mut heats);
    /// assert_eq!(heats.entries()[0].1, 30);
    /// # Ok::<(), forgeni::ParseHandleError>(())
    /// ```
    fn iter_mut(&mut self) -> impl DoubleEndedIterator<Item = (Handle, &mut Self::Value)>;

    /// Drops the values for which `keep` returns `false`.
    ///
    /// ```
    /// use forgeni::{AnyMap, SparseMap};
    ///
    /// fn cool(map: &mut impl AnyMap<Value = u32>) {
    ///     map.retain(|_, heat| {
    ///         *heat -= 10;
    ///         *heat > 0
    ///     });
    /// }
    ///
    /// let (cart, horse) = ("0v1".parse()?, "1v1".parse()?);
    /// let mut heats = SparseMap::from([(cart, 10), (horse, 50)]);
    /// cool(&mut heats);
    /// assert_eq!((heats.len(), heats[horse]), (1, 40));
    /// # Ok::<(), forgeni::ParseHandleError>(())
    /// ```
    fn retain(&mut self, keep: impl FnMut(Handle, &mut Self::Value) -> bool);

    /// Drops all values. The room stays.
    ///
    /// ```
    /// use forgeni::{AnyMap, HandleMap};
    ///
    /// /// Counts hits anew in each second.
    /// fn begin_frame(hits: &mut impl AnyMap, frame: u32) {
    ///     if frame % 60 == 0 {
    ///         hits.clear();
    ///     }
    /// }
    ///
    /// let mut hits = HandleMap::from([("0v1".parse()?, 3)]);
    /// begin_frame(&mut hits, 120);
    /// assert!(hits.is_empty());
    /// # Ok::<(), forgeni::ParseHandleError>(())
    /// ```
    fn clear(&mut self);

    /// Returns a handle that has a value and is neither alive nor reserved, if there is one: the
    /// first in the order of [`iter`](Self::iter).
    ///
    /// It is for a program that refuses a save whose maps name handles that its allocator doesn't
    /// have.
    ///
    /// ```
    /// use forgeni::{AnyMap, Entities, HandleMap};
    ///
    /// let (mut entities, mut names) = (Entities::new(), HandleMap::new());
    /// let (cart, horse) = (entities.alloc()?, entities.alloc()?);
    /// names.insert(cart, "cart")?;
    /// names.insert(horse, "horse")?;
    /// assert_eq!(names.stale(&entities), None);
    /// entities.free(horse)?;
    /// assert_eq!(names.stale(&entities), Some(horse));
    /// # Ok::<(), Box<dyn std::error::Error + Send + Sync>>(())
    /// ```
    fn stale(&self, entities: &Entities) -> Option<Handle> {
        let mut handles = self.iter().map(|(one, _)| one);
        handles.find(|one| !entities.contains(*one))
    }

    /// Drops the values of all handles that are neither alive nor reserved.
    ///
    /// Call it after entities have been freed elsewhere, or after a map has been read from a save:
    /// it drops the values of dead handles, and of handles of another allocator. It takes time for
    /// each value.
    ///
    /// ```
    /// use forgeni::{AnyMap, Entities, HandleMap};
    ///
    /// let (mut entities, mut names) = (Entities::new(), HandleMap::new());
    /// let (cart, horse) = (entities.alloc()?, entities.alloc()?);
    /// names.insert(cart, "cart")?;
    /// names.insert(horse, "horse")?;
    /// // It was freed elsewhere, and its name was left.
    /// entities.free(cart)?;
    /// names.sweep(&entities);
    /// assert!(names.keys().eq([horse]));
    /// # Ok::<(), Box<dyn std::error::Error>>(())
    /// ```
    fn sweep(&mut self, entities: &Entities) {
        self.retain(|one, _| entities.contains(one));
    }
}

/// Calls of a trait that the type has itself.
macro_rules! own_calls {
    ($(
        fn $call:ident($first:ident: $First:ty $(, $arg:ident: $Arg:ty)*)
        $(-> $Out:ty)? $(where $of:ident: $bound:path)?;
    )*) => {$(
        #[inline]
        fn $call($first: $First $(, $arg: $Arg)*) $(-> $Out)? $(where $of: $bound)? {
            Self::$call($first $(, $arg)*)
        }
    )*};
}

/// What is hand-written for both kinds of map. `$iter_by_slot` goes over the values in slot order.
macro_rules! traits_of_a_map {
    ($Map:ident, $($Iter:ident)::+, $iter_by_slot:ident) => {
        impl<T> AnyMap for $Map<T> {
            type Value = T;

            own_calls! {
                fn get(self: &Self, handle: Handle) -> Option<&T>;
                fn get_mut(self: &mut Self, handle: Handle) -> Option<&mut T>;
                fn insert(self: &mut Self, handle: Handle, value: T)
                    -> Result<Option<T>, HandedBack<T, InsertError>>;
                fn remove(self: &mut Self, handle: Handle) -> Option<T>;
                fn len(self: &Self) -> usize;
                fn iter(self: &Self) -> impl DoubleEndedIterator<Item = (Handle, &T)> + Clone;
                fn by_slot(self: &Self) -> Option<impl BySlot>;
                fn place(self: &Self, handle: Handle) -> usize;
                fn at(self: &Self, place: usize) -> Option<(Handle, &T)>;
                fn iter_mut(self: &mut Self) -> impl DoubleEndedIterator<Item = (Handle, &mut T)>;
                fn retain(self: &mut Self, keep: impl FnMut(Handle, &mut T) -> bool);
                fn clear(self: &mut Self);
                fn limit(self: &Self) -> u32;
                fn with_limit(limit: u32) -> Self;
                fn reserve_for(self: &mut Self, source: &Self) -> Result<(), OutOfMemory>;
                fn try_clone_from(self: &mut Self, source: &Self) -> Result<(), OutOfMemory>
                    where T: Clone;
            }
        }

        /// # Changing values
        impl<T> $Map<T> {
            /// Returns a mutable reference to the handle's value. If the handle has none, `make` is
            /// called first, and the handle gets the value that it returns.
            ///
            /// ```
            /// use forgeni::{Handle, HandleMap};
            ///
            /// let cart = Handle::new(0, 1).unwrap();
            /// let mut hits: HandleMap<u32> = HandleMap::new();
            /// for _ in 0..3 {
            ///     *hits.get_or_insert_with(cart, || 0)? += 1;
            /// }
            /// assert_eq!(hits[cart], 3);
            /// # Ok::<(), Box<dyn std::error::Error + Send + Sync>>(())
            /// ```
            ///
            /// # Errors
            ///
            /// [`HandedBack`] has that value, as [`insert`](Self::insert) hands it back.
            #[inline]
            pub fn get_or_insert_with(
                &mut self,
                handle: Handle,
                make: impl FnOnce() -> T,
            ) -> Result<&mut T, HandedBack<T, InsertError>> {
                self.entry(handle).or_insert_with(make)
            }

            /// Calls `change` on each value once, in the order of [`iter`](Self::iter).
            ///
            /// ```
            /// use forgeni::{Handle, HandleMap};
            ///
            /// let handle = |index| Handle::new(index, 1).unwrap();
            /// let speeds: HandleMap<f32> = (0..3).map(|index| (handle(index), 0.5)).collect();
            /// let mut places: HandleMap<f32> = (0..3).map(|index| (handle(index), 1.0)).collect();
            /// places.for_each_mut(|one, place| *place += speeds[one]);
            /// assert!(places.values().all(|place| *place == 1.5));
            /// ```
            ///
            /// # Panics
            ///
            /// A panic in `change` is propagated. All values stay, with the changes that `change`
            /// had made by then.
            #[inline]
            pub fn for_each_mut(&mut self, mut change: impl FnMut(Handle, &mut T)) {
                self.iter_mut().for_each(|(one, it)| change(one, it));
            }

            /// Returns an iterator over mutable references to the values, in the order of
            /// [`iter`](Self::iter).
            ///
            /// ```
            /// use forgeni::{Handle, HandleMap};
            ///
            /// let handle = |index| Handle::new(index, 1).unwrap();
            /// let mut fuel: HandleMap<u32> = (0..3).map(|at| (handle(at), at)).collect();
            /// fuel.values_mut().for_each(|fuel| *fuel += 10);
            /// assert!(fuel.values().eq(&[10, 11, 12]));
            /// ```
            pub fn values_mut(&mut self) -> impl DoubleEndedIterator<Item = &mut T> {
                self.iter_mut().map(|(_, it)| it)
            }
        }

        /// # Room, by std's name
        impl<T> $Map<T> {
            /// The same as [`reserve`](Self::reserve), under std's name for a call that returns an
            /// error.
            ///
            /// ```
            /// use forgeni::{HandleMap, SparseMap};
            ///
            /// let mut masses: HandleMap<u32> = HandleMap::new();
            /// let mut names: SparseMap<String> = SparseMap::new();
            /// masses.try_reserve(100)?;
            /// names.try_reserve(100)?;
            /// assert!(masses.capacity() >= 100 && names.capacity() >= 100);
            /// # Ok::<(), forgeni::OutOfMemory>(())
            /// ```
            ///
            /// # Errors
            ///
            /// Out of memory.
            #[inline]
            pub fn try_reserve(&mut self, additional: usize) -> Result<(), OutOfMemory> {
                self.reserve(additional)
            }
        }

        impl<T> Default for $Map<T> {
            fn default() -> Self {
                Self::new()
            }
        }

        impl<T: fmt::Debug> fmt::Debug for $Map<T> {
            fn fmt(&self, out: &mut fmt::Formatter<'_>) -> fmt::Result {
                out.debug_map().entries(self).finish()
            }
        }

        /// The clone has the same limit. If memory runs out, the process ends, as for a `Vec`.
        /// [`try_clone`](Self::try_clone) returns an error instead.
        impl<T: Clone> Clone for $Map<T> {
            fn clone(&self) -> Self {
                self.try_clone().unwrap_or_else(|_| out_of_memory::<T>())
            }

            fn clone_from(&mut self, source: &Self) {
                self.try_clone_from(source)
                    .unwrap_or_else(|_| out_of_memory::<T>());
            }
        }

        /// Two maps are equal if the same handles have equal values. Limits aren't compared.
        impl<T: PartialEq> PartialEq for $Map<T> {
            fn eq(&self, other: &Self) -> bool {
                self.len() == other.len() && self.iter().all(|(one, it)| other.get(one) == Some(it))
            }
        }

        impl<T: Eq> Eq for $Map<T> {}

        /// In slot order, so that equal maps have equal hashes.
        impl<T: Hash> Hash for $Map<T> {
            fn hash<H: Hasher>(&self, state: &mut H) {
                state.write_usize(self.len());
                self.$iter_by_slot().for_each(|entry| entry.hash(state));
            }
        }

        impl<T> Index<Handle> for $Map<T> {
            type Output = T;

            /// The value of the handle.
            ///
            /// # Panics
            ///
            /// If the handle has no value.
            #[inline]
            #[track_caller]
            fn index(&self, handle: Handle) -> &T {
                match self.get(handle) {
                    Some(value) => value,
                    None => no_value(handle),
                }
            }
        }

        impl<T> IndexMut<Handle> for $Map<T> {
            #[inline]
            #[track_caller]
            fn index_mut(&mut self, handle: Handle) -> &mut T {
                match self.get_mut(handle) {
                    Some(value) => value,
                    None => no_value(handle),
                }
            }
        }

        /// Inserts the values one by one, as `insert` does. A value is dropped if it is refused: if
        /// a later occupant of its slot has a value, the slot is at or above the limit, or the
        /// handle is the placeholder. If memory runs out, the process ends, as for a `Vec`.
        impl<T> Extend<(Handle, T)> for $Map<T> {
            fn extend<I: IntoIterator<Item = (Handle, T)>>(&mut self, values: I) {
                for (handle, value) in values {
                    let refused = self.insert(handle, value).err();
                    if refused.is_some_and(|refused| refused.error() == &InsertError::Memory) {
                        out_of_memory::<T>();
                    }
                }
            }
        }

        /// The same as `Extend` on an empty map.
        impl<T> FromIterator<(Handle, T)> for $Map<T> {
            fn from_iter<I: IntoIterator<Item = (Handle, T)>>(values: I) -> Self {
                let mut map = Self::new();
                map.extend(values);
                map
            }
        }

        /// The same as `Extend` on an empty map.
        impl<T, const N: usize> From<[(Handle, T); N]> for $Map<T> {
            fn from(values: [(Handle, T); N]) -> Self {
                values.into_iter().collect()
            }
        }

        impl<'a, T> IntoIterator for &'a $Map<T> {
            type Item = (Handle, &'a T);
            type IntoIter = $($Iter)::+<'a, T>;

            #[inline]
            fn into_iter(self) -> $($Iter)::+<'a, T> {
                self.iter()
            }
        }
    };
}

impl<T> HandleMap<T> {
    #[inline]
    fn by_slot(&self) -> Option<&Self> {
        Some(self)
    }

    #[inline]
    fn place(&self, handle: Handle) -> usize {
        handle.index() as usize
    }
}

traits_of_a_map!(HandleMap, Iter, iter);
traits_of_a_map!(SparseMap, sparse_map::Iter, iter_by_slot);

#[cold]
#[inline(never)]
#[track_caller]
fn no_value(handle: Handle) -> ! {
    panic!("{handle} has no value")
}

/// The values are moved into a list first. If there isn't enough memory for it, the process ends,
/// as for a `Vec`. [`into_entries`](HandleMap::into_entries) returns an error instead.
impl<T> IntoIterator for HandleMap<T> {
    type Item = (Handle, T);
    type IntoIter = vec::IntoIter<(Handle, T)>;

    fn into_iter(self) -> vec::IntoIter<(Handle, T)> {
        let all = self.into_entries();
        all.unwrap_or_else(|_| out_of_memory::<T>()).into_iter()
    }
}

walks!(debug_map: Iter<'_, T>, T: fmt::Debug);
walks!(debug_map: sparse_map::Iter<'_, T>, T: fmt::Debug);
walks!(debug_list: Keys<'_, T>, T);
walks!(debug_list: Values<'_, T>, T: fmt::Debug);

shows! {
    Entry<'_>[T]: handle;
    OccupiedEntry<'_>[T]: handle;
    VacantEntry<'_>[T]: handle;
    SlotsMut<'_>[T]: slots;
    IterMut<'_>[T]:;
}
