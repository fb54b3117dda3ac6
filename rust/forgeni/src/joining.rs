//! Walks over several maps at once. Hand-written: it uses the calls of each map, and changes none.

use crate::handle::Handle;
use crate::several::{BySlot, SlotsMut};
use crate::{AnyMap, HandleMap, SparseMap};

/// Two to six maps in a tuple, for a walk over the handles that have a value in each of them.
///
/// ```
/// use forgeni::{Handle, HandleMap, JoinMaps, SparseMap};
///
/// let handle = |index| Handle::new(index, 1).unwrap();
/// let mut places: HandleMap<u32> = (0..9).map(|index| (handle(index), 10 * index)).collect();
/// let speeds: HandleMap<u32> = (3..99).map(|index| (handle(index), 1)).collect();
/// let names = SparseMap::from([(handle(8), "Ada"), (handle(4), "Bob"), (handle(99), "Eve")]);
/// for (_, place, speed, _) in (&mut places, &speeds, &names).join() {
///     *place += speed;
/// }
/// let named = (&names, &places).join().map(|(_, name, place)| (*name, *place));
/// assert!(named.eq([("Ada", 81), ("Bob", 41)]));
/// ```
pub trait JoinMaps {
    /// A handle, and its value in each of the maps.
    type Item;

    /// Returns an iterator over the handles that have a value in each of the maps, with their
    /// values. The first map can be borrowed mutably, and then its values can be changed.
    ///
    /// The walk goes over the first map, in its order, and looks each handle up in the others. If
    /// another map has less than half as many values, the walk goes over that map instead, in slot
    /// order. It doesn't allocate, unless that map is a `SparseMap`, whose handles it lists. If
    /// there isn't enough memory for the list, or if the first map is a mutable `SparseMap`, the
    /// walk goes over the first map anyway.
    ///
    /// ```
    /// use forgeni::{HandleMap, JoinMaps};
    ///
    /// let (cart, horse) = ("0v1".parse()?, "1v1".parse()?);
    /// let mut places = HandleMap::new();
    /// places.insert(cart, 10)?;
    /// places.insert(horse, 20)?;
    /// let mut speeds = HandleMap::new();
    /// speeds.insert(horse, 3)?;
    /// // An entity with a place and no speed stays where it is.
    /// for (_, place, speed) in (&mut places, &speeds).join() {
    ///     *place += speed;
    /// }
    /// assert_eq!((places[cart], places[horse]), (10, 23));
    /// # Ok::<(), Box<dyn std::error::Error>>(())
    /// ```
    fn join(self) -> impl Iterator<Item = Self::Item>;
}

/// A map that a walk over several maps begins with: either kind of map, borrowed, and mutably if
/// its values are to change. [`JoinMaps::join`] calls its methods.
///
/// ```
/// use forgeni::map::Leads;
/// use forgeni::{HandleMap, JoinMaps, SparseMap};
///
/// /// The values of a map, of entities that have a name.
/// fn named<M>(map: M, names: &SparseMap<String>) -> usize
/// where
///     M: Leads,
///     for<'a> (M, &'a SparseMap<String>): JoinMaps,
/// {
///     (map, names).join().count()
/// }
///
/// assert_eq!(named(&HandleMap::<u32>::new(), &SparseMap::new()), 0);
/// ```
pub trait Leads {
    /// What the walk returns for a value.
    type Lent;

    /// Returns the number of values that a walk over this map visits. A walk goes over another map
    /// only if that map has less than half as many.
    ///
    /// ```
    /// use forgeni::map::Leads;
    /// use forgeni::HandleMap;
    ///
    /// let fuels = HandleMap::from([("0v1".parse()?, 30)]);
    /// assert_eq!(Leads::count(&&fuels), 1);
    /// # Ok::<(), forgeni::ParseHandleError>(())
    /// ```
    fn count(&self) -> usize;

    /// The values of these handles. If there are none, all values.
    #[doc(hidden)]
    fn walk(self, handles: Option<impl BySlot>) -> impl Iterator<Item = (Handle, Self::Lent)>;
}

impl<'a, M: AnyMap> Leads for &'a M {
    type Lent = &'a M::Value;

    fn count(&self) -> usize {
        self.len()
    }

    #[inline]
    fn walk(self, handles: Option<impl BySlot>) -> impl Iterator<Item = (Handle, Self::Lent)> {
        match handles {
            None => Walk::First(self.iter()),
            Some(handles) => {
                let handles = handles.handles();
                Walk::Other(handles.filter_map(|one| Some((one, self.get(one)?))))
            }
        }
    }
}

impl<'a, T> Leads for &'a mut HandleMap<T> {
    type Lent = &'a mut T;

    fn count(&self) -> usize {
        self.len()
    }

    #[inline]
    fn walk(self, handles: Option<impl BySlot>) -> impl Iterator<Item = (Handle, Self::Lent)> {
        match handles {
            None => Walk::First(self.iter_mut()),
            Some(handles) => Walk::Other(handles.beside(self.all_slots())),
        }
    }
}

impl<'a, T> Leads for &'a mut SparseMap<T> {
    type Lent = &'a mut T;

    /// None, so that the walk always goes over it: its values lie in no order of slots.
    fn count(&self) -> usize {
        0
    }

    #[inline]
    fn walk(self, _none: Option<impl BySlot>) -> impl Iterator<Item = (Handle, Self::Lent)> {
        self.into_iter()
    }
}

/// One of two walks.
#[derive(Clone)]
pub(crate) enum Walk<F, O> {
    First(F),
    Other(O),
}

impl<T, F: Iterator<Item = T>, O: Iterator<Item = T>> Iterator for Walk<F, O> {
    type Item = T;

    #[inline(always)]
    fn next(&mut self) -> Option<T> {
        match self {
            Walk::First(walk) => walk.next(),
            Walk::Other(walk) => walk.next(),
        }
    }

    #[inline]
    fn fold<B, G: FnMut(B, T) -> B>(self, init: B, each: G) -> B {
        match self {
            Walk::First(walk) => walk.fold(init, each),
            Walk::Other(walk) => walk.fold(init, each),
        }
    }
}

impl<T, F, O> DoubleEndedIterator for Walk<F, O>
where
    F: DoubleEndedIterator<Item = T>,
    O: DoubleEndedIterator<Item = T>,
{
    #[inline]
    fn next_back(&mut self) -> Option<T> {
        match self {
            Walk::First(walk) => walk.next_back(),
            Walk::Other(walk) => walk.next_back(),
        }
    }
}

/// What a closure finds for the items of a walk: std's `FilterMap`, but never called for each item,
/// which takes half as long again.
struct Found<W, F>(W, F);

impl<U, W: Iterator, F: FnMut(W::Item) -> Option<U>> Iterator for Found<W, F> {
    type Item = U;

    #[inline(always)]
    fn next(&mut self) -> Option<U> {
        loop {
            let found = (self.1)(self.0.next()?);
            if found.is_some() {
                return found;
            }
        }
    }

    #[inline]
    fn fold<B, G: FnMut(B, U) -> B>(self, init: B, each: G) -> B {
        self.0.filter_map(self.1).fold(init, each)
    }
}

impl<F: BySlot, O: BySlot> BySlot for Walk<F, O> {
    #[inline]
    fn handles(self) -> impl Iterator<Item = Handle> {
        match self {
            Walk::First(map) => Walk::First(map.handles()),
            Walk::Other(map) => Walk::Other(map.handles()),
        }
    }

    #[inline]
    fn beside<T>(self, slots: SlotsMut<'_, T>) -> impl Iterator<Item = (Handle, &mut T)> {
        match self {
            Walk::First(map) => Walk::First(map.beside(slots)),
            Walk::Other(map) => Walk::Other(map.beside(slots)),
        }
    }
}

/// The handles of the map that has so many values.
macro_rules! handles_of {
    ($count:ident: $last:ident) => {
        $last.by_slot()
    };
    ($count:ident: $map:ident $($rest:ident)+) => {
        if $map.len() == $count {
            $map.by_slot().map(Walk::First)
        } else {
            handles_of!($count: $($rest)+).map(Walk::Other)
        }
    };
}

macro_rules! tuples_are_joined {
    ($($Map:ident $map:ident)*) => {
        impl<'a, A: Leads, $($Map: AnyMap),*> JoinMaps for (A, $(&'a $Map),*) {
            type Item = (Handle, A::Lent, $(&'a $Map::Value),*);

            #[inline]
            fn join(self) -> impl Iterator<Item = Self::Item> {
                let (first, $($map),*) = self;
                let fewest = [$($map.len()),*].into_iter().min().unwrap_or_default();
                let is_less = fewest < first.count().div_ceil(2);
                let handles = is_less.then(|| handles_of!(fewest: $($map)*));
                let walk = first.walk(handles.flatten());
                Found(walk, move |(one, it)| Some((one, it, $($map.get(one)?),*)))
            }
        }
    };
}

tuples_are_joined!(B b);
tuples_are_joined!(B b C c);
tuples_are_joined!(B b C c D d);
tuples_are_joined!(B b C c D d E e);
tuples_are_joined!(B b C c D d E e F f);
