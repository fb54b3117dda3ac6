//! Frames on the threads of rayon, and walks over maps.
//!
//! The thread that calls `rayon::join` runs the first closure, and offers the second one to others.
//! So the second closure here, which offers more, is rayon's first.

use crate::frames::Join;
use crate::handle::Handle;
use crate::handle_map::SlotsMut;
use crate::shown::shows;
use crate::{AnyMap, HandleMap};
use core::ops::Range;
use rayon::iter::plumbing::{bridge_unindexed, Folder, UnindexedConsumer, UnindexedProducer};
use rayon::iter::{IntoParallelIterator, ParallelIterator};

/// Rayon's own choice of threads: the pool that runs the caller, or otherwise the global one. A
/// `rayon::ThreadPool` is a [`Join`] too.
#[derive(Clone, Copy, Debug, Default)]
pub struct Rayon;

impl Join for Rayon {
    fn join(&self, first: &mut (dyn FnMut() + Send), second: &mut (dyn FnMut() + Send)) {
        rayon::join(second, first);
    }
}

impl Join for rayon::ThreadPool {
    fn join(&self, first: &mut (dyn FnMut() + Send), second: &mut (dyn FnMut() + Send)) {
        rayon::ThreadPool::join(self, second, first);
    }
}

/// The values of a map, or of some of its slots, for several threads: `map.par_iter()`, by rayon's
/// `IntoParallelRefIterator`.
#[must_use]
pub struct ParIter<'a, T>(&'a HandleMap<T>, Range<u32>);

shows! {
    ParIter<'_>[T]:;
}

impl<'a, T: Sync> IntoParallelIterator for &'a HandleMap<T> {
    type Item = (Handle, &'a T);
    type Iter = ParIter<'a, T>;

    fn into_par_iter(self) -> ParIter<'a, T> {
        ParIter(self, 0..self.slots() as u32)
    }
}

/// `map.par_iter_mut()`, by rayon's `IntoParallelRefMutIterator`.
impl<'a, T: Send> IntoParallelIterator for &'a mut HandleMap<T> {
    type Item = (Handle, &'a mut T);
    type Iter = SlotsMut<'a, T>;

    fn into_par_iter(self) -> SlotsMut<'a, T> {
        self.all_slots()
    }
}

macro_rules! goes_to_threads {
    ($Slots:ident, $Item:ty, $Shared:ident, $slots:expr, $split:expr, $values:expr) => {
        impl<'a, T: $Shared> ParallelIterator for $Slots<'a, T> {
            type Item = $Item;

            fn drive_unindexed<C: UnindexedConsumer<Self::Item>>(self, consumer: C) -> C::Result {
                bridge_unindexed(self, consumer)
            }
        }

        impl<'a, T: $Shared> UnindexedProducer for $Slots<'a, T> {
            type Item = $Item;

            fn split(self) -> (Self, Option<Self>) {
                let slots: Range<u32> = $slots(&self);
                let middle = slots.start + (slots.len() as u32).div_ceil(2);
                let (below, above) = $split(self, middle);
                (below, (middle < slots.end).then_some(above))
            }

            fn fold_with<F: Folder<Self::Item>>(self, folder: F) -> F {
                folder.consume_iter($values(self))
            }
        }
    };
}

goes_to_threads!(
    ParIter,
    (Handle, &'a T),
    Sync,
    |it: &Self| it.1.clone(),
    |Self(map, slots), middle| { (Self(map, slots.start..middle), Self(map, middle..slots.end)) },
    |Self(map, slots)| map.iter_range(slots)
);
goes_to_threads!(
    SlotsMut,
    (Handle, &'a mut T),
    Send,
    Self::slots,
    Self::split_at_mut,
    |it| it
);

/// A `HandleMap` and one to five other maps in a tuple, for a walk over all of them on several
/// threads.
///
/// ```
/// use forgeni::{Handle, HandleMap, ParJoinMaps, SparseMap};
/// use rayon::iter::ParallelIterator;
///
/// let handle = |index| Handle::new(index, 1).unwrap();
/// let mut places: HandleMap<u32> = (0..9).map(|index| (handle(index), 10 * index)).collect();
/// let speeds: HandleMap<u32> = (3..99).map(|index| (handle(index), 1)).collect();
/// (&mut places, &speeds).par_join().for_each(|(_, place, speed)| *place += speed);
/// assert_eq!((places[handle(2)], places[handle(3)]), (20, 31));
/// ```
pub trait ParJoinMaps {
    /// A handle, and its value in each of the maps.
    type Item: Send;

    /// The handles that have a value in each of the maps, with their values. The first map can be
    /// borrowed mutably, and then its values can be changed. The walk goes over the slots of the
    /// first map.
    fn par_join(self) -> impl ParallelIterator<Item = Self::Item>;
}

macro_rules! tuples_are_joined {
    ($($Map:ident $map:ident)*) => {
        impl<'a, A, L, $($Map),*> ParJoinMaps for (A, $(&'a $Map),*)
        where
            A: IntoParallelIterator<Item = (Handle, L)>,
            L: Send,
            $($Map: AnyMap<Value: Sync> + Sync),*
        {
            type Item = (Handle, L, $(&'a $Map::Value),*);

            fn par_join(self) -> impl ParallelIterator<Item = Self::Item> {
                let (first, $($map),*) = self;
                let walk = first.into_par_iter();
                walk.filter_map(move |(one, it)| Some((one, it, $($map.get(one)?),*)))
            }
        }
    };
}

tuples_are_joined!(B b);
tuples_are_joined!(B b C c);
tuples_are_joined!(B b C c D d);
tuples_are_joined!(B b C c D d E e);
tuples_are_joined!(B b C c D d E e F f);
