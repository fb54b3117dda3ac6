//! A pool of reservers, for threads that come and go.

use crate::lent::Lent;
use crate::shown::shows;
use crate::waiting::Waiting;
use crate::{HandedBack, OutOfMemory, Phased, Reserver};
use alloc::vec::Vec;
use core::sync::atomic::{AtomicUsize, Ordering};
use std::sync::{Mutex, MutexGuard, PoisonError, TryLockError};
use std::thread_local;

/// A pool of reservers, which lends one for as long as a closure takes. It is for task systems,
/// where it isn't known in advance which thread runs a task.
///
/// It can be shared by any number of threads. It has no order, and no thread has a reserver of its
/// own. A pool of owned reservers can be kept in an `Arc` or a `static`, and
/// [`into_inner`](Self::into_inner) gives them back for the close:
///
/// ```
/// use forgeni::{Entities, Reservers};
///
/// let (shared, reservers) = Entities::new().share(4)?;
/// let pool = Reservers::new(reservers)?;
/// std::thread::scope(|scope| {
///     for _ in 0..100 {
///         scope.spawn(|| pool.with(|reserver| reserver.reserve()));
///     }
/// });
/// let mut entities = shared.close(pool.into_inner())?;
/// entities.flush(&mut Vec::new())?;
/// assert_eq!(entities.len(), 100);
/// # Ok::<(), Box<dyn std::error::Error + Send + Sync>>(())
/// ```
///
/// In a [`phase`](crate::Entities::phase), it can be made of the reservers that are lent:
///
/// ```
/// use forgeni::{Entities, Reservers};
///
/// let mut entities = Entities::new();
/// entities.phase(2, |_, reservers| {
///     let pool = Reservers::new(reservers)?;
///     std::thread::scope(|scope| {
///         for _ in 0..8 {
///             scope.spawn(|| pool.with(|reserver| reserver.reserve_many(5)));
///         }
///     });
///     Ok::<(), forgeni::OutOfMemory>(())
/// })??;
/// assert_eq!(entities.reserved(), 40);
/// # Ok::<(), Box<dyn std::error::Error + Send + Sync>>(())
/// ```
///
/// # What it costs
///
/// Each reserver has a flag, one atomic word in a cache line of its own. Lending looks up the
/// number of the thread, and takes the flag of the reserver with that number, or of the next one
/// that is free. That is one atomic step for each flag that it looks at. Giving the reserver back
/// is one step, a fence, and a look at whether a thread waits. The pool has no lock. So a
/// reservation takes three atomic steps instead of one, and two of them are on a word that only few
/// threads touch. With as many reservers as running threads, a thread usually finds the first one
/// free.
///
/// If no reserver is free, [`with`](Self::with) sleeps until one is. Threads that sleep are served
/// in the order in which they came. A thread that comes just as a reserver is given back can take
/// it at once, before the first sleeper is awake, but only until that sleeper has been woken once
/// and found none. From then on all others wait for it. [`try_with`](Self::try_with) never waits,
/// and returns `None` meanwhile.
pub struct Reservers<R = Reserver> {
    places: Vec<Place<R>>,
    waiting: Waiting,
}

/// A reserver with its flag. Two of them share no line of a processor's cache.
#[repr(align(128))]
struct Place<R>(Mutex<R>);

/// What a [`Reservers`] can hold: a [`Reserver`], one that is [`Lent`], or a `&mut` to one of them,
/// of any [source](Phased).
///
/// No other type can implement it.
///
/// ```
/// use forgeni::{Entities, Lends, Reservers};
///
/// /// Any pool will do: of reservers, or of those that a phase lends.
/// fn wave<R: Lends>(pool: &Reservers<R>) -> usize {
///     pool.with(|reserver| reserver.reserve_many(10)).map_or(0, |all| all.len())
/// }
///
/// let mut entities = Entities::new();
/// let reserved = entities.phase(2, |_, all| Reservers::new(all).map_or(0, |pool| wave(&pool)))?;
/// assert_eq!((reserved, entities.reserved()), (10, 10));
/// # Ok::<(), Box<dyn std::error::Error>>(())
/// ```
pub trait Lends: sealed::Lends {}

impl<R: sealed::Lends> Lends for R {}

mod sealed {
    use super::{Lent, Phased, Reserver};

    pub trait Lends {
        type Source: Phased;

        fn lend(&mut self) -> Lent<'_, Self::Source>;
    }

    impl<S: Phased> Lends for Reserver<S> {
        type Source = S;

        #[inline]
        fn lend(&mut self) -> Lent<'_, S> {
            Lent::of(self)
        }
    }

    impl<S: Phased> Lends for Lent<'_, S> {
        type Source = S;

        #[inline]
        fn lend(&mut self) -> Lent<'_, S> {
            self.again()
        }
    }

    impl<R: Lends> Lends for &mut R {
        type Source = R::Source;

        #[inline]
        fn lend(&mut self) -> Lent<'_, R::Source> {
            (**self).lend()
        }
    }
}

impl<R: Lends> Reservers<R> {
    /// Creates a pool of these reservers, which may belong to several phases. There must be at
    /// least one.
    ///
    /// ```
    /// use forgeni::{Entities, Reservers};
    ///
    /// let (shared, reservers) = Entities::new().share(2)?;
    /// let (other, more) = Entities::new().share(2)?;
    /// // Each of several phases may have a pool.
    /// let pools = [Reservers::new(reservers)?, Reservers::new(more)?];
    /// assert_eq!(pools.map(|pool| pool.count()), [2, 2]);
    /// # Ok::<(), Box<dyn std::error::Error>>(())
    /// ```
    ///
    /// # Errors
    ///
    /// [`HandedBack`] has all of them, if there isn't enough memory for the list of them.
    pub fn new<I>(reservers: I) -> Result<Self, HandedBack<I::IntoIter, OutOfMemory>>
    where
        I: IntoIterator<Item = R>,
        I::IntoIter: ExactSizeIterator,
    {
        let reservers = reservers.into_iter();
        let mut places = Vec::new();
        if places.try_reserve_exact(reservers.len()).is_err() {
            return Err(HandedBack::new(reservers, OutOfMemory));
        }
        places.extend(reservers.map(|reserver| Place(Mutex::new(reserver))));
        let waiting = Waiting::new();
        Ok(Self { places, waiting })
    }

    /// Lends a reserver to `run`, and returns what `run` returns. If no reserver is free, it waits
    /// for one, behind the threads that are already waiting.
    ///
    /// A `with` within a `with` takes another reserver. If threads have all reservers and each
    /// waits for another one, they wait forever. So use [`try_with`](Self::try_with) within a
    /// `with`.
    ///
    /// ```
    /// use forgeni::{Entities, Reservers};
    ///
    /// let (_shared, reservers) = Entities::new().share(2)?;
    /// let pool = Reservers::new(reservers)?;
    /// std::thread::scope(|scope| {
    ///     for _ in 0..50 {
    ///         // More threads than reservers: some wait.
    ///         scope.spawn(|| pool.with(|reserver| reserver.reserve()));
    ///     }
    /// });
    /// assert_eq!(pool.with(|reserver| reserver.reserve())?.index(), 50);
    /// # Ok::<(), Box<dyn std::error::Error>>(())
    /// ```
    ///
    /// # Panics
    ///
    /// If the pool has no reservers. A panic in `run` is propagated, and the reserver is as good as
    /// before.
    pub fn with<T>(&self, run: impl FnOnce(&mut Lent<'_, R::Source>) -> T) -> T {
        let mut loan = self.free().unwrap_or_else(|| self.awaited());
        run(&mut loan.reserver.lend())
    }

    /// Lends a reserver to `run`, and returns what `run` returns, or `None` at once if none is
    /// free, or if the next one is for a waiting thread.
    ///
    /// ```
    /// use forgeni::{Entities, Reservers};
    ///
    /// let (_shared, reservers) = Entities::new().share(1)?;
    /// let pool = Reservers::new(reservers)?;
    /// pool.with(|_only| {
    ///     // The only reserver is lent, and this doesn't wait for it.
    ///     assert!(pool.try_with(|reserver| reserver.reserve()).is_none());
    /// });
    /// assert!(pool.try_with(|reserver| reserver.reserve()).is_some());
    /// # Ok::<(), Box<dyn std::error::Error>>(())
    /// ```
    ///
    /// # Panics
    ///
    /// A panic in `run` is propagated, and the reserver is as good as before.
    pub fn try_with<T>(&self, run: impl FnOnce(&mut Lent<'_, R::Source>) -> T) -> Option<T> {
        let mut loan = self.free()?;
        Some(run(&mut loan.reserver.lend()))
    }

    /// A free reserver, unless it is owed to a waiting thread.
    fn free(&self) -> Option<Loan<'_, R>> {
        (!self.waiting.is_overtaken()).then(|| self.found())?
    }

    /// The first reserver that is free, from that with the thread's number on.
    fn found(&self) -> Option<Loan<'_, R>> {
        let start = own_number() % self.places.len().max(1);
        let (before, from) = self.places.split_at(start);
        let reserver = from.iter().chain(before).find_map(Place::try_take)?;
        let _wakes = Wakes(&self.waiting);
        Some(Loan { reserver, _wakes })
    }

    /// The first reserver that becomes free when all threads that came before have one.
    #[cold]
    fn awaited(&self) -> Loan<'_, R> {
        assert!(!self.places.is_empty(), "the pool has no reservers");
        self.waiting.until(|| self.found())
    }
}

/// A reserver that is lent until this is dropped. The order of the fields makes the drop give the
/// flag back first, and then wake a waiting thread.
struct Loan<'a, R> {
    reserver: MutexGuard<'a, R>,
    _wakes: Wakes<'a>,
}

/// Wakes a waiting thread when it is dropped.
struct Wakes<'a>(&'a Waiting);

impl Drop for Wakes<'_> {
    #[inline]
    fn drop(&mut self) {
        self.0.wake_one();
    }
}

impl<R> Reservers<R> {
    /// Returns the number of reservers.
    ///
    /// ```
    /// use forgeni::{Entities, Reservers};
    ///
    /// let (_shared, reservers) = Entities::new().share(8)?;
    /// let pool = Reservers::new(reservers)?;
    /// // As many tasks at once need not wait.
    /// assert_eq!(pool.count(), 8);
    /// # Ok::<(), Box<dyn std::error::Error>>(())
    /// ```
    #[must_use]
    pub fn count(&self) -> usize {
        self.places.len()
    }

    /// Returns the reservers, in the order in which they were handed in. Each is moved once.
    ///
    /// If memory runs out for the list, the process ends, as with `Vec`.
    ///
    /// ```
    /// use forgeni::{Entities, Reservers};
    ///
    /// let (shared, reservers) = Entities::new().share(4)?;
    /// let pool = Reservers::new(reservers)?;
    /// pool.with(|reserver| reserver.reserve())?;
    /// let entities = shared.close(pool.into_inner())?;
    /// assert_eq!(entities.reserved(), 1);
    /// # Ok::<(), Box<dyn std::error::Error>>(())
    /// ```
    #[must_use]
    pub fn into_inner(self) -> Vec<R> {
        let places = self.places.into_iter();
        places.map(Place::into_inner).collect()
    }
}

impl<R> Place<R> {
    fn try_take(&self) -> Option<MutexGuard<'_, R>> {
        match self.0.try_lock() {
            Ok(reserver) => Some(reserver),
            // A panic can't leave a reserver half changed: a reservation doesn't panic.
            Err(TryLockError::Poisoned(poisoned)) => Some(poisoned.into_inner()),
            Err(TryLockError::WouldBlock) => None,
        }
    }

    fn into_inner(self) -> R {
        self.0.into_inner().unwrap_or_else(PoisonError::into_inner)
    }
}

/// A number of this thread. Threads that start one after the other get successive numbers.
fn own_number() -> usize {
    static NEXT: AtomicUsize = AtomicUsize::new(0);
    thread_local!(static OWN: usize = NEXT.fetch_add(1, Ordering::Relaxed));
    // A thread that ends has none any more.
    OWN.try_with(|own| *own).unwrap_or(0)
}

shows! {
    Reservers[R]: count;
}

#[cfg(test)]
mod tests {
    use super::*;

    /// Once a waiting thread has been overtaken, the next reserver is for it.
    #[test]
    fn a_reserver_that_is_owed() {
        let shared = crate::Entities::new().share(1);
        let (_shared, reservers) = shared.expect("memory");
        let pool = Reservers::new(reservers).expect("memory");
        assert_eq!(pool.try_with(|_| 1), Some(1));
        pool.waiting.overtaken.store(true, Ordering::Relaxed);
        assert_eq!(pool.try_with(|_| 2), None);
        assert_eq!(pool.with(|_| 3), 3);
        assert_eq!(pool.try_with(|_| 4), Some(4));
    }
}
