//! Threads that wait until something is given back.

use core::sync::atomic::{fence, AtomicBool, AtomicUsize, Ordering};
use std::sync::{Condvar, Mutex, MutexGuard, PoisonError};

/// Threads that wait for one of several things to be given back, in the order in which they came.
///
/// If no thread waits, giving something back costs a fence and a look at the count. The count has a
/// cache line to itself, so as long as no thread waits each processor has a copy of it.
#[repr(align(128))]
pub(crate) struct Waiting {
    count: AtomicUsize,
    pub(crate) overtaken: AtomicBool,
    queue: Mutex<Queue>,
    /// Where the threads sleep. There are several, so that few threads wake if one is woken.
    rooms: [Condvar; ROOMS],
}

const ROOMS: usize = 16;

/// The numbers of the thread that is served next, and of the one that comes next. They never wrap
/// around: no machine counts to 2^64.
struct Queue {
    first: u64,
    next: u64,
}

impl Waiting {
    /// No thread waits.
    pub(crate) const fn new() -> Self {
        Self {
            count: AtomicUsize::new(0),
            overtaken: AtomicBool::new(false),
            queue: Mutex::new(Queue { first: 0, next: 0 }),
            rooms: [const { Condvar::new() }; ROOMS],
        }
    }

    /// Whether the first waiting thread was woken and found nothing, since a thread that didn't
    /// wait was faster. Then every thread that comes has to wait too.
    #[inline]
    pub(crate) fn is_overtaken(&self) -> bool {
        self.overtaken.load(Ordering::Relaxed)
    }

    /// Returns what `look` finds, once all threads that came before have found something. Sleeps
    /// while `look` finds nothing, and looks again whenever it is woken.
    pub(crate) fn until<T>(&self, look: impl Fn() -> Option<T>) -> T {
        let mut queue = self.queue();
        let own = queue.next;
        queue.next += 1;
        self.count.fetch_add(1, Ordering::Relaxed);
        fence(Ordering::SeqCst);
        let mut woken = false;
        let found = loop {
            let is_first = queue.first == own;
            if let Some(found) = is_first.then(&look).flatten() {
                break found;
            }
            self.overtaken
                .fetch_or(is_first && woken, Ordering::Relaxed);
            let slept = self.rooms[own as usize % ROOMS].wait(queue);
            queue = slept.unwrap_or_else(PoisonError::into_inner);
            woken = true;
        };
        queue.first += 1;
        self.overtaken.store(false, Ordering::Relaxed);
        // If two were given back, this thread may have been woken twice. Giving the second one back
        // wakes the next.
        let another = (queue.first < queue.next).then(look);
        self.count.fetch_sub(1, Ordering::Relaxed);
        drop(queue);
        drop(another);
        found
    }

    /// Something was given back: wakes the first waiting thread, which looks again.
    #[inline]
    pub(crate) fn wake_one(&self) {
        // One of the two fences comes first. So this thread sees the count, or the waiting thread
        // sees what was given back.
        fence(Ordering::SeqCst);
        if self.count.load(Ordering::Relaxed) > 0 {
            self.wake();
        }
    }

    #[cold]
    fn wake(&self) {
        // A thread that looks holds the queue. While this thread has it, all waiting threads sleep.
        let first = self.queue().first;
        self.rooms[first as usize % ROOMS].notify_all();
    }

    fn queue(&self) -> MutexGuard<'_, Queue> {
        self.queue.lock().unwrap_or_else(PoisonError::into_inner)
    }
}

#[cfg(test)]
mod tests {
    use super::*;
    use std::thread::{scope, yield_now};
    use std::time::{Duration, Instant};
    use std::vec::Vec;

    /// Waits until that holds, for at most ten seconds.
    fn soon(holds: impl Fn() -> bool) -> bool {
        let begun = Instant::now();
        while !holds() && begun.elapsed() < Duration::from_secs(10) {
            yield_now();
        }
        holds()
    }

    /// Things that are taken and given back.
    struct Things(AtomicUsize, Waiting);

    impl Things {
        fn new(count: usize) -> Self {
            Self(AtomicUsize::new(count), Waiting::new())
        }

        fn take(&self) -> Option<()> {
            let less = |left: usize| left.checked_sub(1);
            let taken = self
                .0
                .fetch_update(Ordering::SeqCst, Ordering::SeqCst, less);
            taken.ok().map(drop)
        }

        fn give_back(&self) {
            self.0.fetch_add(1, Ordering::SeqCst);
            self.1.wake_one();
        }

        fn waiting(&self) -> usize {
            self.1.count.load(Ordering::SeqCst)
        }
    }

    /// More threads than there are rooms, of which each comes when the one before it waits.
    #[test]
    fn who_comes_first_is_served_first() {
        let (things, order) = (Things::new(0), Mutex::new(Vec::new()));
        let count = 2 * ROOMS + 3;
        scope(|scope| {
            for number in 0..count {
                let (things, order) = (&things, &order);
                scope.spawn(move || {
                    things.1.until(|| things.take());
                    order.lock().expect("no panic").push(number);
                    things.give_back();
                });
                assert!(soon(|| things.waiting() == number + 1));
            }
            things.give_back();
        });
        assert!(order
            .into_inner()
            .expect("no panic")
            .into_iter()
            .eq(0..count));
        assert_eq!((things.waiting(), things.1.is_overtaken()), (0, false));
    }

    /// A thing that is given back, and another one at once: two threads have them at the same time.
    #[test]
    fn two_that_are_given_back_serve_two() {
        struct Taken<'a>(&'a Things);

        impl Drop for Taken<'_> {
            fn drop(&mut self) {
                self.0.give_back();
            }
        }

        for _ in 0..100 {
            let (things, served) = (Things::new(0), AtomicUsize::new(0));
            let both = scope(|scope| {
                let [one, other] = [(); 2].map(|()| {
                    scope.spawn(|| {
                        let _taken = things.1.until(|| things.take().map(|()| Taken(&things)));
                        served.fetch_add(1, Ordering::SeqCst);
                        soon(|| served.load(Ordering::SeqCst) == 2)
                    })
                });
                assert!(soon(|| things.waiting() == 2));
                things.0.store(2, Ordering::SeqCst);
                things.1.wake_one();
                things.1.wake_one();
                one.join().expect("no panic") && other.join().expect("no panic")
            });
            assert!(both, "one of them sleeps though a thing is free");
        }
    }

    /// A thread that was woken and found nothing counts as overtaken until it is served.
    #[test]
    fn a_thread_that_is_overtaken() {
        let things = Things::new(0);
        scope(|scope| {
            scope.spawn(|| things.1.until(|| things.take()));
            assert!(soon(|| things.waiting() == 1));
            assert!(!things.1.is_overtaken());
            assert!(soon(|| {
                things.1.wake_one();
                things.1.is_overtaken()
            }));
            things.give_back();
        });
        assert_eq!((things.waiting(), things.1.is_overtaken()), (0, false));
    }
}
