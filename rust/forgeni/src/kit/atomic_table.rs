//! One atomic word, and the tokens by which its callers are told apart in the proofs.
//!
//! In the kit a table has words and slots, a rule over them, and a record of what each caller
//! knows. Rules, records and what a step tells are ghost, so here they are empty traits and types
//! without bytes. What is left of it is the word. All steps are sequentially consistent, as in the
//! kit.
//!
//! The contract of each step: it is one atomic access of the word, and returns what it found there.
//!
//! The contracts are those of the kit's `atomic_table/src/shared.rt`, `owned.rt` and `steps.rt`.

use super::alloc::AllocError;
use core::marker::PhantomData;
use core::sync::atomic::{AtomicU64, Ordering::SeqCst};

/// The rule of a table, told `K` when it is made. It is ghost.
pub trait TableRule<S, V, K> {}

/// What a step tells. It is ghost.
pub trait Play<S, V> {}

/// How one record is cut in two. It is ghost.
pub trait Split<V> {}

/// How two records are made one. It is ghost.
pub trait Join<V> {}

/// Stands for a type of which there is no value. It may go to any thread, as in the kit.
type Ghost<T> = PhantomData<fn() -> T>;

/// Owns the word.
pub struct Table<S, V, K, P: TableRule<S, V, K>> {
    pub shared: Shared<S, V, K, P>,
}

/// The word as threads see it.
pub struct Shared<S, V, K, P: TableRule<S, V, K>> {
    words: [AtomicU64; 1],
    ghost: Ghost<(S, V, K, P)>,
}

/// The right of one thread to make steps. The contract: the calls below make all that there are.
pub struct Seat<S, V>(Ghost<(S, V)>);

/// A seat that is put aside, or none.
pub struct Badge<V>(Ghost<V>);

/// The word after its last step.
pub struct Closed {
    words: [AtomicU64; 1],
}

impl<S, V> Seat<S, V> {
    const ONE: Self = Seat(PhantomData);

    #[inline]
    pub fn into_badge(self) -> Badge<V> {
        Badge::blank()
    }
}

impl<V> Badge<V> {
    /// It is no seat, and stands where one was taken out.
    #[inline]
    pub fn blank() -> Self {
        Badge(PhantomData)
    }

    #[inline]
    pub fn into_seat<S>(self) -> Seat<S, V> {
        Seat::ONE
    }
}

impl<S, V, K, P: TableRule<S, V, K>> Table<S, V, K, P> {
    /// A table of one word with this value, and its first seat. In the kit it may have more words,
    /// and takes memory for them. Here the word stands in the table itself, so it never fails.
    #[inline]
    pub fn of_words(words: &[u64; 1], _key: &K) -> Result<(Self, Seat<S, V>), AllocError> {
        let shared = Shared {
            words: [AtomicU64::new(words[0])],
            ghost: PhantomData,
        };
        Ok((Table { shared }, Seat::ONE))
    }

    /// Ends the steps. Nobody shares the table any more, so what the word is now stays.
    #[inline]
    pub fn close_with(self, _seat: Seat<S, V>) -> Closed {
        Closed {
            words: self.shared.words,
        }
    }
}

impl<S, V, K, P: TableRule<S, V, K>> Shared<S, V, K, P> {
    #[inline]
    pub fn load_new_seat<M: Play<S, V>>(&self, word: usize) -> (u64, Seat<S, V>) {
        (self.words[word].load(SeqCst), Seat::ONE)
    }

    /// Cuts a seat's record in two. In the kit records change only at a step, so it is one.
    #[inline]
    pub fn split_seat<M: Split<V>>(&self, _seat: &mut Seat<S, V>) -> Seat<S, V> {
        self.words[0].load(SeqCst);
        Seat::ONE
    }

    /// Moves the record of one seat into another. In the kit records change only at a step, so it
    /// is one.
    #[inline]
    pub fn join_seat<M: Join<V>>(&self, _seat: &mut Seat<S, V>, _other: Seat<S, V>) {
        self.words[0].load(SeqCst);
    }

    /// Adds `k`. The sum wraps at 2^64; the rules of the sources keep it below that.
    #[inline]
    pub fn fetch_add<M: Play<S, V>>(&self, _seat: &mut Seat<S, V>, word: usize, k: u64) -> u64 {
        self.words[word].fetch_add(k, SeqCst)
    }

    /// Subtracts `k`. The difference wraps below 0; the rules of the sources keep it at 0 or above.
    #[inline]
    pub fn fetch_sub<M: Play<S, V>>(&self, _seat: &mut Seat<S, V>, word: usize, k: u64) -> u64 {
        self.words[word].fetch_sub(k, SeqCst)
    }
}

impl Closed {
    /// The word as the last step left it.
    #[inline]
    pub fn word(&self, word: usize) -> u64 {
        self.words[word].load(SeqCst)
    }

    /// In the kit it gives the table's memory back. Here it had none.
    #[inline]
    pub fn free(self) {}
}

#[cfg(test)]
mod tests {
    use super::*;

    /// A rule, a play, and ways to cut records and to join them: all of them ghost.
    struct Nothing;

    impl TableRule<(), (), ()> for Nothing {}
    impl Play<(), ()> for Nothing {}
    impl Split<()> for Nothing {}
    impl Join<()> for Nothing {}

    type Word = Table<(), (), (), Nothing>;

    fn word(first: u64) -> (Word, Seat<(), ()>) {
        Table::of_words(&[first], &()).expect("it takes no memory")
    }

    #[test]
    fn a_step_returns_what_it_found() {
        let (table, mut seat) = word(5);
        assert_eq!(table.shared.fetch_add::<Nothing>(&mut seat, 0, 3), 5);
        assert_eq!(table.shared.fetch_sub::<Nothing>(&mut seat, 0, 10), 8);
        // Below 0 it wraps.
        let (found, _other) = table.shared.load_new_seat::<Nothing>(0);
        assert_eq!(found as i64, -2);
        assert_eq!(table.shared.fetch_add::<Nothing>(&mut seat, 0, 2), found);
        let closed = table.close_with(seat);
        assert_eq!(closed.word(0), 0);
        closed.free();
    }

    #[test]
    fn seats_that_come_and_go_change_nothing() {
        let (table, mut seat) = word(u64::MAX);
        let other = table.shared.split_seat::<Nothing>(&mut seat);
        let other = other.into_badge().into_seat::<()>();
        table.shared.join_seat::<Nothing>(&mut seat, other);
        assert_eq!(table.close_with(seat).word(0), u64::MAX);
    }

    #[test]
    fn tokens_have_no_bytes() {
        assert_eq!(size_of::<Seat<(), std::string::String>>(), 0);
        assert_eq!(size_of::<Badge<std::string::String>>(), 0);
        assert_eq!(size_of::<Word>(), size_of::<u64>());
    }

    #[test]
    #[cfg(feature = "std")]
    fn steps_of_many_threads_are_each_made_once() {
        let (table, seat) = word(0);
        std::thread::scope(|scope| {
            for _ in 0..4 {
                scope.spawn(|| {
                    let (_, mut seat) = table.shared.load_new_seat::<Nothing>(0);
                    for _ in 0..10_000 {
                        table.shared.fetch_add::<Nothing>(&mut seat, 0, 1);
                    }
                });
            }
        });
        assert_eq!(table.close_with(seat).word(0), 40_000);
    }
}
