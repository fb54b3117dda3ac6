//! Claimers that claim in turn, and threads that claim side by side.

use crate::running::{Claimer, Claims};
use std::sync::Barrier;
use std::thread;

/// The numbers below that one, for so many workers.
fn opened(numbers: usize, workers: usize) -> (Claims, Vec<Claimer>) {
    Claims::open(numbers, workers).expect("memory for the claimers")
}

/// The last claimer of a list.
fn last(claimers: &mut Vec<Claimer>) -> Claimer {
    claimers.pop().expect("a claimer for each")
}

#[test]
fn one_worker_gets_all_in_order() {
    let (claims, mut claimers) = opened(3, 1);
    let mut only = last(&mut claimers);
    assert_eq!(claims.next(&mut only), Some(0));
    assert_eq!(claims.next(&mut only), Some(1));
    assert_eq!(claims.next(&mut only), Some(2));
    assert_eq!(claims.next(&mut only), None);
    assert_eq!(claims.next(&mut only), None);
}

#[test]
fn two_workers_in_turn() {
    let (claims, mut claimers) = opened(3, 2);
    let mut b = last(&mut claimers);
    let mut a = last(&mut claimers);
    assert_eq!(claims.next(&mut b), Some(0));
    assert_eq!(claims.next(&mut a), Some(1));
    assert_eq!(claims.next(&mut b), Some(2));
    assert_eq!(claims.next(&mut b), None);
    assert_eq!(claims.next(&mut a), None);
}

#[test]
fn no_numbers_for_many_workers() {
    let (claims, mut claimers) = opened(0, 64);
    for _ in 0..64 {
        assert_eq!(claims.next(&mut last(&mut claimers)), None);
    }
    assert!(claimers.is_empty());
}

#[test]
fn as_many_numbers_as_there_may_be() {
    for workers in [1, 64] {
        let (claims, mut claimers) = opened(65_536, workers);
        let mut only = last(&mut claimers);
        for number in 0..65_536 {
            assert_eq!(claims.next(&mut only), Some(number));
        }
        assert_eq!(claims.next(&mut only), None);
    }
}

/// Each worker claims one number, and all but those are left.
#[test]
fn each_number_of_workers() {
    for workers in 1..=64 {
        let (claims, mut claimers) = opened(65_536, workers);
        assert_eq!(claimers.len(), workers);
        for number in 0..workers {
            assert_eq!(claims.next(&mut last(&mut claimers)), Some(number));
        }
    }
}

#[test]
fn four_threads_claim_each_number_once() {
    let (claims, mut claimers) = opened(1_000, 4);
    let all_here = Barrier::new(4);
    let mut claimed = Vec::new();
    thread::scope(|threads| {
        let workers: Vec<_> = claimers
            .iter_mut()
            .map(|claimer| threads.spawn(|| claimed_by(&claims, claimer, &all_here)))
            .collect();
        for worker in workers {
            claimed.extend(worker.join().expect("a worker"));
        }
    });
    claims.close(claimers);
    claimed.sort_unstable();
    assert!(claimed.into_iter().eq(0..1_000));
}

/// What a worker claims until it has ended, once all workers are here.
fn claimed_by(claims: &Claims, claimer: &mut Claimer, all_here: &Barrier) -> Vec<usize> {
    all_here.wait();
    std::iter::from_fn(|| claims.next(claimer)).collect()
}
