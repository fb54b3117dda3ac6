//! Worked examples of phases, written by hand, and what stands after each misuse.

use crate::common::{flushed, handle, small};
use forgeni::{
    AllocError, CloseError, Entities, OtherPhase, Phase, Refused, ReserveError, Reserver,
    ShareError,
};
use std::sync::Mutex;

/// Slots 0 and 1 wait for their second generation, slot 0 first; slot 2 has an entity, and 3 and 4
/// were not made yet.
fn with_two_waiting() -> Entities {
    let mut entities = small(5, 9);
    for _ in 0..3 {
        entities.alloc().expect("a handle");
    }
    entities.free(handle(1, 1)).expect("freed");
    entities.free(handle(0, 1)).expect("freed");
    entities
}

fn share(entities: Entities, callers: usize) -> (Phase, Vec<Reserver>) {
    entities.share(callers).expect("shared")
}

#[test]
fn requests_by_two_callers() {
    let (shared, mut both) = share(with_two_waiting(), 2);
    assert_eq!((both[0].number(), both[1].number()), (0, 1));
    assert_eq!(both[0].reserve(), Ok(handle(0, 2)));
    assert_eq!(
        both[1].reserve_many(2),
        Ok(vec![handle(1, 2), handle(3, 1)])
    );
    assert_eq!(both[0].reserve_many(0), Ok(vec![]));
    assert_eq!(
        both[0].reserve_many(2),
        Err(ReserveError::Space { wanted: 2, left: 1 })
    );
    // The pool is shut now.
    assert_eq!(
        both[1].reserve(),
        Err(Refused::Space { wanted: 1, left: 0 })
    );
    assert_eq!(
        both[1].reserve_many(3),
        Err(ReserveError::Space { wanted: 3, left: 0 })
    );
    assert_eq!(both[0].quota_left(), (1 << 40) - 3);
    assert_eq!(both[1].quota_left(), (1 << 40) - 6);

    let mut entities = shared.close(both).expect("closed");
    assert_eq!(
        (entities.asked(), entities.reserved(), entities.len()),
        (9, 3, 1)
    );
    assert_eq!(entities.alloc(), Err(AllocError::NeedsFlush));
    // The handles of new slots come first.
    assert_eq!(
        flushed(&mut entities),
        vec![handle(3, 1), handle(1, 2), handle(0, 2)]
    );
    assert_eq!(entities.alloc(), Ok(handle(4, 1)));
}

/// A list of old and new handles: the old one that waited longest first, as Bevy gives them.
#[test]
fn a_list_over_old_and_new_slots() {
    let (shared, mut one) = share(with_two_waiting(), 1);
    let all = [handle(1, 2), handle(0, 2), handle(3, 1)];
    let mut list = vec![handle(7, 7)];
    assert_eq!(one[0].reserve_into(&mut list, 3), Ok(()));
    assert_eq!(list, [vec![handle(7, 7)], all.to_vec()].concat());
    assert_eq!(
        one[0].reserve_into(&mut list, 2),
        Err(ReserveError::Space { wanted: 2, left: 1 })
    );
    assert_eq!(list.len(), 4);
    let mut entities = shared.close(one).expect("closed");
    assert_eq!(flushed(&mut entities).len(), 3);
}

#[test]
fn a_phase_of_nothing_changes_nothing() {
    let (shared, reservers) = share(with_two_waiting(), 1024);
    assert_eq!(
        (shared.count(), shared.returned(), reservers.len()),
        (1024, 0, 1024)
    );
    assert_eq!(reservers[1023].number(), 1023);
    assert_eq!(
        (reservers[5].count(), reservers[5].quota_left()),
        (1024, 1 << 40)
    );
    let mut entities = shared.close(reservers).expect("closed");
    assert!(!entities.needs_flush());
    assert_eq!(
        (entities.len(), entities.total(), entities.top()),
        (1, 3, 2)
    );
    assert_eq!(entities.alloc(), Ok(handle(0, 2)));
}

#[test]
fn a_refused_share_gives_the_allocator_back() {
    let mut entities = with_two_waiting();
    for count in [0, 1025, usize::MAX] {
        let refused = entities.share(count).expect_err("refused");
        assert_eq!(refused.error(), &ShareError::Count);
        entities = refused.into_parts().0;
        assert_eq!((entities.len(), entities.top()), (1, 2));
    }
    entities.request().expect("a handle");
    let refused = entities.share(1).expect_err("refused");
    assert_eq!(refused.error(), &ShareError::NeedsFlush);
    assert_eq!(refused.to_string(), "a flush is needed first");
    entities = refused.into_parts().0;
    assert_eq!(flushed(&mut entities), vec![handle(0, 2)]);
}

#[test]
fn meetings() {
    let (first, mut a) = share(Entities::new(), 2);
    let (second, mut b) = share(Entities::new(), 2);
    assert_eq!(a[0].meet(&mut b[0]), Err(OtherPhase));
    let (one, other) = a.split_at_mut(1);
    assert_eq!(one[0].reserve(), Ok(handle(0, 1)));
    assert_eq!(other[0].meet(&mut one[0]), Ok(()));
    assert_eq!(other[0].reserve(), Ok(handle(1, 1)));
    assert_eq!(b[1].reserve(), Ok(handle(0, 1)));
    assert!(a[0].is_of(&first) && !a[0].is_of(&second));
    assert_eq!(first.close(a).expect("closed").reserved(), 2);
    assert_eq!(second.close(b).expect("closed").reserved(), 1);
}

#[test]
fn reservers_of_another_phase_are_handed_back() {
    let (first, mut a) = share(Entities::new(), 2);
    let (second, mut b) = share(Entities::new(), 2);
    std::mem::swap(&mut a[1], &mut b[0]);
    let ((first, mut a), error) = first.close(a).expect_err("refused").into_parts();
    assert_eq!((error, a.len()), (CloseError::OtherPhase, 2));
    let ((second, mut b), error) = second.close_lost(b).expect_err("refused").into_parts();
    assert_eq!((error, b.len()), (CloseError::OtherPhase, 2));
    // They still reserve, each in its own phase.
    assert_eq!(a[1].reserve(), Ok(handle(0, 1)));
    assert_eq!(a[0].reserve(), Ok(handle(0, 1)));
    std::mem::swap(&mut a[1], &mut b[0]);
    assert_eq!(first.close(a).expect("closed").reserved(), 1);
    assert_eq!(second.close(b).expect("closed").reserved(), 1);
}

#[test]
fn all_must_come_home() {
    let (shared, mut reservers) = share(Entities::new(), 3);
    let last = reservers.pop().expect("three");
    let refused = shared.close(reservers).expect_err("refused");
    assert_eq!(refused.to_string(), "missing callers: 1");
    let ((shared, mut reservers), error) = refused.into_parts();
    assert_eq!(error, CloseError::Missing { count: 1 });
    reservers.push(last);
    assert_eq!(reservers[0].reserve(), Ok(handle(0, 1)));
    assert_eq!(shared.close(reservers).expect("closed").reserved(), 1);
}

/// A reserver that was handed in to a refused close is returned, and can go on from there.
#[test]
fn a_reserver_that_is_in_use() {
    let (shared, mut reservers) = share(Entities::new(), 2);
    let mut away = reservers.pop().expect("two");
    reservers[0].reserve().expect("a handle");
    let refused = shared.close_lost(reservers).expect_err("refused");
    let ((mut shared, none), error) = refused.into_parts();
    assert_eq!((error, none.len()), (CloseError::InUse, 0));
    assert_eq!((shared.count(), shared.returned()), (2, 1));
    assert_eq!(away.reserve(), Ok(handle(1, 1)));
    let mut back = shared.reserver().expect("memory").expect("returned");
    assert_eq!((back.number(), back.quota_left()), (0, (1 << 40) - 1));
    assert_eq!(back.reserve(), Ok(handle(2, 1)));
    assert!(shared.reserver().expect("memory").is_none());
    let entities = shared.close(vec![away, back]).expect("closed");
    assert_eq!((entities.asked(), entities.reserved()), (3, 3));
}

/// What a reserver did that was dropped counts, though nobody has its handles.
#[test]
fn a_lost_reserver() {
    let (shared, mut reservers) = share(with_two_waiting(), 2);
    let mut lost = reservers.pop().expect("two");
    assert_eq!(lost.reserve(), Ok(handle(0, 2)));
    drop(lost);
    assert_eq!(reservers[0].reserve(), Ok(handle(1, 2)));
    let refused = shared.close(reservers).expect_err("refused");
    let ((shared, reservers), error) = refused.into_parts();
    assert_eq!(error, CloseError::Missing { count: 1 });
    let mut entities = shared.close_lost(reservers).expect("closed");
    assert_eq!((entities.asked(), entities.reserved()), (2, 2));
    assert_eq!(flushed(&mut entities), vec![handle(1, 2), handle(0, 2)]);
}

/// A request that was refused counts as far as the pool goes if its reserver was lost.
#[test]
fn a_lost_refusal() {
    let (shared, mut reservers) = share(small(3, 1), 2);
    let mut lost = reservers.pop().expect("two");
    assert_eq!(reservers[0].reserve(), Ok(handle(0, 1)));
    assert_eq!(
        lost.reserve_many(9),
        Err(ReserveError::Space { wanted: 9, left: 2 })
    );
    drop(lost);
    let mut entities = shared.close_lost(reservers).expect("closed");
    assert_eq!((entities.asked(), entities.reserved()), (10, 3));
    assert_eq!(flushed(&mut entities).len(), 3);
}

#[test]
fn close_lost_with_all_reservers() {
    let (shared, mut reservers) = share(with_two_waiting(), 2);
    assert_eq!(reservers[1].reserve_many(3).expect("room").len(), 3);
    assert_eq!(reservers[0].reserve(), Ok(handle(4, 1)));
    let entities = shared.close_lost(reservers).expect("closed");
    assert_eq!((entities.asked(), entities.reserved()), (4, 4));
}

/// A reserver that nobody drops is one in use: neither close gives the allocator back.
#[test]
fn a_forgotten_reserver() {
    // `mem::forget` would do the same, and valgrind would call the memory lost.
    static NEVER_DROPPED: Mutex<Vec<Reserver>> = Mutex::new(Vec::new());
    let (shared, mut reservers) = share(Entities::new(), 2);
    let forgotten = reservers.pop().expect("two");
    NEVER_DROPPED.lock().expect("no panic").push(forgotten);
    let refused = shared.close(reservers).expect_err("refused");
    let ((shared, reservers), error) = refused.into_parts();
    assert_eq!(error, CloseError::Missing { count: 1 });
    let refused = shared.close_lost(reservers).expect_err("refused");
    assert_eq!(refused.error(), &CloseError::InUse);
    assert_eq!(refused.to_string(), "a caller is still in use");
}

#[test]
fn dropped_in_any_order() {
    // The phase first: its reservers still reserve, and the allocator goes with the last of them.
    let (shared, mut reservers) = share(with_two_waiting(), 3);
    drop(shared);
    assert_eq!(reservers[2].reserve(), Ok(handle(0, 2)));
    drop(reservers.remove(1));
    assert_eq!(reservers[0].reserve(), Ok(handle(1, 2)));
    drop(reservers);
    // The reservers first.
    let (shared, reservers) = share(with_two_waiting(), 3);
    drop(reservers);
    assert_eq!((shared.count(), shared.returned()), (3, 0));
    drop(shared);
    // On other threads.
    let (shared, reservers) = share(with_two_waiting(), 3);
    std::thread::scope(|scope| {
        for reserver in reservers {
            scope.spawn(move || drop(reserver));
        }
        scope.spawn(move || drop(shared));
    });
}

/// A thread panics in the middle of a phase, and its reserver is dropped as its stack unwinds.
/// The handles that it had reserved come to life all the same.
#[test]
fn a_panic_in_the_middle() {
    let (shared, mut reservers) = share(Entities::new(), 3);
    let mut broken = reservers.pop().expect("three");
    let told = std::thread::scope(|scope| {
        let thread = scope.spawn(move || {
            broken.reserve_many(5).expect("five handles");
            std::panic::resume_unwind(Box::new("stopped"));
        });
        let told: Vec<_> = (0..10)
            .map(|i| reservers[i % 2].reserve().expect("a handle"))
            .collect();
        assert!(thread.join().is_err());
        told
    });
    let refused = shared.close(reservers).expect_err("refused");
    let ((shared, reservers), error) = refused.into_parts();
    assert_eq!(error, CloseError::Missing { count: 1 });
    let mut entities = shared.close_lost(reservers).expect("closed");
    assert_eq!((entities.asked(), entities.reserved()), (15, 15));
    flushed(&mut entities);
    assert_eq!(entities.len(), 15);
    assert!(told.iter().all(|one| entities.is_alive(*one)));
}

/// An allocator moves to another thread and back.
#[test]
fn an_allocator_moves() {
    let mut entities = with_two_waiting();
    let thread = std::thread::spawn(move || {
        assert_eq!(entities.alloc(), Ok(handle(0, 2)));
        entities
    });
    let mut entities = thread.join().expect("it ends");
    assert_eq!(entities.alloc(), Ok(handle(1, 2)));
}

fn numbers(reservers: &[Reserver]) -> Vec<usize> {
    reservers.iter().map(|one| one.number()).collect()
}

/// The reservers are given out, and come back, in their order.
#[test]
fn reservers_keep_their_order() {
    let (shared, mut reservers) = share(Entities::new(), 5);
    assert_eq!(numbers(&reservers), [0, 1, 2, 3, 4]);
    let last = reservers.pop().expect("five");
    reservers.swap(0, 2);
    let refused = shared.close(reservers).expect_err("one is missing");
    let ((shared, mut reservers), error) = refused.into_parts();
    assert_eq!(error, CloseError::Missing { count: 1 });
    assert_eq!(numbers(&reservers), [2, 1, 0, 3]);

    let (other, mut foreign) = share(Entities::new(), 1);
    reservers.append(&mut foreign);
    let refused = shared.close(reservers).expect_err("one is foreign");
    let ((shared, mut reservers), error) = refused.into_parts();
    assert_eq!(error, CloseError::OtherPhase);
    assert_eq!(numbers(&reservers), [2, 1, 0, 3, 0]);
    assert!(reservers[4].is_of(&other));

    // Those returned are given out again, the last one that came back first.
    let foreign = reservers.pop().expect("five");
    let refused = shared.close_lost(reservers).expect_err("in use");
    let ((shared, none), error) = refused.into_parts();
    assert_eq!(error, CloseError::InUse);
    assert_eq!((none.len(), shared.returned()), (0, 4));
    drop(foreign);
    let closed = shared.close(vec![last]).expect("all are there");
    assert_eq!(closed.reserved(), 0);
}

/// No two of 70,000 phases have the same number: none takes another phase's reserver for its own.
#[test]
fn phases_without_end() {
    let first: Vec<_> = (0..100).map(|_| share(Entities::new(), 1)).collect();
    for _ in 0..70_000 {
        let (shared, reservers) = share(Entities::new(), 1);
        for (old, foreign) in &first {
            assert!(!foreign[0].is_of(&shared) && !reservers[0].is_of(old));
        }
        assert!(shared.close(reservers).is_ok());
    }
    let (shared, mut reservers) = share(Entities::new(), 1);
    for (_, mut foreign) in first {
        assert_eq!(reservers[0].meet(&mut foreign[0]), Err(OtherPhase));
    }
    assert!(shared.close(reservers).is_ok());
}

#[test]
fn what_they_print() {
    let (shared, reservers) = share(small(3, 1), 1);
    assert_eq!(format!("{shared:?}"), "Phase { count: 1, returned: 0, .. }");
    let text = "Reserver { number: 0, quota_left: 1099511627776, .. }";
    assert_eq!(format!("{:?}", reservers[0]), text);
    assert_eq!(
        Refused::Space { wanted: 2, left: 1 }.to_string(),
        "2 wanted and 1 left"
    );
    assert_eq!(
        Refused::Quota { left: 7 }.to_string(),
        "the quota left is 7"
    );
    assert_eq!(OtherPhase.to_string(), "the reserver is of another phase");
}
