//! What a reserver lists, what it asks of a list, and what is read of an allocator while it is
//! shared.

use crate::common::{flushed, handle, small};
use forgeni::{Entities, Handle, Phase, ReserveError, Reserver};

fn shared(entities: Entities, callers: usize) -> (Phase, Vec<Reserver>) {
    entities.share(callers).expect("shared")
}

/// A list keeps its room as long as it suffices.
#[test]
fn a_list_with_room() {
    let (_shared, mut reservers) = shared(Entities::new(), 1);
    let mut list = Vec::with_capacity(64);
    let room = list.capacity();
    for round in 1..=8 {
        assert_eq!(reservers[0].reserve_into(&mut list, 8), Ok(()));
        assert_eq!((list.len(), list.capacity()), (8 * round, room));
    }
    assert!(list
        .iter()
        .copied()
        .eq((0..64).map(|index| handle(index, 1))));
    reservers[0].reserve_into(&mut list, 1).expect("memory");
    assert!(list.capacity() > room);
}

/// A list without room stays without it if the request can't be served.
#[test]
fn a_list_without_room() {
    let (_shared, mut reservers) = shared(small(5, 1), 2);
    let mut list = Vec::new();
    let refused = reservers[0].reserve_into(&mut list, 6);
    assert_eq!(refused, Err(ReserveError::Space { wanted: 6, left: 5 }));
    assert_eq!((list.len(), list.capacity()), (0, 0));
    // The pool is shut, which only the step tells. So there is room now, and no handle.
    let refused = reservers[1].reserve_into(&mut list, 5);
    assert_eq!(refused, Err(ReserveError::Space { wanted: 5, left: 0 }));
    assert!(list.is_empty() && list.capacity() >= 5);
    assert_eq!(reservers[1].reserve_into(&mut list, 0), Ok(()));
    assert_eq!(reservers[1].quota_left(), (1 << 40) - 5);
}

/// All that the pool has is one request's.
#[test]
fn the_whole_pool() {
    let (shared, mut reservers) = shared(small(5, 1), 1);
    let all: Vec<Handle> = (0..5).map(|index| handle(index, 1)).collect();
    assert_eq!(reservers[0].reserve_many(5), Ok(all.clone()));
    let refused = reservers[0].reserve_many(1);
    assert_eq!(refused, Err(ReserveError::Space { wanted: 1, left: 0 }));
    let mut entities = shared.close(reservers).expect("closed");
    assert_eq!(flushed(&mut entities), all);
}

/// Of the allocator it is read what lived as the phase was opened, by any thread, whatever is
/// reserved.
#[test]
fn what_lived_at_the_opening() {
    let mut entities = small(9, 3);
    let mut living: Vec<Handle> = (0..6).map(|_| entities.alloc().expect("room")).collect();
    entities.free(living.remove(2)).expect("alive");
    let (shared, mut reservers) = shared(entities, 3);
    assert_eq!(
        (shared.entities().len(), shared.entities().is_empty()),
        (5, false)
    );
    std::thread::scope(|scope| {
        for one in &mut reservers {
            scope.spawn(|| {
                one.reserve().expect("a handle");
                assert!(one.entities().iter().eq(living.iter().copied()));
                assert!(shared.entities().iter().eq(living.iter().copied()));
                assert_eq!(shared.entities().iter().len(), 5);
            });
        }
    });
    let mut entities = shared.close(reservers).expect("closed");
    flushed(&mut entities);
    assert_eq!(entities.len(), 8);
}

#[test]
fn nothing_lived_at_the_opening() {
    let (shared, reservers) = shared(Entities::new(), 1);
    assert_eq!(
        (shared.entities().len(), shared.entities().is_empty()),
        (0, true)
    );
    assert_eq!(
        (
            shared.entities().iter().next(),
            reservers[0].entities().iter().next()
        ),
        (None, None)
    );
}

/// Each number of callers has its reservers, and none is returned.
#[test]
fn all_are_given_out() {
    for callers in 1..=1024 {
        let (shared, reservers) = shared(Entities::new(), callers);
        assert_eq!((shared.count(), shared.returned()), (callers, 0));
        assert!(reservers.iter().map(|one| one.number()).eq(0..callers));
        assert!(shared.close(reservers).is_ok());
    }
}
