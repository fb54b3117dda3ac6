//! Worked examples, written by hand.

use forgeni::{AllocError, Entities, FreeError, Freed, Handle, Limits, Refused, State};
use std::collections::HashSet;
use std::mem::size_of;

/// The refusal of a request for one handle.
const NONE_LEFT: Refused = Refused::Space { wanted: 1, left: 0 };

/// What a flush brings to life.
fn flushed(entities: &mut Entities) -> Vec<Handle> {
    let mut born = vec![];
    entities.flush(&mut born).expect("memory");
    born
}

fn handle(index: u32, generation: u32) -> Handle {
    Handle::new(index, generation).expect("a handle")
}

fn small(slots: u32, generations: u32) -> Entities {
    Entities::with_limits(Limits::new(slots, generations).expect("limits"))
}

#[test]
fn slots_are_used_again_last_freed_first() {
    let mut entities = Entities::new();
    assert!(entities.is_empty());
    let all: Vec<Handle> = (0..3)
        .map(|_| entities.alloc().expect("a handle"))
        .collect();
    assert_eq!(all, [handle(0, 1), handle(1, 1), handle(2, 1)]);
    assert_eq!(
        entities.free(all[0]),
        Ok(Freed {
            next: Some(handle(0, 2))
        })
    );
    assert_eq!(
        entities.free(all[2]),
        Ok(Freed {
            next: Some(handle(2, 2))
        })
    );
    assert_eq!(entities.free(all[2]), Err(FreeError::NotAlive));
    assert_eq!(
        (entities.len(), entities.total(), entities.top()),
        (1, 3, 2)
    );
    assert_eq!(entities.alloc(), Ok(handle(2, 2)));
    assert_eq!(entities.alloc(), Ok(handle(0, 2)));
    assert_eq!(entities.alloc(), Ok(handle(3, 1)));
}

#[test]
fn states() {
    let mut entities = Entities::new();
    let alive = entities.alloc().expect("a handle");
    let reserved = entities.request().expect("a handle");
    assert_eq!(entities.state(alive), State::Alive);
    assert_eq!(entities.state(reserved), State::Reserved);
    assert_eq!(entities.state(handle(1, 2)), State::Gone);
    assert_eq!(
        entities.state(handle(4_294_967_294, 2_147_483_647)),
        State::Gone
    );
    assert!(entities.contains(alive) && entities.contains(reserved));
    assert!(!entities.contains(handle(1, 2)));
    assert!(entities.is_alive(alive));
    assert!(!entities.is_alive(reserved) && !entities.is_alive(handle(1, 2)));
}

#[test]
fn the_last_generation_retires_its_slot() {
    let mut entities = small(1, 1);
    let only = entities.alloc().expect("a handle");
    assert_eq!(entities.alloc(), Err(AllocError::Space));
    assert_eq!(entities.free(only), Ok(Freed { next: None }));
    assert_eq!(entities.retired(), 1);
    assert_eq!(entities.alloc(), Err(AllocError::Space));
    assert_eq!(entities.request(), Err(NONE_LEFT));
    assert_eq!(entities.alloc(), Err(AllocError::NeedsFlush));
    assert_eq!(flushed(&mut entities), vec![]);
    assert_eq!(entities.alloc(), Err(AllocError::Space));
}

#[test]
fn requests_live_after_a_flush() {
    let mut entities = small(5, 9);
    let first = entities.alloc().expect("a handle");
    entities.free(first).expect("freed");
    let wished: Vec<_> = (0..3).map(|_| entities.request()).collect();
    assert_eq!(
        wished,
        [Ok(handle(0, 2)), Ok(handle(1, 1)), Ok(handle(2, 1))]
    );
    assert_eq!(
        (entities.asked(), entities.reserved(), entities.len()),
        (3, 3, 0)
    );
    assert!(entities.needs_flush());
    assert_eq!(entities.alloc(), Err(AllocError::NeedsFlush));
    assert_eq!(entities.free(first), Err(FreeError::NeedsFlush));
    // The handles of new slots come first.
    assert_eq!(
        flushed(&mut entities),
        vec![handle(1, 1), handle(2, 1), handle(0, 2)]
    );
    assert!(!entities.needs_flush());
    assert_eq!(
        (entities.len(), entities.total(), entities.room()),
        (3, 3, 2)
    );
}

#[test]
fn a_refused_request_shuts_the_pool_until_the_flush() {
    let mut entities = small(1, 9);
    assert_eq!(entities.request(), Ok(handle(0, 1)));
    assert_eq!(entities.request(), Err(NONE_LEFT));
    assert_eq!((entities.asked(), entities.reserved()), (2, 1));
    assert_eq!(flushed(&mut entities), vec![handle(0, 1)]);
    assert!(!entities.needs_flush());
}

#[test]
fn many_come_and_go() {
    let mut entities = Entities::new();
    let first: Vec<Handle> = (0..3000)
        .map(|_| entities.alloc().expect("a handle"))
        .collect();
    assert_eq!(first.iter().collect::<HashSet<_>>().len(), 3000);
    for one in &first {
        entities.free(*one).expect("freed");
    }
    assert!(entities.is_empty());
    let second: Vec<Handle> = (0..3000)
        .map(|_| entities.alloc().expect("a handle"))
        .collect();
    let reversed: Vec<Handle> = first.iter().rev().map(|h| handle(h.index(), 2)).collect();
    assert_eq!(second, reversed);
}

#[test]
fn handles() {
    assert_eq!(size_of::<Handle>(), 8);
    assert_eq!(size_of::<Option<Handle>>(), 8);
    assert_eq!(handle(7, 2).to_string(), "7v2");
    assert_eq!((handle(7, 2).index(), handle(7, 2).generation()), (7, 2));
    assert_eq!(handle(7, 2).to_bits(), 8_589_934_599);
    assert_eq!(Handle::from_bits(8_589_934_599), Some(handle(7, 2)));
    assert_eq!(Handle::from_bits(7), None);
    assert_eq!(Handle::from_bits(u64::MAX), None);
    assert_eq!(Handle::new(0, 0), None);
    assert_eq!(Handle::new(u32::MAX, 1), None);
    assert_eq!(Handle::new(0, 1 << 31), None);
    assert!(handle(0, 9) < handle(1, 1) && handle(1, 1) < handle(1, 2));
}

#[test]
fn limits() {
    assert_eq!(Limits::new(0, 1), None);
    assert_eq!(Limits::new(1, 0), None);
    assert_eq!(Limits::new(1, 1 << 31), None);
    assert_eq!(Limits::new(u32::MAX, (1 << 31) - 1), Some(Limits::GREATEST));
    assert_eq!(Limits::default(), Limits::GREATEST);
}

#[test]
fn errors_say_why() {
    assert_eq!(AllocError::Space.to_string(), "no slot is free");
    assert_eq!(FreeError::NotAlive.to_string(), "the entity is not alive");
    assert_eq!(NONE_LEFT.to_string(), "1 wanted and 0 left");
    let boxed: Box<dyn std::error::Error> = Box::new(AllocError::NeedsFlush);
    assert_eq!(boxed.to_string(), "a flush is needed first");
}

#[test]
fn places_in_the_pool() {
    let mut entities = small(4, 9);
    let all = entities.alloc_many(3).expect("handles");
    for one in &all[..2] {
        entities.free(*one).expect("alive");
    }
    assert_eq!((entities.left(), entities.cursor()), (3, 2));
    let pool = [handle(1, 2), handle(0, 2), handle(3, 1)];
    // A request moves the cursor. The places stay until the flush.
    for (given, left) in pool.iter().zip([3, 2, 1]) {
        assert_eq!(entities.left(), left);
        assert_eq!(
            pool.map(|one| entities.place(one)),
            [Some(0), Some(1), Some(2)]
        );
        assert_eq!(entities.request(), Ok(*given));
    }
    assert_eq!((entities.left(), entities.cursor()), (0, -1));
    for other in [all[0], all[2], handle(3, 2)] {
        assert_eq!(entities.place(other), None);
    }
}

#[test]
fn an_iterator_goes_on_where_its_clone_does() {
    let mut entities = small(9, 1);
    let all = entities.alloc_many(3).expect("handles");
    let mut living = entities.iter();
    assert_eq!(living.next(), Some(all[0]));
    let mut other = living.clone();
    assert!(other.by_ref().eq([all[1], all[2]]));
    assert_eq!((other.next(), living.len()), (None, 2));
    assert!(living.eq([all[1], all[2]]));
}

/// Each allocator has its own state, in whatever order they are dropped.
#[test]
fn dropped_in_any_order() {
    let mut all: Vec<Entities> = (0..10).map(|_| small(100, 3)).collect();
    for (count, entities) in all.iter_mut().enumerate() {
        for _ in 0..count * 10 {
            entities.alloc().expect("a handle");
        }
    }
    drop(all.remove(0));
    drop(all.swap_remove(4));
    drop(all.pop());
    let mut sizes: Vec<u32> = all.iter().map(Entities::len).collect();
    sizes.sort_unstable();
    assert_eq!(sizes, [10, 20, 30, 40, 60, 70, 90]);
    let moved = std::mem::replace(&mut all[0], Entities::new());
    assert!(all[0].is_empty());
    drop(all);
    assert_eq!(moved.len(), 10);
}

/// A row takes all of its 32 bits, beside an entity without one.
#[test]
fn rows_of_every_size() {
    let mut entities = Entities::new();
    let bare = entities.alloc().unwrap();
    let one = entities.alloc().unwrap();
    for row in [0, 1, u32::MAX - 1, u32::MAX, 0] {
        entities.try_set_row(one, row).expect("alive");
        assert_eq!((entities.row(one), entities.row(bare)), (Some(row), None));
        assert!(entities.is_alive(one) && entities.contains(one));
    }
    entities.try_set_row(one, u32::MAX).expect("alive");
    let next = entities.free(one).unwrap().next.unwrap();
    assert!(!entities.is_alive(one) && entities.row(one).is_none());
    assert_eq!(entities.alloc(), Ok(next));
    assert_eq!((entities.row(next), entities.len()), (None, 2));
    assert!(entities.iter().eq([bare, next]));
}
