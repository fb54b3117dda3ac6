//! What no line of a case writes: a request of four thousand million handles, and a list with room.

use crate::allocator::{Entities, Limits, Span};
use crate::handles::Handle;

#[test]
fn the_greatest_limits() {
    let mut entities = Entities::with_limits(Limits::default_limits());
    assert!(entities.room() == u32::MAX && entities.top() == 0);
    assert!(!entities.needs_flush() && entities.is_empty());
    let reserved = entities
        .reply(Span::new(0, u32::MAX))
        .expect("all are left");
    assert_eq!(reserved.len(), 4_294_967_295);
    entities.settle(-5, -5);
    assert_eq!(entities.cursor(), -5);
    assert_eq!(entities.asked(), 5);
}

// For how many slots there is room stands in no contract, so only a test sees that a flush which
// finds room for all of them isn't refused.
#[test]
fn a_flush_with_room_for_its_slots_is_not_refused() {
    for room in [0, 64] {
        assert_flushes_one_by_one(room);
    }
}

fn assert_flushes_one_by_one(room: usize) {
    let mut entities = Entities::with_limits(Limits::default_limits());
    let mut out = Vec::with_capacity(room);
    // Room is made for more than one slot at a time, so most of these flushes find some.
    for index in 0..20 {
        entities.lower(1);
        entities.flush(&mut out).expect("memory for the born");
        assert_eq!(out.last().copied(), Handle::new(index, 1));
    }
    assert_eq!(out.len(), 20);
    assert!(entities.len() == 20 && entities.total() == 20);
}
