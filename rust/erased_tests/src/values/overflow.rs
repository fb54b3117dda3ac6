//! Phases in blocks whose callers go past their blocks. If there is memory, opening and ending
//! succeed, which no clause can say: a body that never asks for memory and says that it ran out
//! meets them all.

use crate::allocator::{AllocError, Entities, Limits, Refused, Source};
use crate::handles::Handle;
use crate::in_blocks::{open_with_overflow, Overflow, OverflowReserver};

fn handle(index: u32, generation: u32) -> Handle {
    Handle::new(index, generation).expect("within the ranges")
}

/// Seven slots at most. Of three slots the third is alive, so the pool is 1v2, 0v2, 3v1, 4v1, 5v1,
/// 6v1.
fn allocator() -> Entities {
    let mut entities = Entities::with_limits(Limits::new(7, 9).expect("limits"));
    for index in 0..3 {
        assert_eq!(entities.alloc(), Ok(handle(index, 1)));
    }
    for index in 0..2 {
        entities.free(handle(index, 1)).expect("it is alive");
    }
    entities
}

fn open(entities: Entities, sizes: &[u32]) -> (Overflow, Vec<OverflowReserver>) {
    match open_with_overflow(entities, sizes) {
        Ok(opened) => opened,
        Err(_) => panic!("memory for {} blocks", sizes.len()),
    }
}

/// What is reserved comes to life, in this order.
fn assert_flushes(entities: &mut Entities, expected: &[Handle]) {
    let mut born = Vec::new();
    entities.flush(&mut born).expect("memory for what is born");
    assert_eq!(born, expected);
}

#[test]
fn two_callers_go_past_their_blocks() {
    let (phase, mut callers) = open(allocator(), &[2, 2]);
    assert_eq!((phase.count(), callers.len()), (2, 2));
    assert_eq!(phase.reserve(&mut callers[1]), Ok(handle(3, 1)));
    assert_eq!(phase.reserve(&mut callers[0]), Ok(handle(1, 2)));
    assert_eq!(phase.reserve(&mut callers[0]), Ok(handle(0, 2)));
    // The block is used up, and the first handle behind both comes from the shared cursor.
    assert_eq!(phase.reserve(&mut callers[0]), Ok(handle(5, 1)));
    // One is left of the block, and one behind the blocks, so two are refused. Then the pool is
    // shut.
    let many = phase.reserve_many(&mut callers[1], 2).map(Vec::from_iter);
    assert_eq!(many, Err(Refused::Space { wanted: 2, left: 1 }));
    let one = phase.reserve(&mut callers[0]);
    assert_eq!(one, Err(Refused::Space { wanted: 1, left: 0 }));
    assert_eq!(phase.reserve(&mut callers[1]), Ok(handle(4, 1)));
    let ended = phase.close(callers);
    assert_eq!(ended.requested_past(), 1 + 2 + 1);
    let Ok(mut entities) = ended.into_entities() else {
        panic!("memory for two blocks");
    };
    assert_eq!(entities.reserved(), 5);
    // The fresh ones first, then the old ones from the last block back.
    let born = [(3, 1), (4, 1), (5, 1), (0, 2), (1, 2)]
        .map(|(index, generation)| handle(index, generation));
    assert_flushes(&mut entities, &born);
    assert_eq!(entities.alloc(), Ok(handle(6, 1)));
    assert_eq!(entities.alloc(), Err(AllocError::Space));
}

#[test]
fn what_is_left_of_a_block_is_given_again() {
    let (phase, mut callers) = open(allocator(), &[2, 2]);
    let many = phase.reserve_many(&mut callers[1], 1).map(Vec::from_iter);
    assert_eq!(many, Ok(vec![handle(3, 1)]));
    let ended = phase.close(callers);
    assert_eq!(ended.requested_past(), 0);
    let Ok(mut entities) = ended.into_entities() else {
        panic!("memory for two blocks");
    };
    assert_flushes(&mut entities, &[handle(3, 1)]);
    for next in [handle(1, 2), handle(0, 2), handle(4, 1)] {
        assert_eq!(entities.alloc(), Ok(next));
    }
}

#[test]
fn lost_callers_count_as_used_up() {
    let (phase, mut callers) = open(allocator(), &[2, 1, 1]);
    assert_eq!(phase.reserve(&mut callers[2]), Ok(handle(4, 1)));
    assert_eq!(phase.reserve(&mut callers[0]), Ok(handle(1, 2)));
    // Two are behind the blocks. The lost caller is given one, and then two are refused.
    assert_eq!(phase.reserve(&mut callers[1]), Ok(handle(3, 1)));
    assert_eq!(phase.reserve(&mut callers[1]), Ok(handle(5, 1)));
    let many = phase.reserve_many(&mut callers[1], 2).map(Vec::from_iter);
    assert_eq!(many, Err(Refused::Space { wanted: 2, left: 1 }));
    drop(callers.remove(1));
    let ended = phase.close_lost(callers);
    assert_eq!(ended.requested_past(), 1 + 2);
    let Ok(mut entities) = ended.into_entities() else {
        panic!("memory for three blocks");
    };
    // Nobody got 6v1, but the refused request may have been served. 0v2 is left before the others,
    // so their slots are made.
    let born = [(6, 1), (5, 1), (4, 1), (3, 1), (1, 2)]
        .map(|(index, generation)| handle(index, generation));
    assert_flushes(&mut entities, &born);
    assert_eq!(entities.alloc(), Ok(handle(0, 2)));
    assert_eq!(entities.alloc(), Err(AllocError::Space));
}

#[test]
fn close_lost_with_all_callers() {
    let (phase, mut callers) = open(allocator(), &[2, 2]);
    for _ in 0..3 {
        phase.reserve(&mut callers[0]).expect("a handle");
    }
    let ended = phase.close_lost(callers);
    assert_eq!(ended.requested_past(), 1);
    let Ok(mut entities) = ended.into_entities() else {
        panic!("memory for two blocks");
    };
    let born = [(5, 1), (0, 2), (1, 2)].map(|(index, generation)| handle(index, generation));
    assert_flushes(&mut entities, &born);
    assert_eq!(entities.alloc(), Ok(handle(3, 1)));
}

#[test]
fn it_is_a_source() {
    let mut entities = allocator();
    entities
        .try_set_row(handle(2, 1), 7)
        .expect("memory for a row");
    let (phase, mut callers) = open(entities, &[1]);
    assert!(phase.was_alive(handle(2, 1)) && !phase.was_alive(handle(1, 2)));
    assert_eq!(phase.had_row(handle(2, 1)), Some(7));
    assert_eq!(phase.serve_one(&mut callers[0]), Ok(handle(1, 2)));
    let many = phase.serve_many(&mut callers[0], 2).map(Vec::from_iter);
    assert_eq!(many, Ok(vec![handle(0, 2), handle(3, 1)]));
    assert_eq!(phase.close(callers).requested_past(), 2);
}

#[test]
fn no_blocks_and_1023_blocks() {
    let (phase, callers) = open(allocator(), &[]);
    assert_eq!((phase.count(), callers.len()), (0, 0));
    let Ok(entities) = phase.close(callers).into_entities() else {
        panic!("no memory is needed");
    };
    let (phase, mut callers) = open(entities, &[0; 1_023]);
    assert_eq!((phase.count(), callers.len()), (1_023, 1_023));
    // No block has a handle, so all come from the shared cursor.
    assert_eq!(phase.reserve(&mut callers[1_022]), Ok(handle(1, 2)));
    assert_eq!(phase.reserve(&mut callers[0]), Ok(handle(0, 2)));
    let ended = phase.close(callers);
    assert_eq!(ended.requested_past(), 2);
    let Ok(mut entities) = ended.into_entities() else {
        panic!("memory for 1,024 blocks");
    };
    assert_flushes(&mut entities, &[handle(0, 2), handle(1, 2)]);
}
