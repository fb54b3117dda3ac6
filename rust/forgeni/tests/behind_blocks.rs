//! Phases in blocks whose reservers go on past them: what is refused at a close, and what is left
//! then. What such a phase gives is tested with its proved source
//! (`rust/erased_tests/src/values/overflow.rs`).

use forgeni::{
    BlockSize, Blocks, CloseError, ComponentId, Deals, EndedWorld, Entities, Entry, Handle,
    InBlocks, InWorld, Log, LogCommands, Overflow, Phase, Phased, Refused, ReserveError, Reserver,
    Reservers, ShareError, World,
};
use std::panic::{catch_unwind, AssertUnwindSafe};

type Parts = (Phase<Overflow>, Vec<Reserver<Overflow>>);

fn opened(sizes: &[u32]) -> Parts {
    let opened = Entities::new().share_in::<Overflow>(sizes);
    opened.expect("memory")
}

fn indexes(handles: impl IntoIterator<Item = Handle>) -> Vec<u32> {
    handles.into_iter().map(Handle::index).collect()
}

/// The indexes of what is born, and how many handles were requested past the blocks.
fn closed((phase, reservers): Parts) -> (Vec<u32>, u64) {
    let ended = phase.close(reservers).expect("all are here");
    let past = ended.requested_past();
    let mut entities = ended.into_entities().expect("memory");
    let mut born = Vec::new();
    entities.flush(&mut born).expect("memory");
    (indexes(born), past)
}

#[test]
fn each_way_to_reserve_goes_on() {
    let (phase, mut reservers) = opened(&[2, 3]);
    let [one, other] = reservers.as_mut_slice() else {
        panic!("two reservers");
    };
    let mut list = other.reserve_many(2).expect("of the block");
    assert_eq!(indexes(list.drain(..)), [2, 3]);
    // One is left of the block, so two come from behind all blocks.
    other.reserve_into(&mut list, 2).expect("past the block");
    assert_eq!(indexes(list), [5, 6]);
    assert_eq!((other.size(), other.used(), other.left()), (3, 2, 1));
    let mut log: Log<()> = Log::new();
    for index in [0, 1, 7] {
        assert_eq!(log.spawn(one).expect("a handle").index(), index);
    }
    let pool = Reservers::new(reservers).expect("memory");
    let last = pool.with(|reserver| reserver.reserve().expect("a handle"));
    let past = u64::from(last.index() != 4);
    assert_eq!(last.index(), if past == 0 { 4 } else { 8 });
    let (born, requested) = closed((phase, pool.into_inner()));
    assert_eq!((born.len(), requested), (8, 3 + past));
}

#[test]
fn reservers_out_of_order_are_kept_and_taken_back() {
    let (phase, mut reservers) = opened(&[1, 2, 3]);
    for reserver in &mut reservers {
        reserver.reserve().expect("of the block");
    }
    reservers.swap(0, 1);
    let refused = phase.close(reservers).expect_err("the order is wrong");
    let ((mut phase, none), error) = refused.into_parts();
    assert_eq!(
        (error, none.len(), phase.returned()),
        (CloseError::Order, 0, 3)
    );
    let mut reservers: Vec<_> = (0..3)
        .map(|_| {
            phase
                .reserver()
                .expect("few owners")
                .expect("it is returned")
        })
        .collect();
    assert!(phase.reserver().is_ok_and(|it| it.is_none()));
    reservers.sort_by_key(|it| it.size());
    assert_eq!(closed((phase, reservers)), (vec![3, 1, 0], 0));
}

#[test]
fn reservers_of_another_phase_missing_and_in_use() {
    let (phase, mut reservers) = opened(&[1, 1]);
    let (other, others) = opened(&[1, 1]);
    assert!(reservers[0].is_of(&phase) && !reservers[0].is_of(&other));
    let ((phase, others), error) = phase.close(others).expect_err("others").into_parts();
    assert_eq!((error, others.len()), (CloseError::OtherPhase, 2));
    let last = reservers.pop();
    let ((phase, reservers), error) = phase.close(reservers).expect_err("one").into_parts();
    assert_eq!(
        (error, reservers.len()),
        (CloseError::Missing { count: 1 }, 1)
    );
    let ((phase, none), error) = phase.close_lost(reservers).expect_err("used").into_parts();
    assert_eq!(
        (error, none.len(), phase.returned()),
        (CloseError::InUse, 0, 1)
    );
    drop(last);
    // What is left of a lost one's block counts as used.
    let ended = phase.close_lost(Vec::new()).expect("nobody else has one");
    let mut entities = ended.into_entities().expect("memory");
    let mut born = Vec::new();
    entities.flush(&mut born).expect("memory");
    assert_eq!(indexes(born), [1]);
    assert_eq!(closed((other, others)), (vec![], 0));
}

#[test]
fn what_was_alive_and_what_is_refused() {
    let mut entities = Entities::new();
    let old = entities.alloc().expect("a handle");
    entities.try_set_row(old, 3).expect("memory");
    let refused = entities
        .share_in::<Overflow>(&[0; 1_024])
        .expect_err("a block too many");
    let (entities, error) = refused.into_parts();
    assert_eq!(error, ShareError::Count);
    let (phase, mut reservers) = entities.share_in::<Overflow>(&[0; 1_023]).expect("memory");
    assert_eq!(
        (phase.count(), phase.entities().len(), reservers.len()),
        (1_023, 1, 1_023)
    );
    let new = reservers[1_022].reserve().expect("past the block");
    for is_alive in [
        phase.entities().is_alive(old),
        reservers[0].entities().is_alive(old),
        !phase.entities().is_alive(new),
    ] {
        assert!(is_alive);
    }
    assert_eq!(
        (phase.entities().row(old), reservers[0].entities().row(new)),
        (Some(3), None)
    );
    assert!(phase.entities().iter().eq([old]) && reservers[0].entities().iter().eq([old]));
    let ended = phase.close(reservers).expect("all are here");
    // What was reserved is given again.
    let mut entities = ended.cancel();
    assert_eq!((entities.reserved(), entities.alloc()), (0, Ok(new)));
    let _reserved = entities.request();
    let refused = entities
        .share_in::<Overflow>(&[1])
        .expect_err("it needs a flush");
    assert_eq!(refused.error(), &ShareError::NeedsFlush);
}

/// Spawns three, and enters a number for each. It fails, or panics, behind the second one.
fn three(last: Last) -> impl Fn(&mut LogCommands<'_, u32, Overflow>) -> Result<(), Failed> {
    move |out| {
        for number in 0..3 {
            match (number, last) {
                (2, Last::Fails) => return Err(Failed),
                (2, Last::Panics) => panic!("as planned"),
                _ => {}
            }
            out.spawn()?;
            out.push(number).expect("memory");
        }
        Ok(())
    }
}

#[derive(Clone, Copy)]
enum Last {
    Spawns,
    Fails,
    Panics,
}

#[derive(Debug, PartialEq)]
struct Failed;

impl From<ReserveError> for Failed {
    fn from(_: ReserveError) -> Self {
        Failed
    }
}

#[test]
fn a_log_has_what_its_last_system_entered() {
    let (phase, mut reservers) = opened(&[4]);
    let mut log = Log::new();
    let mine = &mut reservers[0];
    assert_eq!(mine.fill(&mut log, &three(Last::Spawns)), Ok(()));
    assert_eq!((log.len(), mine.used()), (6, 3));

    // What it had is dropped. One handle is left of the block, and one comes from past it.
    assert_eq!(mine.fill(&mut log, &three(Last::Fails)), Err(Failed));
    assert_eq!((log.len(), mine.used(), mine.requested_past()), (4, 4, 1));
    let spawned = log.entries().iter().filter_map(|entry| match entry {
        Entry::Spawn(handle) => Some(handle.index()),
        _ => None,
    });
    assert!(spawned.eq([3, 4]));

    // A panic leaves an empty log, and what was reserved stays reserved.
    let panicked = catch_unwind(AssertUnwindSafe(|| {
        mine.fill(&mut log, &three(Last::Panics))
    }));
    assert!(panicked.is_err() && log.is_empty());
    assert_eq!(mine.requested_past(), 3);
    let (born, past) = closed((phase, reservers));
    assert_eq!((born.len(), past), (7, 3));
}

const AGE: ComponentId = ComponentId(0);

type PartsOf<S> = (Phase<S>, Vec<Reserver<S>>);

/// A world with two entities and a slot that waits.
fn world() -> (World, [Handle; 2]) {
    let mut world = World::new();
    let [old, other, gone] = [80, 81, 82].map(|age| world.spawn(&[(AGE, age)]).expect("a slot"));
    world.despawn(gone).expect("alive");
    (world, [old, other])
}

#[test]
fn a_world_whose_spawns_go_past_the_blocks() {
    let (world, [old, other]) = world();
    let (phase, mut reservers) = world.open_in::<Overflow>(&[2, 3]).expect("memory");
    assert_eq!((phase.count(), phase.entities().len()), (2, 2));
    assert_eq!(phase.view().get(old, AGE), Some(80));
    assert!(
        phase.entities().is_alive(old)
            && reservers[0].entities().is_alive(old)
            && phase.entities().iter().eq([old, other])
    );
    let [one, two] = reservers.as_mut_slice() else {
        panic!("two reservers");
    };
    // The slot that waits is the first one of the first block.
    assert_eq!(indexes(one.reserve_many(2).expect("of the block")), [2, 3]);
    assert_eq!(indexes(two.reserve_many(2).expect("of the block")), [4, 5]);
    assert_eq!((one.used(), one.left()), (2, 0));
    // One is left of the second block. So two come from behind all blocks, and so does each later
    // one of the first reserver.
    assert_eq!(indexes(two.reserve_many(2).expect("past it")), [7, 8]);
    assert_eq!(one.reserve().map(Handle::index), Ok(9));
    assert_eq!((one.wanted(), two.wanted(), two.left()), (3, 4, 1));
    assert_eq!((one.requested_past(), two.requested_past()), (1, 2));
    let mut sizes = [BlockSize::new(1_000); 2];
    adapt(&mut sizes, &reservers);
    assert_eq!(sizes.map(|it| it.size()), [64, 64]);

    let ended = phase.close(reservers).expect("all are here");
    assert_eq!(ended.requested_past(), 3);
    assert_eq!(format!("{ended:?}"), "EndedWorld { requested_past: 3, .. }");
    let mut world = ended.into_world().expect("memory");
    assert!(world.needs_flush() && world.get(old, AGE) == Some(80));
    world.flush().expect("memory");
    assert_eq!(world.len(), 2 + 7);
    // What was left of the blocks is given next.
    assert_eq!(world.spawn(&[]).map(Handle::index), Ok(6));
}

/// The sizes that the next frame should have, of either kind of blocks.
fn adapt<S: InBlocks>(sizes: &mut [BlockSize], reservers: &[Reserver<S>]) {
    for (size, reserver) in sizes.iter_mut().zip(reservers) {
        size.adapt(reserver.wanted());
    }
}

/// Past the last handle all are refused, and the reserver says what it wanted.
#[test]
fn a_world_without_more_handles() {
    let world = World::with_limits(forgeni::Limits::new(5, 1).expect("limits"));
    let (phase, mut reservers) = world.open_in::<Overflow>(&[2, 2]).expect("memory");
    let [one, two] = reservers.as_mut_slice() else {
        panic!("two reservers");
    };
    assert_eq!(one.reserve_many(2).map(|it| it.len()), Ok(2));
    assert_eq!(one.reserve().map(Handle::index), Ok(4));
    assert!(matches!(
        one.reserve(),
        Err(Refused::Space { wanted: 1, left: 0 })
    ));
    assert!(one.reserve_many(9).is_err());
    assert_eq!(one.wanted(), 13);
    // Its own block is there for the other one.
    assert_eq!(indexes(two.reserve_many(2).expect("of the block")), [2, 3]);
    let ended = phase.close(reservers).expect("all are here");
    assert_eq!(ended.requested_past(), 11);
    let mut world = ended.into_world().expect("memory");
    world.flush().expect("memory");
    assert_eq!(world.len(), 5);
}

#[test]
fn a_world_that_is_not_opened_behind_blocks() {
    let (world, [old, _]) = world();
    let (world, error) = world
        .open_in::<Overflow>(&[0; 1_024])
        .expect_err("a block too many")
        .into_parts();
    assert_eq!((error, world.len()), (ShareError::Count, 2));
    let (phase, reservers) = world.open_in::<Overflow>(&[1; 1_023]).expect("memory");
    let mut world = phase.close(reservers).expect("all are here").cancel();
    assert!(world.contains(old) && !world.needs_flush());
    // Blocks that refuse may be any number.
    let (phase, mut reservers) = world.open_in::<Blocks>(&[1; 1_100]).expect("memory");
    assert_eq!(reservers[1_099].reserve().map(Handle::index), Ok(1_101));
    let ended = phase.close(reservers).expect("all are here");
    world = ended.into_world().expect("memory");
    for sizes in [&[1][..], &[0; 1_024]] {
        let unopened = world
            .open_in::<Overflow>(sizes)
            .expect_err("it needs a flush");
        let error;
        (world, error) = unopened.into_parts();
        assert_eq!(error, ShareError::NeedsFlush);
    }
    world.flush().expect("memory");
    assert_eq!(world.len(), 3);
}

/// One function for an allocator and for a world, of either kind of blocks: each reserver takes its
/// block, and one more.
fn all_and_one<S: InBlocks>((phase, mut reservers): PartsOf<S>) -> (S::Closed, [usize; 2]) {
    let (mut served, mut refused) = (0, 0);
    for reserver in &mut reservers {
        let many = reserver
            .reserve_many(reserver.left())
            .expect("of the block");
        served += many.len();
        assert_eq!((reserver.used(), reserver.left()), (reserver.size(), 0));
        match reserver.reserve() {
            Ok(_) => served += 1,
            Err(_) => refused += 1,
        }
        assert_eq!(reserver.wanted(), reserver.size() + 1);
    }
    let ended = phase.close(reservers).expect("all are here");
    (ended, [served, refused])
}

#[test]
fn one_function_for_all_kinds_of_blocks() {
    fn past<S: Deals>(of: S::Closed) -> u64 {
        of.requested_past()
    }
    let sizes = [3, 0, 4];
    let parts = Entities::new().share_in::<Blocks>(&sizes).expect("memory");
    let (ended, counts) = all_and_one(parts);
    assert_eq!((past::<Blocks>(ended), counts), (0, [7, 3]));
    let parts = Entities::new()
        .share_in::<Overflow>(&sizes)
        .expect("memory");
    let (ended, counts) = all_and_one(parts);
    assert_eq!((past::<Overflow>(ended), counts), (3, [10, 0]));
    let (ended, counts) = all_and_one(World::new().open_in::<Blocks>(&sizes).expect("memory"));
    assert_eq!((ended.requested_past(), counts), (0, [7, 3]));
    let (ended, counts) = all_and_one(World::new().open_in::<Overflow>(&sizes).expect("memory"));
    assert_eq!((ended.requested_past(), counts), (3, [10, 0]));
}

/// A log is filled with handles of a world's blocks, and a pool lends its reservers.
#[test]
fn logs_and_pools_of_a_world_in_blocks() {
    fn burst<S: Phased>(mine: &mut Reserver<S>, log: &mut Log<u32>) {
        let fills = |out: &mut LogCommands<'_, u32, S>| -> Result<(), Failed> {
            out.spawn()?;
            out.push(7).expect("memory");
            Ok(())
        };
        assert_eq!(mine.fill(log, &fills), Ok(()));
    }
    let (phase, mut reservers) = World::new().open_in::<Overflow>(&[1, 1]).expect("memory");
    let mut log = Log::new();
    for wanted in [1, 2] {
        burst::<InWorld<Overflow>>(&mut reservers[0], &mut log);
        assert_eq!((log.len(), reservers[0].wanted()), (2, wanted));
    }
    let pool = Reservers::new(reservers).expect("memory");
    let given = pool.with(|mine| mine.reserve().expect("a handle"));
    assert!([1, 3].contains(&given.index()));
    let ended = phase.close(pool.into_inner()).expect("all are here");
    let mut world = ended.into_world().expect("memory");
    world.flush().expect("memory");
    assert_eq!(world.len(), 3);
}

/// Any thread may have them, and read a phase that others reserve in.
#[test]
fn they_go_to_any_thread() {
    fn goes<T: Send + Sync>() {}
    goes::<PartsOf<Blocks>>();
    goes::<PartsOf<Overflow>>();
    goes::<PartsOf<InWorld<Blocks>>>();
    goes::<PartsOf<InWorld<Overflow>>>();
    goes::<EndedWorld>();
    let (phase, mut reservers) = world().0.open_in::<Blocks>(&[4; 3]).expect("memory");
    let (phase, seen) = (&phase, std::sync::atomic::AtomicUsize::new(0));
    std::thread::scope(|scope| {
        for mine in &mut reservers {
            scope.spawn(|| {
                mine.reserve_many(3).expect("of the block");
                let count = phase.view().by_birth().expect("memory").len();
                seen.fetch_add(count, std::sync::atomic::Ordering::Relaxed);
            });
        }
    });
    assert_eq!(seen.into_inner(), 3 * 2);
    // Each has its own block, whichever thread came first.
    let nexts = reservers
        .iter_mut()
        .map(|it| it.reserve().expect("one is left").index());
    assert_eq!(nexts.collect::<Vec<_>>(), [5, 9, 13]);
    let shown = format!("{:?} {:?}", phase, reservers[0]);
    let expected = "Phase { count: 3, returned: 0, .. } Reserver { size: 4, used: 4, .. }";
    assert_eq!(shown, expected);
}
