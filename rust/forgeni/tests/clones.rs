//! Clones of an allocator, and what is read from its image: each goes on by the rules, whatever
//! happens to the other.

use crate::common::{flushed, handle, seeds, small, Model, Numbers};
use forgeni::{AllocError, Birth, ComponentId, Entities, Handle, Limits, Queues, State};
use forgeni::{SyncError, World};

/// Two allocators with other limits, each with its model. A call goes to one of them, and now and
/// then one takes over the state of the other, is its clone, or is read from its own image.
fn run(seed: u64, steps: u32) {
    let mut numbers = Numbers::of(seed);
    let mut both = [(); 2].map(|()| {
        let slots = 1 + numbers.below(8) as u32;
        let generations = 1 + numbers.below(4) as u32;
        (small(slots, generations), Model::new(slots, generations))
    });
    for step in 0..steps {
        let place = format!("seed {seed}, step {step}");
        let at = numbers.below(2) as usize;
        let any = handle(numbers.below(9) as u32, 1 + numbers.below(5) as u32);
        match numbers.below(13) {
            0 => both[at] = both[1 - at].clone(),
            1 => {
                let [one, other] = &mut both;
                one.0.try_clone_from(&other.0).expect("memory");
                one.1 = other.1.clone();
            }
            2 => both[at].0 = Entities::read_image(&image(&both[at].0)).expect(&place),
            call => act(&mut both[at], call - 1, any, &mut numbers, &place),
        }
        let [one, other] = [0, 1].map(|at| {
            let mut model = both[at].1.clone();
            model.live.sort_unstable();
            model
        });
        assert_eq!(both[0].0 == both[1].0, one == other, "{place}");
        for (entities, model) in &both {
            assert_eq!(entities.state(any), model.state(any), "{place}");
            model.expect(entities, &place);
        }
    }
}

fn act(
    (entities, model): &mut (Entities, Model),
    call: u64,
    any: Handle,
    numbers: &mut Numbers,
    place: &str,
) {
    match call {
        2..=5 => assert_eq!(entities.alloc(), model.alloc(), "{place}: alloc"),
        6 => assert_eq!(entities.free(any), model.free(any), "{place}: free {any}"),
        7 | 8 if !model.live.is_empty() => {
            let one = model.live[numbers.below(model.live.len() as u64) as usize];
            assert_eq!(entities.free(one), model.free(one), "{place}: free {one}");
        }
        9 | 10 => {
            let n = numbers.below(4) as u32;
            assert_eq!(entities.request_many(n), model.reserve(n), "{place}: {n}");
        }
        _ => assert_eq!(flushed(entities), model.flush(), "{place}: flush"),
    }
}

#[test]
fn random_calls_to_clones() {
    seeds(20_000, |seed| run(seed, 80));
    seeds(200, |seed| run(seed, 1_000));
}

/// Allocators with rows are equal if they have one image.
#[test]
fn equal_allocators() {
    seeds(3_000, |seed| {
        let mut numbers = Numbers::of(seed);
        let mut both = [(); 2].map(|()| small(3, 1 + numbers.below(2) as u32));
        for step in 0..40 {
            let at = numbers.below(2) as usize;
            let one = both[at].iter().last().unwrap_or(handle(0, 1));
            let entities = &mut both[at];
            match numbers.below(7) {
                0 => both[1 - at] = entities.clone(),
                1 => drop(entities.alloc()),
                2 => drop(entities.free(one)),
                3 => drop(entities.request_many(1 + numbers.below(4) as u32)),
                4 => drop(flushed(entities)),
                _ => drop(entities.try_set_row(one, numbers.below(2) as u32)),
            }
            let alike = image(&both[0]) == image(&both[1]);
            assert_eq!(both[0] == both[1], alike, "seed {seed}, step {step}");
        }
    });
}

fn image(entities: &Entities) -> Vec<u8> {
    let mut image = vec![];
    entities.write_image(&mut image).expect("memory");
    image
}

/// An allocator of which every third slot waits and every second living entity has a row. As many
/// handles are requested as slots wait, and two more.
fn mixed(slots: u32) -> Entities {
    let mut entities = Entities::new();
    for handle in entities.alloc_many(slots).expect("memory") {
        let index = handle.index();
        match index % 6 {
            0 | 3 => {
                entities.free(handle).expect("alive");
            }
            1 | 5 => entities.try_set_row(handle, index + 7).expect("alive"),
            _ => {}
        }
    }
    entities.request_many(slots.div_ceil(3)).expect("handles");
    entities.request_many(2).expect("handles");
    entities
}

/// The row that `mixed` sets.
fn row(index: u32) -> Option<u32> {
    matches!(index % 6, 1 | 5).then_some(index + 7)
}

/// Compares with what `mixed` makes.
fn expect_mixed(entities: &Entities, slots: u32) {
    let waiting = slots.div_ceil(3);
    assert_eq!((entities.total(), entities.top()), (slots, waiting));
    assert_eq!(entities.asked(), u64::from(waiting) + 2);
    assert_eq!(entities.reserved(), waiting + 2);
    let living = (0..slots).filter(|index| index % 3 != 0);
    assert!(entities.iter().eq(living.map(|index| handle(index, 1))));
    for index in 0..slots {
        assert_eq!(entities.row(handle(index, 1)), row(index), "{index}");
    }
    assert_eq!(entities.state(handle(slots + 1, 1)), State::Reserved);
    assert_eq!(entities.state(handle(slots + 2, 1)), State::Gone);
}

/// The flush of what `mixed` requested: the new slots, and then those that wait, from the first
/// that was freed on.
fn expect_flush(entities: &mut Entities, slots: u32) {
    let fresh = (slots..slots + 2).map(|index| handle(index, 1));
    let old = (0..slots).step_by(3).map(|index| handle(index, 2));
    assert!(flushed(entities).into_iter().eq(fresh.chain(old)));
}

#[test]
fn clones_with_requests_go_on_by_themselves() {
    for slots in [0, 1, 3_000, 100_000] {
        let mut entities = mixed(slots);
        let mut clone = entities.clone();
        let mut late = Entities::with_limits(Limits::new(5, 5).expect("limits"));
        late.alloc_many(5).expect("memory");
        late.try_clone_from(&entities).expect("memory");
        for each in [&entities, &clone, &late] {
            expect_mixed(each, slots);
        }
        expect_flush(&mut entities, slots);
        let first = handle(slots, 1);
        entities.free(first).expect("alive");
        expect_mixed(&clone, slots);
        assert_eq!(clone.free(first), Err(forgeni::FreeError::NeedsFlush));
        expect_flush(&mut clone, slots);
        assert!(clone.is_alive(first) && !entities.is_alive(first));
        // It has the limits of its source.
        assert_eq!((late.room(), late.left()), (clone.room() + 2, clone.room()));
        expect_flush(&mut late, slots);
        assert_eq!(late.alloc(), Ok(handle(slots + 2, 1)));
        assert_eq!(entities.alloc(), Ok(handle(slots, 2)));
    }
}

/// Std's `clone_from` takes over limits, rows and requests, whatever the target had: all that is in
/// the image.
#[test]
fn an_allocator_is_cloned_into_another() {
    let rich = |limit| {
        let mut entities = small(limit, 2);
        let all = entities.alloc_many(4).expect("memory");
        entities.try_set_row(all[0], 7).expect("alive");
        entities.free(all[1]).expect("alive");
        entities.request_many(3).expect("handles");
        entities
    };
    let sources = [rich(9), rich(6), small(1, 1), mixed(70_001)];
    for source in &sources {
        for target in &sources {
            let mut target = target.clone();
            target.clone_from(source);
            assert!(image(&target) == image(source));
        }
    }
}

/// A frame that is done again after a step back gives the same handles again.
#[test]
fn a_frame_is_done_again() {
    let mut entities = Entities::new();
    let all = entities.alloc_many(70_001).expect("memory");
    entities.try_set_row(all[70_000], 3).expect("alive");
    let mut confirmed = Entities::new();
    confirmed.clone_from(&entities);
    let mut frames = [vec![], vec![]];
    for frame in &mut frames {
        for one in &all[70_000..] {
            entities.free(*one).expect("alive");
        }
        frame.push(entities.alloc().expect("a slot"));
        frame.extend(entities.request_many(3).expect("handles"));
        assert_eq!(entities.row(all[70_000]), None);
        assert_eq!(entities.alloc(), Err(AllocError::NeedsFlush));
        entities.clone_from(&confirmed);
        assert_eq!(entities.row(all[70_000]), Some(3));
        assert!(entities.iter().eq(all.iter().copied()));
        assert_eq!((entities.asked(), entities.top()), (0, 0));
    }
    let wanted = [(70_000, 2), (70_001, 1), (70_002, 1), (70_003, 1)];
    assert_eq!(
        frames[0],
        wanted.map(|(index, generation)| handle(index, generation))
    );
    assert_eq!(frames[0], frames[1]);
}

const HP: ComponentId = ComponentId(3);
const AT: ComponentId = ComponentId(0);

/// An entity, its birth and its components.
type Made = (Handle, Birth, Vec<(ComponentId, i64)>);

/// What can be told of a world: its frame, and its entities by birth.
fn told(world: &World) -> (u64, Vec<Made>) {
    let all = world.by_birth().expect("memory").into_iter();
    let entities = all.map(|one| {
        let items = world.items(one).expect("alive").collect();
        (one, world.birth(one).expect("alive"), items)
    });
    (world.frame(), entities.collect())
}

/// A phase of one system: it spawns two entities, takes one out, and sets a component of another.
fn frame(world: World, gone: Handle, hit: Handle) -> (World, Queues) {
    let (open, mut systems) = world.open(1).expect("opened");
    systems[0].spawn_many(2, &[(HP, 9)]).expect("handles");
    systems[0].despawn(gone).expect("memory");
    systems[0].insert(hit, &[(HP, -1)]).expect("memory");
    open.close(systems).expect("closed")
}

/// A world of so many entities, of which every third has gone.
fn world_of(entities: u32) -> (World, Vec<Handle>) {
    let mut world = World::new();
    let mut all = vec![];
    for number in 0..entities {
        let both = [(AT, i64::from(number)), (HP, 5)];
        let components = &both[..1 + number as usize % 2];
        all.push(world.spawn(components).expect("memory"));
    }
    for one in all.iter().step_by(3) {
        world.despawn(*one).expect("alive");
    }
    let left = |(at, one)| (at % 3 != 0).then_some(one);
    (
        world,
        all.into_iter().enumerate().filter_map(left).collect(),
    )
}

#[test]
fn worlds_go_on_by_themselves() {
    for entities in [3, 3_000, 100_000] {
        let (world, all) = world_of(entities);
        let start = told(&world);
        let clone = world.clone();
        let mut late = world_of(70).0;
        late.try_clone_from(&world).expect("memory");
        assert!(told(&clone) == start && told(&late) == start);

        let (mut world, queues) = frame(world, all[0], all[1]);
        assert!(told(&clone) == start);
        // A clone has queues of its own, and goes the same way by them.
        let reserved = world.clone();
        assert!(reserved.needs_flush());
        let report = world.apply(queues).expect("memory");
        let (mut clone, own) = frame(clone, all[0], all[1]);
        let again = clone.apply(own).expect("memory");
        assert_eq!(
            (&report.born, report.faults.len()),
            (&again.born, again.faults.len())
        );
        let after = told(&world);
        assert!(after == told(&clone) && after != start);
        assert_eq!(world.spawn(&[]), clone.spawn(&[]));

        // Back to the start, and the same once more.
        world.try_clone_from(&late).expect("memory");
        assert!(told(&world) == start);
        let (mut world, queues) = frame(world, all[0], all[1]);
        let third = world.apply(queues).expect("memory");
        assert_eq!(third.born, report.born);
        assert!(told(&world) == after);
    }
}

/// Std's `clone_from` takes over what lives and what is reserved, and the limits.
#[test]
fn a_world_is_cloned_into_another() {
    let (world, all) = world_of(70);
    let start = told(&world);
    let (world, _queues) = frame(world, all[0], all[1]);
    let mut target = World::with_limits(Limits::new(1, 1).expect("limits"));
    target.spawn(&[(HP, 1)]).expect("a slot");
    target.clone_from(&world);
    assert!(told(&target) == start && target.needs_flush());
    // What was reserved comes to life in both, and there is room for more.
    let mut world = world;
    world.flush().expect("memory");
    target.flush().expect("memory");
    assert!(told(&target) == told(&world) && told(&target) != start);
    assert_eq!(target.spawn(&[]), world.spawn(&[]));
}

/// A world that has gone back refuses the queues of the frames that it left, and so does a clone.
#[test]
fn queues_of_what_was_left_are_refused() {
    let (world, all) = world_of(9);
    let confirmed = world.clone();
    let (mut world, queues) = frame(world, all[0], all[1]);
    let Err(SyncError::OtherWorld(queues)) = world.clone().apply(queues) else {
        panic!("a clone took them");
    };
    world.try_clone_from(&confirmed).expect("memory");
    let before = told(&world);
    let refused = world.apply(queues);
    assert!(matches!(refused, Err(SyncError::OtherWorld(_))));
    assert!(told(&world) == before);
}

/// Worlds that have one state, each made in another way: each has a number of its own, so none
/// takes the queues of another one.
#[test]
fn worlds_of_one_state_have_numbers_of_their_own() {
    let (source, all) = world_of(9);
    let mut image = vec![];
    source.write_image(&mut image).expect("memory");
    let into = || {
        let mut target = World::new();
        target.try_clone_from(&source).expect("memory");
        target
    };
    let make: [&dyn Fn() -> World; 4] = [
        &|| source.try_clone().expect("memory"),
        &|| source.clone(),
        &into,
        &|| World::read_image(&image).expect("an image"),
    ];
    let phases = make.iter().flat_map(|make| [make(), make()]);
    let phases = phases.map(|world| frame(world, all[0], all[1]));
    let (mut worlds, queues): (Vec<World>, Vec<Queues>) = phases.unzip();
    for (own, mut queues) in queues.into_iter().enumerate() {
        for other in (0..worlds.len()).filter(|other| *other != own) {
            match worlds[other].apply(queues) {
                Err(SyncError::OtherWorld(back)) => queues = back,
                done => panic!("world {other} took the queues of {own}: {done:?}"),
            }
        }
        worlds[own].apply(queues).expect("its own");
    }
}
