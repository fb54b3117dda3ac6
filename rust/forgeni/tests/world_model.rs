//! A world, and its sync point after systems on threads, compared with a world in plain Rust.

use crate::common::{handle, seeds, Numbers};
use crate::worlds::{any_components, pick, Command, WorldModel};
use forgeni::{
    AllocError, Birth, ComponentId, FaultKind, FreeError, Freed, Handle, Limits, OpenWorld,
    ReserveError, Reserver, World,
};
use std::collections::BTreeSet;
use std::thread;

/// What the world says of everything is what the model says.
fn compare(world: &World, model: &WorldModel, place: &str) {
    assert_eq!(world.len(), model.live.len(), "{place}: len");
    assert_eq!(world.frame(), model.phase, "{place}: phase");
    assert_eq!(world.by_birth(), Ok(model.by_birth()), "{place}: by_birth");
    let kept = model.live.len() + model.waiting.len();
    let retired = model.made as usize - kept;
    assert_eq!(world.retired() as usize, retired, "{place}: retired");
    for (entity, (birth, held)) in &model.live {
        assert_eq!(world.birth(*entity), Some(*birth), "{place}: {entity}");
        let items: Vec<_> = held.iter().map(|(id, value)| (*id, *value)).collect();
        assert_eq!(
            world.items(*entity).map(Vec::from_iter),
            Some(items),
            "{place}: {entity}"
        );
        for (id, value) in held {
            assert_eq!(world.get(*entity, *id), Some(*value), "{place}: {entity}");
        }
    }
}

/// One call of the world alone.
fn call(world: &mut World, model: &mut WorldModel, numbers: &mut Numbers, place: &str) {
    if numbers.below(2) == 0 {
        let components = any_components(numbers);
        let birth = Birth {
            frame: model.phase,
            system: u32::MAX,
            ordinal: model.spawned,
        };
        let wanted = model.spawn(birth, &components).ok_or(AllocError::Space);
        model.spawned += u32::from(wanted.is_ok());
        assert_eq!(world.spawn(&components), wanted, "{place}: spawn");
    } else {
        let any = any_handle(numbers, model);
        let wanted = match model.despawn(any) {
            Some(next) => Ok(Freed { next }),
            None => Err(FreeError::NotAlive),
        };
        assert_eq!(world.despawn(any), wanted, "{place}: despawn {any}");
        assert!(!world.contains(any), "{place}: {any}");
    }
}

fn any_handle(numbers: &mut Numbers, model: &WorldModel) -> Handle {
    let living: Vec<Handle> = model.live.keys().copied().collect();
    match pick(numbers, &living) {
        Some(one) if numbers.below(4) > 0 => one,
        _ => handle(numbers.below(9) as u32, 1 + numbers.below(3) as u32),
    }
}

/// A system while it issues commands: what it issued, and what it knows.
struct System {
    commands: Reserver<OpenWorld>,
    issued: Vec<Command>,
    known: Vec<Handle>,
}

impl System {
    fn new(commands: Reserver<OpenWorld>, model: &WorldModel) -> Self {
        System {
            commands,
            issued: vec![],
            known: model.live.keys().copied().collect(),
        }
    }

    /// Issues a random command.
    fn issue(&mut self, numbers: &mut Numbers) {
        let components = any_components(numbers);
        let target = match pick(numbers, &self.known) {
            Some(one) if numbers.below(8) > 0 => one,
            _ => handle(numbers.below(9) as u32, 1 + numbers.below(3) as u32),
        };
        let command = match numbers.below(8) {
            0..=2 => match self.commands.spawn(&components) {
                Ok(given) => Command::Spawn(vec![given], components),
                Err(error) => refused(error),
            },
            3 => match self
                .commands
                .spawn_many(numbers.below(4) as u32, &components)
            {
                Ok(given) => Command::Spawn(given, components),
                Err(error) => refused(error),
            },
            4 => {
                assert_eq!(self.commands.insert(target, &components), Ok(()));
                Command::Insert(target, components)
            }
            5 => {
                assert_eq!(self.commands.remove(target, ComponentId(1)), Ok(()));
                Command::Remove(target, ComponentId(1))
            }
            _ => {
                assert_eq!(self.commands.despawn(target), Ok(()));
                Command::Despawn(target)
            }
        };
        self.known.extend(command.listed());
        self.issued.push(command);
    }

    fn into_parts(self) -> (Reserver<OpenWorld>, Vec<Command>) {
        (self.commands, self.issued)
    }
}

fn refused(error: ReserveError) -> Command {
    Command::Refused(match error {
        ReserveError::Space { wanted, left } => FaultKind::Space { wanted, left },
        ReserveError::Quota { left } => FaultKind::Quota { left },
        ReserveError::Memory => panic!("out of memory"),
    })
}

/// What was given are the first handles of the pool, each once.
fn check_given(model: &WorldModel, queues: &[Vec<Command>], place: &str) {
    let all: Vec<Handle> = queues
        .iter()
        .flatten()
        .flat_map(Command::listed)
        .copied()
        .collect();
    let once: BTreeSet<Handle> = all.iter().copied().collect();
    assert_eq!(once.len(), all.len(), "{place}: given twice");
    let front: BTreeSet<Handle> = model.pool().into_iter().take(all.len()).collect();
    assert_eq!(once, front, "{place}: given");
}

/// How the systems of a phase are run: how many, on how many threads.
#[derive(Clone, Copy)]
struct Way {
    systems: usize,
    threads: usize,
}

/// One phase and its sync point.
fn phase(world: World, model: &mut WorldModel, seed: u64, way: Way, place: &str) -> World {
    let (open, all) = world.open(way.systems).expect("a phase");
    let mut systems: Vec<System> = all
        .into_iter()
        .map(|commands| System::new(commands, model))
        .collect();
    for (entity, (birth, held)) in &model.live {
        assert_eq!(
            open.view().birth(*entity),
            Some(*birth),
            "{place}: {entity}"
        );
        for (id, value) in held {
            assert_eq!(
                open.view().get(*entity, *id),
                Some(*value),
                "{place}: {entity}"
            );
        }
    }
    let each = way.systems.div_ceil(way.threads);
    thread::scope(|scope| {
        for (worker, some) in systems.chunks_mut(each).enumerate() {
            let mut numbers = Numbers::of(seed ^ (worker as u64 + 1) << 40);
            let viewed = &*model;
            scope.spawn(move || {
                // The systems of one thread take turns.
                for _ in 0..6 {
                    for system in some.iter_mut() {
                        system.issue(&mut numbers);
                        view(&system.commands, viewed, &mut numbers);
                    }
                }
            });
        }
    });
    let (systems, issued): (Vec<_>, Vec<_>) = systems.into_iter().map(System::into_parts).unzip();
    check_given(model, &issued, place);
    let (mut world, queues) = open.close(systems).expect("all systems");
    let asked = issued.iter().flatten().any(|command| match command {
        Command::Spawn(handles, _) => !handles.is_empty(),
        Command::Refused(_) => true,
        _ => false,
    });
    assert_eq!(world.needs_flush(), asked, "{place}: needs_flush");
    let report = world.apply(queues).expect("memory");
    let (born, faults) = model.apply(&issued);
    assert_eq!(report.born, born, "{place}: born");
    assert_eq!(report.faults, faults, "{place}: faults");
    world
}

/// What a system reads while others run is the world as it was opened.
fn view(commands: &Reserver<OpenWorld>, model: &WorldModel, numbers: &mut Numbers) {
    let any = any_handle(numbers, model);
    let there = model.live.get(&any);
    assert_eq!(commands.view().birth(any), there.map(|entity| entity.0));
    let value = there.and_then(|(_, held)| held.get(&ComponentId(1)).copied());
    assert_eq!(commands.view().get(any, ComponentId(1)), value);
    if numbers.below(8) == 0 {
        assert_eq!(commands.view().by_birth(), Ok(model.by_birth()));
    }
}

fn run(seed: u64, threads: usize) {
    let mut numbers = Numbers::of(seed);
    let slots = 1 + numbers.below(40) as u32;
    let generations = 1 + numbers.below(4) as u32;
    let mut model = WorldModel::new(slots, generations);
    let limits = Limits::new(slots, generations).expect("limits");
    let mut world = World::with_limits(limits);
    for round in 0..4 {
        let place = format!("seed {seed}, {threads} threads, round {round}");
        for _ in 0..numbers.below(6) {
            call(&mut world, &mut model, &mut numbers, &place);
            compare(&world, &model, &place);
        }
        let systems = threads + numbers.below(3) as usize;
        let way = Way { systems, threads };
        world = phase(world, &mut model, seed + round * 7919, way, &place);
        compare(&world, &model, &place);
    }
}

/// A world that is now and then read from its own image goes on as the model says.
fn run_with_images(seed: u64, steps: u64) {
    let mut numbers = Numbers::of(seed);
    let slots = 1 + numbers.below(40) as u32;
    let generations = 1 + numbers.below(40) as u32;
    let mut model = WorldModel::new(slots, generations);
    let mut world = World::with_limits(Limits::new(slots, generations).expect("limits"));
    for step in 0..steps {
        let place = format!("seed {seed}, step {step}");
        match numbers.below(12) {
            0 => {
                let way = Way {
                    systems: 2,
                    threads: 1,
                };
                world = phase(world, &mut model, seed + step * 7919, way, &place);
            }
            1 | 2 => world = World::read_image(&image(&world)).expect(&place),
            _ => call(&mut world, &mut model, &mut numbers, &place),
        }
        compare(&world, &model, &place);
    }
}

fn image(world: &World) -> Vec<u8> {
    let mut image = vec![];
    world.write_image(&mut image).expect("memory");
    image
}

#[test]
fn images_of_a_world() {
    seeds(100, |seed| run_with_images(seed, 60));
    seeds(3, |seed| run_with_images(seed, 1_000));
}

#[test]
fn systems_on_one_thread() {
    seeds(1_000, |seed| run(seed, 1));
}

#[test]
fn systems_on_two_threads() {
    seeds(1_000, |seed| run(seed, 2));
}

#[test]
fn systems_on_four_threads() {
    seeds(1_000, |seed| run(seed, 4));
}
