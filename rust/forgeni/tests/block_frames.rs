//! Systems that fill logs and queues from blocks: whatever the number of workers, the spawns of
//! each are the next handles of its own block.

use crate::blocks::{close, dealt};
use crate::common::{flushed, seeds, small, Model, Numbers};
use forgeni::{
    fill_in_blocks, run_in_blocks, Birth, BlockSize, Blocks, CloseError, ComponentId, Entities,
    InBlocks, InWorld, Limits, LogCommands, LogSystem, OfBlocks, Phase, Report, Reserver,
    ShareError, System, View, World, WorldCommands,
};
use forgeni::{
    Entry, Handle, HandleMap, Log, OutOfMemory, Refused, ReserveError, RunError, StdThreads,
    SyncError, SyncPoint,
};
use std::collections::BTreeMap;
use std::panic::{catch_unwind, resume_unwind, AssertUnwindSafe};
use std::sync::Barrier;

const WORKERS: [usize; 5] = [1, 2, 3, 8, 64];

/// What a system does.
#[derive(Clone, Copy)]
enum Does {
    /// Spawns that many, and commands the number of each spawn.
    Spawn(u32),
    /// Spawns one, and then says that memory ran out.
    Memory,
    /// Spawns one, and then panics.
    Panic,
}

impl LogSystem<u32, Blocks> for Does {
    fn run(&self, commands: &mut LogCommands<'_, u32, Blocks>) -> Result<(), OutOfMemory> {
        let spawn = |commands: &mut LogCommands<'_, u32, Blocks>| match commands.spawn() {
            Ok(_) => Ok(()),
            Err(refused) => refused.or_memory(),
        };
        match *self {
            Does::Spawn(count) => (0..count).try_for_each(|number| {
                spawn(commands)?;
                commands.push(number)
            }),
            Does::Memory => spawn(commands).and(Err(OutOfMemory)),
            Does::Panic => {
                spawn(commands)?;
                // The panic prints nothing.
                resume_unwind(Box::new("the system"))
            }
        }
    }
}

/// An allocator with 12 slots that wait and 4 that live, and a model of it.
fn used() -> (Entities, Model) {
    let (mut entities, mut model) = (small(1000, 9), Model::new(1000, 9));
    let all: Vec<Handle> = (0..16).map(|_| entities.alloc().expect("a slot")).collect();
    for _ in &all {
        model.alloc().expect("a slot");
    }
    for one in all.iter().filter(|it| it.index() % 4 != 1) {
        entities.free(*one).expect("alive");
        model.free(*one).expect("alive");
    }
    (entities, model)
}

type Parts<S = Blocks> = (Phase<S>, Vec<Reserver<S>>);

fn opened(sizes: &[u32]) -> Parts {
    used().0.share_in::<Blocks>(sizes).expect("memory")
}

fn closed((phase, reservers): Parts) -> Entities {
    let ended = phase.close(reservers).expect("all are here");
    ended.into_entities().expect("memory")
}

fn used_of<S: InBlocks>(reservers: &[Reserver<S>]) -> Vec<u32> {
    reservers.iter().map(Reserver::used).collect()
}

/// All blocks are used up, and the reservers are of this phase.
fn expect_used_up<S: OfBlocks>(phase: &Phase<S>, reservers: &[Reserver<S>]) {
    assert_eq!(reservers.len(), phase.count());
    for reserver in reservers {
        assert!(reserver.is_of(phase));
        assert_eq!((reserver.used(), reserver.left()), (reserver.size(), 0));
    }
}

#[test]
fn spawns_return_the_front_of_each_block_on_any_number_of_workers() {
    let sizes: Vec<u32> = (0..40).map(|k| k % 7).collect();
    let systems: Vec<Does> = (0..40).map(|k| Does::Spawn(k % 5)).collect();
    let (_, model) = used();
    let mut pool = model.pool().into_iter();
    let mut rest = vec![];
    let mut expected = vec![];
    for (k, size) in (0..).zip(&sizes) {
        let mut block: Vec<Handle> = pool.by_ref().take(*size as usize).collect();
        // A refused spawn has its entry, and its command is entered all the same.
        let mut spawned = block.drain(..block.len().min(k as usize % 5));
        let entries = (0..k % 5).flat_map(|number| {
            let refused = Entry::Refused(Refused::Space { wanted: 1, left: 0 });
            let spawn = spawned.next().map_or(refused, Entry::Spawn);
            [spawn, Entry::Command(number)]
        });
        expected.push(entries.collect::<Vec<_>>());
        drop(spawned);
        rest.extend(block);
    }
    for workers in WORKERS {
        let (phase, mut reservers) = opened(&sizes);
        let ran = run_in_blocks(&StdThreads, &phase, &mut reservers, &systems, workers);
        let mut logs = ran.expect("memory");
        let entries: Vec<&[Entry<u32>]> = logs.iter().map(Log::entries).collect();
        assert_eq!(entries, expected, "{workers} workers");

        // What was lent has come back.
        let spawned = (0..40).map(|k| (k % 5).min(sizes[k as usize]));
        assert!(spawned.eq(used_of(&reservers)));

        // What is left of the blocks is given next, in the pool's order.
        let mut entities = closed((phase, reservers));
        let mut born = vec![];
        let begun = SyncPoint::begin(&mut entities, &mut logs, &mut born);
        let _sync = begun.expect("all are reserved");
        let spawns = expected
            .iter()
            .flatten()
            .filter(|it| matches!(it, Entry::Spawn(_)));
        assert_eq!(born.len(), spawns.count());
        for next in &rest {
            assert_eq!(entities.alloc(), Ok(*next));
        }
    }
}

/// Blocks of few handles, and more spawns than fit: each refusal comes to the sync point at its
/// turn.
#[test]
fn each_refused_spawn_comes_to_the_sync_point_at_its_turn() {
    let systems = [Does::Spawn(5), Does::Spawn(2), Does::Spawn(4)];
    for workers in WORKERS {
        let (phase, mut reservers) = opened(&[3, 2, 0]);
        let ran = run_in_blocks(&StdThreads, &phase, &mut reservers, &systems, workers);
        let mut logs = ran.expect("memory");
        assert_eq!(logs.iter().map(Log::refused).collect::<Vec<_>>(), [2, 0, 4]);
        assert_eq!(used_of(&reservers), [3, 2, 0]);
        assert!(reservers.iter().map(Reserver::wanted).eq([4, 2, 1]));
        let mut entities = closed((phase, reservers));
        let (mut born, mut turns) = (vec![], String::new());
        let begun = SyncPoint::begin(&mut entities, &mut logs, &mut born);
        let done = begun
            .expect("all are reserved")
            .apply(&mut entities, |entities, entry| {
                turns.push(match entry {
                    Entry::Spawn(one) if entities.is_alive(one) => 's',
                    Entry::Refused(Refused::Space { wanted: 1, left: 0 }) => 'r',
                    Entry::Command(_) => 'c',
                    _ => return Err((entry, "another entry")),
                });
                Ok(())
            });
        assert_eq!(done, Ok(()));
        assert_eq!(turns, "scscscrcrc".to_owned() + "scsc" + "rcrcrcrc");
        assert_eq!(born.len(), 5);
    }
}

/// A number that looks like no other (the steps of splitmix64).
fn mixed(number: u64) -> u64 {
    let mut all = number.wrapping_add(0x9e37_79b9_7f4a_7c15);
    all = (all ^ all >> 30).wrapping_mul(0xbf58_476d_1ce4_e5b9);
    all = (all ^ all >> 27).wrapping_mul(0x94d0_49bb_1331_11eb);
    all ^ all >> 31
}

/// A digest of a game whose systems spawn and despawn by what handles look like, after each frame.
fn digests(workers: usize) -> Vec<u64> {
    const SYSTEMS: u64 = 24;
    let (mut entities, _) = used();
    let mut values: HandleMap<u64> = HandleMap::new();
    (0..100)
        .map(|frame| {
            let (phase, mut reservers) = std::mem::take(&mut entities)
                .share_in::<Blocks>(&[6; SYSTEMS as usize])
                .expect("memory");
            let seen = &values;
            let system = |number: u64| {
                move |commands: &mut LogCommands<'_, (Handle, Option<u64>), Blocks>| {
                    for (one, value) in seen {
                        let luck = mixed(one.to_bits() ^ value ^ frame);
                        match luck % 16 {
                            _ if u64::from(one.index()) % SYSTEMS != number => {}
                            0..4 => commands.push((one, None))?,
                            _ => commands.push((one, Some(luck)))?,
                        }
                    }
                    for turn in 0..mixed(frame ^ number << 32) % 8 {
                        match commands.spawn() {
                            Ok(one) => commands.push((one, Some(mixed(turn))))?,
                            Err(refused) => refused.or_memory()?,
                        }
                    }
                    Ok::<(), OutOfMemory>(())
                }
            };
            let systems: Vec<_> = (0..SYSTEMS).map(system).collect();
            let ran = run_in_blocks(&StdThreads, &phase, &mut reservers, &systems, workers);
            let mut logs = ran.expect("memory");
            drop(systems);
            entities = closed((phase, reservers));
            let mut sync =
                SyncPoint::begin(&mut entities, &mut logs, &mut vec![]).expect("reserved");
            sync.apply(&mut entities, |entities, entry| {
                match entry {
                    Entry::Command((one, Some(value))) => drop(values.insert(one, value)),
                    Entry::Command((one, None)) => {
                        values.remove(one);
                        entities.free(one).expect("alive");
                    }
                    Entry::Spawn(_) | Entry::Refused(_) => {}
                }
                Ok::<(), (Entry<_>, ())>(())
            })
            .expect("no error");
            entities.iter().fold(0, |all, one| {
                mixed(all ^ one.to_bits() ^ values.get(one).copied().unwrap_or(0))
            })
        })
        .collect()
}

#[test]
fn a_game_that_looks_at_handles_is_the_same_on_any_number_of_workers() {
    let first = digests(1);
    assert!(first.windows(2).all(|two| two[0] != two[1]));
    for workers in WORKERS {
        assert_eq!(digests(workers), first, "{workers} workers");
    }
}

#[test]
fn systems_may_wait_for_one_another() {
    let together = Barrier::new(8);
    let systems = [(); 8].map(|()| {
        |commands: &mut LogCommands<'_, (), Blocks>| {
            together.wait();
            commands
                .spawn()
                .map_or_else(ReserveError::or_memory, |_| Ok(()))
        }
    });
    let (phase, mut reservers) = opened(&[1; 8]);
    let logs = run_in_blocks(&StdThreads, &phase, &mut reservers, &systems, 8).expect("memory");
    assert!(logs.iter().all(|log| log.entries().len() == 1));
}

#[test]
fn after_a_system_stops_or_panics_all_blocks_count_as_used() {
    for workers in WORKERS {
        for last in [Does::Memory, Does::Panic] {
            let systems = [Does::Spawn(3), Does::Spawn(0), last];
            let (phase, mut reservers) = opened(&[10; 3]);
            reservers[1].reserve_many(4).expect("of the block");
            let running = AssertUnwindSafe(|| {
                run_in_blocks(&StdThreads, &phase, &mut reservers, &systems, workers)
            });
            match catch_unwind(running) {
                Ok(ran) => {
                    let error = ran.expect_err("a system stopped");
                    assert_eq!(error, RunError::Lost(Some(OutOfMemory)));
                }
                Err(panic) => assert_eq!(panic.downcast_ref(), Some(&"the system")),
            }
            expect_used_up(&phase, &reservers);
            let refused = reservers[0].reserve();
            assert_eq!(refused, Err(Refused::Space { wanted: 1, left: 0 }));
            // Another run has no handles, and leaves the blocks as they are.
            let ran = run_in_blocks(&StdThreads, &phase, &mut reservers, &systems[..2], 1);
            assert_eq!(ran.err(), Some(RunError::Reservers));
            let again = [Does::Spawn(1); 3];
            let ran = run_in_blocks(&StdThreads, &phase, &mut reservers, &again, workers);
            assert!(ran.expect("memory").iter().all(|log| log.refused() == 1));
            expect_used_up(&phase, &reservers);
            let mut entities = closed((phase, reservers));
            let mut expected = used().1.pool();
            expected.truncate(30);
            let mut born = flushed(&mut entities);
            born.sort_unstable();
            expected.sort_unstable();
            assert_eq!(born, expected);
        }
    }
}

#[test]
fn the_first_fault_is_returned_and_the_reservers_are_as_they_were() {
    for (systems, workers, error) in [
        (2, 0, RunError::Workers),
        (2, 65, RunError::Workers),
        (65_537, 65, RunError::Workers),
        (65_537, 64, RunError::Systems),
        (1, 64, RunError::Reservers),
        (3, 1, RunError::Reservers),
    ] {
        let (phase, mut reservers) = opened(&[10, 10]);
        let systems = vec![Does::Spawn(1); systems];
        let ran = run_in_blocks(&StdThreads, &phase, &mut reservers, &systems, workers);
        assert_eq!(ran.err(), Some(error));
        assert_eq!(used_of(&reservers), [0, 0]);
        let ran = run_in_blocks(&StdThreads, &phase, &mut reservers, &[Does::Spawn(1); 2], 1);
        assert_eq!(ran.expect("they are as they were").len(), 2);
        assert_eq!(used_of(&reservers), [1, 1]);
    }
}

/// No system runs with a reserver of another phase, and nothing changes.
#[test]
fn a_reserver_of_another_phase_is_refused() {
    let systems = [Does::Spawn(1); 2];
    for at in [0, 1] {
        let (phase, mut reservers) = opened(&[10, 10]);
        let (other, mut others) = opened(&[10, 10]);
        reservers[0].reserve_many(3).expect("of the block");
        others[at].reserve_many(5).expect("of the block");
        std::mem::swap(&mut reservers[at], &mut others[at]);
        let before = [used_of(&reservers), used_of(&others)];
        for (phase, reservers) in [(&phase, &mut reservers), (&other, &mut others)] {
            let ran = run_in_blocks(&StdThreads, phase, reservers, &systems, 2);
            assert_eq!(ran.err(), Some(RunError::OtherPhase));
        }
        assert_eq!([used_of(&reservers), used_of(&others)], before);
        std::mem::swap(&mut reservers[at], &mut others[at]);
        let ran = run_in_blocks(&StdThreads, &phase, &mut reservers, &systems, 2);
        assert_eq!(ran.expect("all are of the phase").len(), 2);
        assert_eq!(used_of(&reservers), [4, 1]);
        assert_eq!(flushed(&mut closed((phase, reservers))).len(), 5);
        assert_eq!(flushed(&mut closed((other, others))).len(), 5);
    }
}

#[test]
fn a_block_that_is_used_up_refuses_and_the_system_goes_on() {
    let (phase, mut reservers) = opened(&[10; 2]);
    let systems = [Does::Spawn(12), Does::Spawn(2)];
    let ran = run_in_blocks(&StdThreads, &phase, &mut reservers, &systems, 2);
    let logs = ran.expect("memory");
    let spawns = |log: &Log<u32>| {
        log.entries()
            .iter()
            .filter(|it| matches!(it, Entry::Spawn(_)))
            .count()
    };
    assert_eq!((spawns(&logs[0]), logs[0].refused()), (10, 2));
    assert_eq!((logs[0].len(), logs[1].refused()), (24, 0));
    assert_eq!(used_of(&reservers), [10, 2]);
    let full = |commands: &mut LogCommands<'_, (), Blocks>| {
        assert_eq!((commands.left(), commands.entries().len()), (0, 0));
        assert_eq!(
            commands.spawn(),
            Err(ReserveError::Space { wanted: 1, left: 0 })
        );
        Ok::<(), OutOfMemory>(())
    };
    let (phase, mut reservers) = opened(&[0]);
    assert!(run_in_blocks(&StdThreads, &phase, &mut reservers, &[full], 1).is_ok());
}

#[test]
fn no_systems_fill_no_logs() {
    for workers in WORKERS {
        let (phase, mut reservers) = opened(&[]);
        let ran = run_in_blocks(&StdThreads, &phase, &mut reservers, &[] as &[Does], workers);
        assert_eq!(ran.expect("memory").len(), 0);
        assert!(phase.close(reservers).is_ok());
    }
}

const HP: ComponentId = ComponentId(0);
const AGE: ComponentId = ComponentId(1);

/// What a system of a world does. A living entity is named by its number among those that it sees.
#[derive(Clone, Copy, Debug)]
enum Step {
    Spawn(i64),
    SpawnMany(u32, i64),
    /// Changes what it has spawned last.
    InsertLast(i64),
    Insert(usize, i64),
    Remove(usize),
    Despawn(usize),
    /// Says that memory ran out, or panics.
    Memory,
    Panic,
}

/// A system of a world.
#[derive(Clone)]
struct Script(Vec<Step>);

impl System<Blocks> for Script {
    fn run(
        &self,
        view: &View<'_>,
        commands: &mut WorldCommands<'_, Blocks>,
    ) -> Result<(), OutOfMemory> {
        let living = view.by_birth()?;
        let at = |rank: usize| living.get(rank % living.len().max(1)).copied();
        let mut last = None;
        for step in &self.0 {
            match *step {
                Step::Spawn(value) => match commands.spawn_with(&[(HP, value)]) {
                    Ok(one) => last = Some(one),
                    Err(refused) => refused.or_memory()?,
                },
                Step::SpawnMany(count, value) => {
                    match commands.spawn_many_with(count, &[(HP, value)]) {
                        Ok(all) => last = all.last().copied().or(last),
                        Err(refused) => refused.or_memory()?,
                    }
                }
                Step::InsertLast(value) => {
                    if let Some(one) = last {
                        commands.insert_with(one, &[(AGE, value)])?;
                    }
                }
                Step::Insert(rank, value) => {
                    if let Some(one) = at(rank) {
                        commands.insert_with(one, &[(AGE, value)])?;
                    }
                }
                Step::Remove(rank) => {
                    if let Some(one) = at(rank) {
                        commands.remove(one, HP)?;
                    }
                }
                Step::Despawn(rank) => {
                    if let Some(one) = at(rank) {
                        commands.despawn(one)?;
                    }
                }
                Step::Memory => return Err(OutOfMemory),
                // The panic prints nothing.
                Step::Panic => resume_unwind(Box::new("the system")),
            }
        }
        Ok(())
    }
}

/// A command as the model has it: on which entity, and what becomes of its components.
enum Command {
    Spawn(Handle, i64),
    Refused,
    Insert(Handle, i64),
    Remove(Handle),
    Despawn(Handle),
}

/// A world as its rules say it, whose systems run one after the other.
struct ModelWorld {
    allocator: Model,
    frame: u64,
    entities: BTreeMap<Handle, (Birth, BTreeMap<u8, i64>)>,
}

impl ModelWorld {
    fn new(slots: u32, generations: u32) -> Self {
        ModelWorld {
            allocator: Model::new(slots, generations),
            frame: 0,
            entities: BTreeMap::new(),
        }
    }

    fn by_birth(&self) -> Vec<Handle> {
        let key = |(one, (birth, _)): (&Handle, &(Birth, _))| {
            (birth.frame, birth.system, birth.ordinal, *one)
        };
        let mut all: Vec<_> = self.entities.iter().map(key).collect();
        all.sort_unstable();
        all.into_iter().map(|it| it.3).collect()
    }

    /// What a system issues, and how much of its block it uses.
    fn issue(&self, script: &Script, living: &[Handle], block: &[Handle]) -> (usize, Vec<Command>) {
        let at = |rank: usize| living.get(rank % living.len().max(1)).copied();
        let (mut used, mut last, mut commands) = (0, None, vec![]);
        for step in &script.0 {
            let rest = &block[used..];
            match *step {
                Step::Spawn(_) | Step::SpawnMany(..) => {
                    let (count, value) = match *step {
                        Step::Spawn(value) => (1, value),
                        Step::SpawnMany(count, value) => (count as usize, value),
                        _ => unreachable!(),
                    };
                    let Some(given) = rest.get(..count) else {
                        commands.push(Command::Refused);
                        continue;
                    };
                    used += count;
                    // Old handles in reverse order, then new ones.
                    let (old, fresh): (Vec<Handle>, Vec<Handle>) = given
                        .iter()
                        .partition(|it| it.index() < self.allocator.made);
                    let listed = old.into_iter().rev().chain(fresh);
                    let before = commands.len();
                    commands.extend(listed.map(|one| Command::Spawn(one, value)));
                    if let Some(Command::Spawn(one, _)) = commands[before..].last() {
                        last = Some(*one);
                    }
                }
                Step::InsertLast(value) => {
                    commands.extend(last.map(|one| Command::Insert(one, value)))
                }
                Step::Insert(rank, value) => {
                    commands.extend(at(rank).map(|one| Command::Insert(one, value)))
                }
                Step::Remove(rank) => commands.extend(at(rank).map(Command::Remove)),
                Step::Despawn(rank) => commands.extend(at(rank).map(Command::Despawn)),
                Step::Memory | Step::Panic => unreachable!(),
            }
        }
        (used, commands)
    }

    /// A frame of these systems with blocks of these sizes. Returns how much each system used, what
    /// was born, and how many faults there were.
    fn frame(&mut self, sizes: &[u32], scripts: &[Script]) -> (Vec<usize>, Vec<Handle>, usize) {
        let (blocks, living) = (dealt(&self.allocator, sizes), self.by_birth());
        let issue = |(script, block): (&Script, &Vec<Handle>)| self.issue(script, &living, block);
        let (used, queues): (Vec<usize>, Vec<_>) = scripts.iter().zip(&blocks).map(issue).unzip();
        let mut born = close(&mut self.allocator, &blocks, &used);
        born.sort_unstable();
        for (system, queue) in (0..).zip(&queues) {
            let spawned = queue.iter().filter_map(|it| match it {
                Command::Spawn(one, _) => Some(*one),
                _ => None,
            });
            for (ordinal, one) in (0..).zip(spawned) {
                let birth = Birth {
                    frame: self.frame,
                    system,
                    ordinal,
                };
                self.entities.insert(one, (birth, BTreeMap::new()));
            }
        }
        self.frame += 1;
        let commands = queues.into_iter().flatten();
        let faults = commands.filter(|it| !self.apply(it)).count();
        (used, born, faults)
    }

    /// Whether the command had an effect.
    fn apply(&mut self, command: &Command) -> bool {
        let (Command::Spawn(one, _)
        | Command::Insert(one, _)
        | Command::Remove(one)
        | Command::Despawn(one)) = command
        else {
            return false;
        };
        let Some((_, items)) = self.entities.get_mut(one) else {
            return false;
        };
        match *command {
            Command::Spawn(_, value) => drop(items.insert(HP.0, value)),
            Command::Insert(_, value) => drop(items.insert(AGE.0, value)),
            Command::Remove(_) => drop(items.remove(&HP.0)),
            Command::Despawn(_) => {
                self.entities.remove(one);
                self.allocator.free(*one).expect("alive");
            }
            Command::Refused => unreachable!(),
        }
        true
    }

    /// Compares all that can be told of the world.
    fn expect(&self, world: &World) {
        let all = world.by_birth().expect("memory");
        assert_eq!((all, world.frame()), (self.by_birth(), self.frame));
        for (one, (birth, items)) in &self.entities {
            assert_eq!(world.birth(*one), Some(*birth));
            let found = world.items(*one).expect("alive");
            let found: BTreeMap<u8, i64> = found.map(|(id, value)| (id.0, value)).collect();
            assert_eq!(&found, items);
        }
        // What is given next.
        let (mut next, pool) = (world.try_clone().expect("memory"), self.allocator.pool());
        for one in pool.iter().take(40) {
            assert_eq!(next.spawn(&[]), Ok(*one));
        }
    }
}

fn small_world(slots: u32, generations: u32) -> World {
    World::with_limits(Limits::new(slots, generations).expect("limits"))
}

fn image_of(world: &World) -> Vec<u8> {
    let mut image = vec![];
    world.write_image(&mut image).expect("memory");
    image
}

fn open(world: World, sizes: &[u32]) -> Parts<InWorld<Blocks>> {
    world.open_in::<Blocks>(sizes).expect("memory")
}

fn ended((phase, reservers): Parts<InWorld<Blocks>>) -> World {
    let ended = phase.close(reservers).expect("all are here");
    assert_eq!(ended.requested_past(), 0);
    ended.into_world().expect("memory")
}

/// A frame of these systems: the world after it, what the sync point reports, and how much of its
/// block each of them used.
fn framed(
    world: World,
    sizes: &[u32],
    systems: &[impl System<Blocks> + Sync],
    workers: usize,
) -> (World, Report, Vec<u32>) {
    let (phase, mut reservers) = open(world, sizes);
    let filled = fill_in_blocks(&StdThreads, &phase, &mut reservers, systems, workers);
    let (queues, used) = (filled.expect("memory"), used_of(&reservers));
    assert_eq!(queues.len(), systems.len());
    let mut world = ended((phase, reservers));
    let report = world.apply(queues).expect("memory");
    (world, report, used)
}

fn any_step(numbers: &mut Numbers) -> Step {
    let (rank, value) = (numbers.below(50) as usize, numbers.below(100) as i64);
    match numbers.below(9) {
        0..3 => Step::Spawn(value),
        3 => Step::SpawnMany(numbers.below(4) as u32, value),
        4 => Step::InsertLast(value),
        5 => Step::Insert(rank, value),
        6 => Step::Remove(rank),
        _ => Step::Despawn(rank),
    }
}

/// Five frames, each with the sizes of its blocks and its systems.
fn any_frames(numbers: &mut Numbers) -> Vec<(Vec<u32>, Vec<Script>)> {
    let script = |numbers: &mut Numbers| {
        let steps = numbers.below(9);
        Script((0..steps).map(|_| any_step(numbers)).collect())
    };
    let frame = |numbers: &mut Numbers| {
        let systems = numbers.below(9) as usize;
        let sizes = (0..systems).map(|_| numbers.below(6) as u32).collect();
        (sizes, (0..systems).map(|_| script(numbers)).collect())
    };
    (0..5).map(|_| frame(numbers)).collect()
}

#[test]
fn frames_in_blocks_are_those_of_the_model_on_any_number_of_workers() {
    seeds(150, |seed| {
        let mut numbers = Numbers::of(seed);
        // Few slots and generations: blocks end with the pool, and slots retire.
        let (slots, generations) = (5 + numbers.below(60) as u32, 1 + numbers.below(4) as u32);
        let frames = any_frames(&mut numbers);
        let mut model = ModelWorld::new(slots, generations);
        let mut worlds = WORKERS.map(|_| Some(small_world(slots, generations)));
        for (sizes, scripts) in &frames {
            let (used, born, faults) = model.frame(sizes, scripts);
            let mut images = vec![];
            for (workers, world) in WORKERS.iter().zip(&mut worlds) {
                let before = world.take().expect("a world");
                let (after, report, told) = framed(before, sizes, scripts, *workers);
                assert!(told.into_iter().eq(used.iter().map(|it| *it as u32)));
                let mut all = report.born.clone();
                all.sort_unstable();
                assert_eq!((&all, report.faults.len()), (&born, faults));
                images.push((image_of(&after), report.born));
                *world = Some(after);
            }
            assert!(images.iter().all(|it| *it == images[0]), "seed {seed}");
            model.expect(worlds[0].as_ref().expect("a world"));
        }
    });
}

#[test]
fn sizes_follow_what_was_wanted() {
    let mut images = vec![];
    for workers in WORKERS {
        let (mut world, mut sizes) = (World::new(), [BlockSize::new(150); 4]);
        // How many a system spawns, one after the other, and what its size then is.
        for (wanted, then) in [
            ([0, 10, 64, 100], [64, 64, 128, 130]),
            ([1, 70, 100, 100], [64, 130, 150, 150]),
            ([64, 0, 200, 33], [128, 64, 150, 66]),
        ] {
            let systems = wanted.map(|count| Script(vec![Step::Spawn(7); count]));
            let (phase, mut reservers) = open(world, &sizes.map(|it| it.size()));
            let ran = fill_in_blocks(&StdThreads, &phase, &mut reservers, &systems, workers);
            let queues = ran.expect("memory");
            for ((size, reserver), wanted) in sizes.iter_mut().zip(&reservers).zip(wanted) {
                assert_eq!(reserver.used(), size.size().min(wanted as u32));
                size.adapt(reserver.wanted());
            }
            assert_eq!(sizes.map(|it| it.size()), then);
            world = ended((phase, reservers));
            // Refused spawns are faults.
            let report = world.apply(queues).expect("memory");
            let spawns: usize = wanted.iter().sum();
            assert_eq!(report.born.len() + report.faults.len(), spawns);
        }
        images.push(image_of(&world));
    }
    assert!(images.iter().all(|it| *it == images[0]));
}

/// Systems that spawn all at once, and are refused if their block is smaller.
#[test]
fn a_bulk_that_was_refused_is_served_in_the_next_frame() {
    const BULKS: [u32; 3] = [10, 100, 1000];
    let systems = BULKS.map(|bulk| {
        move |_: &View<'_>, commands: &mut WorldCommands<'_, Blocks>| match commands
            .spawn_many_with(bulk, &[])
        {
            Ok(_) => Ok(()),
            Err(refused) => refused.or_memory(),
        }
    });
    for workers in WORKERS {
        let (mut world, mut sizes) = (World::new(), [BlockSize::new(4096); 3]);
        for (then, faults) in [([64, 200, 2000], 2), ([64, 200, 2000], 0)] {
            let (phase, mut reservers) = open(world, &sizes.map(|it| it.size()));
            let ran = fill_in_blocks(&StdThreads, &phase, &mut reservers, &systems, workers);
            let queues = ran.expect("memory");
            for (size, reserver) in sizes.iter_mut().zip(&reservers) {
                size.adapt(reserver.wanted());
            }
            assert_eq!(sizes.map(|it| it.size()), then);
            world = ended((phase, reservers));
            assert_eq!(world.apply(queues).expect("memory").faults.len(), faults);
        }
        assert_eq!(world.len(), 10 + 10 + 100 + 1000);
    }
}

/// A world with six slots that wait and two that live, and the handles that three blocks of ten
/// have.
fn used_world() -> (World, Vec<Handle>) {
    let (mut world, mut model) = (small_world(1000, 9), Model::new(1000, 9));
    for _ in 0..8 {
        world.spawn(&[]).expect("a slot");
        model.alloc().expect("a slot");
    }
    for one in world.by_birth().expect("memory").iter().skip(2) {
        world.despawn(*one).expect("alive");
        model.free(*one).expect("alive");
    }
    let mut pool = model.pool();
    pool.truncate(30);
    pool.sort_unstable();
    (world, pool)
}

/// Flushes a world after a run that was broken off: all handles of the blocks are born, without
/// components.
fn expect_all_born(mut world: World, blocks: &[Handle]) {
    assert!(world.needs_flush());
    world.flush().expect("memory");
    assert_eq!(world.len(), 32);
    for one in blocks {
        assert_eq!(world.items(*one).expect("alive").count(), 0);
    }
}

#[test]
fn after_a_system_of_a_world_stops_or_panics_the_phase_closes() {
    for (workers, last) in WORKERS
        .iter()
        .flat_map(|it| [(*it, Step::Memory), (*it, Step::Panic)])
    {
        let systems = [
            Script(vec![Step::Spawn(1), Step::Despawn(0)]),
            Script(vec![]),
            Script(vec![Step::Spawn(1), last]),
        ];
        let (world, blocks) = used_world();
        let (phase, mut reservers) = open(world, &[10; 3]);
        let running = AssertUnwindSafe(|| {
            fill_in_blocks(&StdThreads, &phase, &mut reservers, &systems, workers)
        });
        match catch_unwind(running) {
            Ok(ran) => {
                let error = ran.expect_err("a system stopped");
                assert_eq!(error, RunError::Lost(Some(OutOfMemory)));
            }
            Err(panic) => assert_eq!(panic.downcast_ref(), Some(&"the system")),
        }
        assert_eq!(phase.view().by_birth().expect("memory").len(), 2);
        expect_used_up(&phase, &reservers);
        expect_all_born(ended((phase, reservers)), &blocks);
    }
}

/// After it, the world can also be as it was when it was opened.
#[test]
fn a_frame_that_was_broken_off_can_be_cancelled() {
    let (world, blocks) = used_world();
    let before = image_of(&world);
    let (phase, mut reservers) = open(world, &[10; 3]);
    let systems = vec![Script(vec![Step::Spawn(1), Step::Memory]); 3];
    let ran = fill_in_blocks(&StdThreads, &phase, &mut reservers, &systems, 2);
    assert!(ran.is_err());
    let mut world = phase.close(reservers).expect("all are here").cancel();
    assert_eq!((image_of(&world), world.needs_flush()), (before, false));
    assert!(blocks.contains(&world.spawn(&[]).expect("a slot")));
}

#[test]
fn the_first_fault_of_a_frame_in_blocks_is_returned_and_all_is_as_it_was() {
    let one = Script(vec![Step::Spawn(1)]);
    for (systems, workers, error) in [
        (2, 0, RunError::Workers),
        (2, 65, RunError::Workers),
        (65_537, 65, RunError::Workers),
        (65_537, 64, RunError::Systems),
        (1, 64, RunError::Reservers),
        (3, 1, RunError::Reservers),
        (0, 1, RunError::Reservers),
    ] {
        let systems = vec![one.clone(); systems];
        let (phase, mut reservers) = open(used_world().0, &[10, 10]);
        let ran = fill_in_blocks(&StdThreads, &phase, &mut reservers, &systems, workers);
        let told = ran.expect_err("refused");
        assert_eq!((told.to_string(), told), (error.to_string(), error));
        assert_eq!(used_of(&reservers), [0, 0]);
        let systems = vec![one.clone(); 2];
        let ran = fill_in_blocks(&StdThreads, &phase, &mut reservers, &systems, 1);
        let queues = ran.expect("all is as it was");
        let mut world = ended((phase, reservers));
        let report = world.apply(queues).expect("memory");
        assert_eq!((world.len(), report.born.len()), (4, 2));
    }
}

/// No system of a world runs with a reserver of another phase, and nothing changes.
#[test]
fn a_reserver_of_another_phase_of_a_world_is_refused() {
    let systems = vec![Script(vec![Step::Spawn(1)]); 2];
    let (phase, mut reservers) = open(used_world().0, &[10, 10]);
    let (_other, mut others) = open(used_world().0, &[10, 10]);
    reservers[1].reserve_many(3).expect("of the block");
    others[1].reserve_many(5).expect("of the block");
    std::mem::swap(&mut reservers[1], &mut others[1]);
    let ran = fill_in_blocks(&StdThreads, &phase, &mut reservers, &systems, 2);
    assert_eq!(ran.expect_err("refused"), RunError::OtherPhase);
    assert_eq!([used_of(&reservers), used_of(&others)], [[0, 5], [0, 3]]);
    std::mem::swap(&mut reservers[1], &mut others[1]);
    let ran = fill_in_blocks(&StdThreads, &phase, &mut reservers, &systems, 2);
    assert_eq!(ran.expect("all are of the phase").len(), 2);
    assert_eq!(used_of(&reservers), [1, 4]);
}

/// Two runs in one phase: the second one goes on in the blocks where the first one ended.
#[test]
fn a_phase_may_have_several_runs() {
    for workers in WORKERS {
        let systems = vec![Script(vec![Step::Spawn(5), Step::Spawn(6)]); 2];
        let (phase, mut reservers) = open(World::new(), &[5, 5]);
        let mut fill = || {
            let ran = fill_in_blocks(&StdThreads, &phase, &mut reservers, &systems, workers);
            (ran.expect("memory"), used_of(&reservers))
        };
        let ((queues, used), (_, then)) = (fill(), fill());
        assert_eq!((used, then), (vec![2, 2], vec![4, 4]));
        let mut world = ended((phase, reservers));
        let born = world.apply(queues).expect("memory").born;
        let index = |of: &Handle| of.index();
        let mut all: Vec<u32> = born.iter().map(index).collect();
        all.sort_unstable();
        assert_eq!(all, [0, 1, 2, 3, 5, 6, 7, 8]);
        // Only what the first run issued took effect.
        let energies = world.by_birth().expect("memory");
        let with = energies.iter().filter(|it| world.get(**it, HP).is_some());
        let mut with: Vec<u32> = with.map(index).collect();
        with.sort_unstable();
        assert_eq!(with, [0, 1, 5, 6]);
    }
}

/// All systems ran, and a block has no system: the phase isn't closed without its reserver.
#[test]
fn a_frame_without_a_reserver_of_each_block_ends_later() {
    let systems = vec![Script(vec![Step::Spawn(5), Step::Spawn(6)]); 2];
    let (phase, mut reservers) = open(used_world().0, &[10; 3]);
    let ran = fill_in_blocks(&StdThreads, &phase, &mut reservers[..2], &systems, 2);
    let queues = ran.expect("memory");
    assert_eq!(used_of(&reservers), [2, 2, 0]);
    let last = reservers.pop().expect("three");
    let unclosed = phase.close(reservers).expect_err("one is missing");
    assert_eq!(unclosed.to_string(), "missing callers: 1");
    let ((phase, mut reservers), error) = unclosed.into_parts();
    assert_eq!(error, CloseError::Missing { count: 1 });
    assert_eq!(used_of(&reservers), [2, 2]);

    // Neither with one of another phase, nor in another order.
    reservers.push(last);
    let (_other, mut others) = open(World::new(), &[1]);
    reservers.append(&mut others);
    let unclosed = phase.close(reservers).expect_err("one is of another phase");
    let ((phase, mut reservers), error) = unclosed.into_parts();
    assert_eq!((error, reservers.len()), (CloseError::OtherPhase, 4));
    reservers.truncate(3);
    reservers.rotate_left(1);
    let unclosed = phase.close(reservers).expect_err("in another order");
    let ((mut phase, none), error) = unclosed.into_parts();
    assert_eq!((error, none.len()), (CloseError::Order, 0));
    let mut reservers = vec![];
    while let Some(reserver) = phase.reserver().expect("few owners") {
        reservers.insert(0, reserver);
    }
    reservers.rotate_right(1);

    let mut world = ended((phase, reservers));
    // The queues are of this world alone.
    let Err(SyncError::OtherWorld(queues)) = World::new().apply(queues) else {
        panic!("the queues are of another world")
    };
    let report = world.apply(queues).expect("memory");
    assert_eq!((report.born.len(), world.len()), (4, 6));
}

/// What is left of the block of a lost reserver counts as used.
#[test]
fn a_world_whose_reservers_are_lost() {
    let (world, blocks) = used_world();
    let (phase, reservers) = open(world, &[10; 3]);
    let unclosed = phase.close(vec![]).expect_err("none is here");
    let ((phase, none), error) = unclosed.into_parts();
    assert_eq!((error, none.len()), (CloseError::Missing { count: 3 }, 0));
    let unclosed = phase.close_lost(none).expect_err("they are in use");
    let ((phase, none), error) = unclosed.into_parts();
    assert_eq!(error, CloseError::InUse);
    drop(reservers);
    let ended = phase.close_lost(none).expect("nobody else has one");
    expect_all_born(ended.into_world().expect("memory"), &blocks);
}

#[test]
fn a_world_is_opened_in_blocks_only_after_a_flush() {
    let (phase, mut reservers) = open(World::new(), &[2]);
    let one = reservers[0].reserve().expect("a handle");
    assert_eq!((phase.count(), reservers[0].wanted()), (1, 1));
    let closed = ended((phase, reservers));
    let unopened = closed
        .open_in::<Blocks>(&[2])
        .expect_err("it needs a flush");
    assert_eq!(unopened.to_string(), "a flush is needed first");
    let (mut world, error) = unopened.into_parts();
    assert_eq!(error, ShareError::NeedsFlush);
    world.flush().expect("memory");
    assert!(world.contains(one));

    // Spawns before the phase are counted on after it: no two entities have the same birth.
    let (cart, parts) = (world.spawn(&[]).expect("a slot"), open(world, &[]));
    let mut world = ended(parts);
    let horse = world.spawn(&[]).expect("a slot");
    let ordinal = |one| world.birth(one).expect("alive").ordinal;
    assert_eq!((ordinal(cart), ordinal(horse)), (0, 1));
}

#[test]
fn no_systems_make_a_frame_in_blocks() {
    for workers in WORKERS {
        let (world, report, _) = framed(used_world().0, &[], &[] as &[Script], workers);
        assert_eq!((world.len(), world.frame()), (2, 1));
        assert!(report.born.is_empty());
    }
}

/// Closures are systems too, and those of several types go into one list.
#[test]
fn systems_of_several_types_run_together() {
    type Boxed<'a> = Box<
        dyn Fn(&View<'_>, &mut WorldCommands<'_, Blocks>) -> Result<(), OutOfMemory> + Sync + 'a,
    >;
    let value = 9;
    let systems: [Boxed<'_>; 2] = [
        Box::new(|_, commands| {
            assert_eq!(commands.left(), 1);
            let one = commands.spawn_with(&[(HP, value)]).expect("a handle");
            let refused = commands.spawn_with(&[]).expect_err("it is used up");
            assert_eq!(refused, ReserveError::Space { wanted: 1, left: 0 });
            commands.insert_with(one, &[(AGE, 1)])
        }),
        Box::new(|view, commands| commands.despawn(view.by_birth()?[0])),
    ];
    let (world, report, _) = framed(used_world().0, &[1, 0], &systems, 2);
    let one = report.born[0];
    assert_eq!(
        (world.get(one, HP), world.get(one, AGE)),
        (Some(9), Some(1))
    );
    assert_eq!((world.len(), report.faults.len()), (2, 1));
}

/// More than 70,000 handles in one frame: of slots that wait, and of new ones.
#[test]
fn large_frames_in_blocks() {
    const EACH: u32 = 20_000;
    let mut images = vec![];
    for workers in WORKERS {
        let mut world = World::new();
        for _ in 0..30_000 {
            world.spawn(&[]).expect("a slot");
        }
        for one in world.by_birth().expect("memory") {
            world.despawn(one).expect("alive");
        }
        let script = Script(vec![
            Step::SpawnMany(EACH - 2, 1),
            Step::Spawn(2),
            Step::Spawn(3),
            Step::Spawn(4),
        ]);
        let (world, report, _) = framed(world, &[EACH; 4], &vec![script; 4], workers);
        assert_eq!((report.born.len(), world.len()), (80_000, 80_000));
        assert_eq!(report.faults.len(), 4);
        for (nth, one) in (0..).zip(world.by_birth().expect("memory")) {
            let (system, ordinal) = (nth / EACH, nth % EACH);
            assert_eq!(
                world.birth(one),
                Some(Birth {
                    frame: 0,
                    system,
                    ordinal
                })
            );
            let value = 1 + i64::from(ordinal.saturating_sub(EACH - 3));
            assert_eq!(world.get(one, HP), Some(value));
            // The first block and half of the second are of slots that wait, the last one first.
            assert_eq!(one.generation(), if one.index() < 30_000 { 2 } else { 1 });
            let start = system * EACH;
            let block = start..start + EACH;
            let place = if one.index() < 30_000 {
                29_999 - one.index()
            } else {
                one.index()
            };
            assert!(block.contains(&place), "{one} of system {system}");
        }
        images.push(image_of(&world));
    }
    assert!(images.iter().all(|it| *it == images[0]));
}
