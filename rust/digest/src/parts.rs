//! The parts of the package. Each returns the digest of what its calls returned.

use crate::{below, digest_of, mixed, played, Digest, Result};
use alloc::vec::Vec;
use forgeni::{run_frame, run_in_blocks};
use forgeni::{Blocks, ComponentId, Entities, Entry, Handle, HandleMap, Log, LogCommands};
use forgeni::{
    OutOfMemory, Reserver, SparseMap, StdThreads, SyncPoint, SystemCommands, View, World,
};

/// Calls for one caller, refusals included: of slots, of generations, and of handles from
/// elsewhere.
pub fn allocator() -> Result<u64> {
    let (mut digest, mut born) = (Digest(1), Vec::new());
    for step in 0..played::STEPS {
        let mut entities = played::entities(step)?;
        digest.take(entities.alloc());
        digest.take(entities.request_many(3));
        digest.take(entities.request_many(u32::MAX));
        entities.flush(&mut born)?;
        let edges = [
            (0, 1),
            (u32::MAX - 1, 1),
            (0, u32::MAX >> 1),
            (4_000_000_000, 7),
        ];
        for one in edges
            .iter()
            .filter_map(|of| Handle::new(of.0, of.1))
            .chain(born.drain(..))
        {
            digest.take((
                one,
                entities.state(one),
                entities.free(one),
                entities.row(one),
            ));
        }
        digest.take((entities.alloc_many(300), entities.alloc_many(5)));
        digest.take(&entities);
    }
    Ok(digest.0)
}

/// A phase on a borrow, in which three reservers take turns.
pub fn phase() -> Result<u64> {
    let (mut digest, mut entities) = (Digest(2), played::entities(30)?);
    entities.flush(&mut Vec::new())?;
    entities.phase(3, |_, reservers| {
        for turn in 0..60 {
            let one = &mut reservers[below(3, mixed(turn))];
            digest.take((one.reserve(), one.reserve_many(turn as u32 % 4)));
        }
    })?;
    digest.take((born(&mut entities)?, entities.len()));
    Ok(digest.0)
}

/// A phase whose reservers are owned.
pub fn shared() -> Result<u64> {
    let mut digest = Digest(3);
    let (shared, mut reservers) = played::entities(0)?.share(2)?;
    for turn in 0..100 {
        digest.take(reservers[turn % 2].reserve_many(turn as u32 % 5));
    }
    digest.take((
        &shared,
        reservers
            .iter()
            .map(Reserver::quota_left)
            .collect::<Vec<_>>(),
    ));
    let mut entities = shared.close(reservers)?;
    digest.take(born(&mut entities)?);
    Ok(digest.0)
}

/// What a flush brings to life.
fn born(entities: &mut Entities) -> Result<Vec<Handle>> {
    let mut born = Vec::new();
    entities.flush(&mut born)?;
    Ok(born)
}

/// Both maps, with the same calls.
pub fn maps() -> Result<u64> {
    let mut digest = Digest(4);
    let mut all = HandleMap::with_limit(500);
    let mut few = SparseMap::with_limit(400);
    for turn in 0..3_000 {
        let luck = mixed(turn);
        let one = Handle::new(luck as u32 % 512, 1 + (luck >> 40) as u32 % 3).ok_or("no handle")?;
        match luck >> 60 {
            0..4 => digest.take((all.remove(one), few.remove(one))),
            4..6 => digest.take((all.get(one), few.get(one), all.contains(one))),
            _ => digest.take((all.insert(one, luck), few.insert(one, luck as u16))),
        }
    }
    digest.take((
        &all,
        &few,
        few.entries(),
        all.try_clone()?,
        few.try_clone()?,
    ));
    let far = Handle::new(4_000_000_000, 1).ok_or("no handle")?;
    digest.take((all.insert(far, 1), few.insert(far, 1)));
    Ok(digest.0)
}

/// Logs of commands, whose spawns are of a phase, and their sync point.
pub fn logs() -> Result<u64> {
    let (mut digest, mut entities, mut logs) = (Digest(5), Entities::new(), Vec::new());
    entities.phase(2, |_, reservers| {
        for system in 0..8 {
            let mut log = Log::new();
            for turn in 0..system {
                digest.take(log.spawn(&mut reservers[turn % 2]));
                log.push(100 * system + turn)?;
            }
            logs.push(log);
        }
        Ok::<(), OutOfMemory>(())
    })??;
    sync(&mut entities, &mut logs, &mut digest)?;
    Ok(digest.0)
}

/// Brings to life what was spawned, and takes the entries.
fn sync(entities: &mut Entities, logs: &mut Vec<Log<usize>>, digest: &mut Digest) -> Result<()> {
    let mut born = Vec::new();
    let mut sync = SyncPoint::begin(entities, logs, &mut born)?;
    sync.apply(entities, |entities, entry| {
        digest.take((&entry, entities.len()));
        Ok::<(), (Entry<usize>, OutOfMemory)>(())
    })?;
    digest.take(born);
    Ok(())
}

/// Systems that fill logs, on one worker and on two, each with a block of handles.
pub fn blocks() -> Result<u64> {
    let mut digest = Digest(6);
    for workers in 1..3 {
        let (phase, mut reservers) = Entities::new().share_in::<Blocks>(&[2, 16, 0, 16])?;
        let mut logs = run_in_blocks(&StdThreads, &phase, &mut reservers, &[fill; 4], workers)?;
        digest.take(&reservers);
        let mut entities = phase.close(reservers)?.into_entities()?;
        sync(&mut entities, &mut logs, &mut digest)?;
    }
    Ok(digest.0)
}

fn fill(commands: &mut LogCommands<'_, usize, Blocks>) -> core::result::Result<(), OutOfMemory> {
    for turn in 0..10 {
        match commands.spawn() {
            Ok(one) => commands.push(one.index() as usize + turn)?,
            Err(refused) => refused.or_memory()?,
        }
    }
    Ok(())
}

const AGE: ComponentId = ComponentId(5);

/// Frames of a world: with one worker its image, and with two, where handles depend on the workers,
/// the births and the components.
pub fn frames() -> Result<u64> {
    let mut digest = Digest(7);
    for workers in 1..3 {
        let (mut world, mut image) = (World::new(), Vec::new());
        for _ in 0..6 {
            run_frame(&StdThreads, &mut world, &[grow; 3], workers)?;
        }
        for one in world.by_birth()? {
            digest.take((world.birth(one), world.get(one, AGE)));
        }
        if workers == 1 {
            world.write_image(&mut image)?;
            digest.take(digest_of(&image));
        }
    }
    Ok(digest.0)
}

/// What is alive grows older, and two are spawned.
fn grow(
    view: &View<'_>,
    commands: &mut SystemCommands<'_>,
) -> core::result::Result<(), OutOfMemory> {
    for one in view.with(AGE)? {
        let age = view.get(one, AGE).unwrap_or(0);
        commands.insert_with(one, &[(AGE, age + 1)])?;
    }
    let spawned = commands.spawn_many_with(2, &[(AGE, 0)]);
    spawned.map_or_else(|refused| refused.or_memory(), |_| Ok(()))
}
