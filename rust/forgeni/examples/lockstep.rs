//! A simulation that is the same on every machine, handles included: 10,000 frames with the same
//! inputs on one worker, on four and on eight. After each frame a digest of all handles and
//! components is the same, although the workers take the systems in any order. Each 1,000 frames
//! the game steps back eight frames and plays them again, and each digest is that of the first
//! time.
//!
//! Systems spawn while they run, in blocks: each system has a block of handles of its own, so which
//! handle a spawn gets doesn't depend on the other systems. A system's next block is twice as large
//! as what it used of this one, and at least 64. The sizes are part of the game, so a frame that is
//! played again has the same ones.
//!
//! It prints
//!
//! ```text
//! 10000 frames on 1 worker: 422470 spawns, 0 refused, digest 7d675c16a4bf099f
//! on 4 workers: the same digest after each frame
//! on 8 workers: the same digest after each frame
//! 72 frames played again: the same digests
//! 1000 frames of a world on 1 worker: 20972 bytes, digest 0ffcf8380721a87f
//! on 4 workers: the same bytes after each frame
//! on 8 workers: the same bytes after each frame
//! ```
//!
//! The last lines are of a game whose entities and components are in a `World`. What is compared is
//! its image, so it is the same births too, and the same handles that come next.

use forgeni::{fill_in_blocks, ComponentId, View, World, WorldCommands};
use forgeni::{run_in_blocks, BlockSize, Blocks, Entities, Entry, Handle, HandleMap};
use forgeni::{LogCommands, StdThreads, SyncPoint};

/// A system can return any error, from any thread.
type Result<T> = std::result::Result<T, Failure>;
type Failure = Box<dyn std::error::Error + Send + Sync>;

const FRAMES: u64 = 10_000;
const SYSTEMS: usize = 6;
/// How many frames the game steps back, and how often.
const BACK: u64 = 8;
const EVERY: u64 = 1_000;
/// How many entities the game holds about.
const MANY: u64 = 240;

/// A pseudo-random number (the steps of splitmix64).
fn mixed(number: u64) -> u64 {
    let mut all = number.wrapping_add(0x9e37_79b9_7f4a_7c15);
    all = (all ^ all >> 30).wrapping_mul(0xbf58_476d_1ce4_e5b9);
    all = (all ^ all >> 27).wrapping_mul(0x94d0_49bb_1331_11eb);
    all ^ all >> 31
}

/// What a system wants done at the end of the frame.
#[derive(Clone, Copy)]
enum Command {
    /// The entity has this energy.
    Change(Handle, u64),
    Despawn(Handle),
}

/// Spawns an entity with this energy.
fn spawn(commands: &mut LogCommands<'_, Command, Blocks>, energy: u64) -> Result<()> {
    match commands.spawn() {
        Ok(new) => commands.push(Command::Change(new, energy))?,
        // A block that is used up refuses, and it does so on every machine. The sync point counts
        // it.
        Err(refused) => refused.or_memory()?,
    }
    Ok(())
}

#[derive(Clone)]
struct Game {
    frame: u64,
    entities: Entities,
    energy: HandleMap<u64>,
    /// How many handles each system's block has in the next frame.
    sizes: [BlockSize; SYSTEMS],
    spawned: u64,
    refused: u64,
}

impl Game {
    fn new() -> Result<Self> {
        let mut game = Game {
            frame: 0,
            entities: Entities::new(),
            energy: HandleMap::new(),
            sizes: [BlockSize::new(4096); SYSTEMS],
            spawned: 0,
            refused: 0,
        };
        for seed in 0..MANY {
            let one = game.entities.alloc()?;
            game.energy.insert(one, mixed(seed))?;
        }
        Ok(game)
    }

    /// The players' inputs of this frame, which all machines know.
    fn input(&self) -> u64 {
        mixed(self.frame ^ 0x10c5)
    }

    /// A system looks at its share of the entities. Many of them spawn, as long as there are few.
    fn run(&self, system: usize, commands: &mut LogCommands<'_, Command, Blocks>) -> Result<()> {
        let crowd = self.energy.len() as u64;
        for (one, energy) in &self.energy {
            if one.index() as usize % SYSTEMS != system {
                continue;
            }
            let luck = mixed(one.to_bits() ^ *energy ^ self.input());
            match luck % 64 {
                0..4 if luck >> 8 & 0xff < 512 - crowd.min(512) => spawn(commands, mixed(luck))?,
                4..6 => {
                    spawn(commands, luck)?;
                    spawn(commands, !luck)?;
                }
                6..10 if crowd > MANY / 2 => commands.push(Command::Despawn(one))?,
                _ => commands.push(Command::Change(one, energy.wrapping_add(luck)))?,
            }
        }
        Ok(())
    }

    /// Runs a frame: the workers take one system after another, in any order.
    fn step(&mut self, workers: usize) -> Result<()> {
        let entities = std::mem::take(&mut self.entities);
        let sizes = self.sizes.map(|it| it.size());
        let (phase, mut reservers) = entities.share_in::<Blocks>(&sizes)?;
        let game = &*self;
        let systems: [_; SYSTEMS] = std::array::from_fn(|system| {
            move |commands: &mut LogCommands<'_, Command, Blocks>| game.run(system, commands)
        });
        let mut logs = run_in_blocks(&StdThreads, &phase, &mut reservers, &systems, workers)?;
        for (size, reserver) in self.sizes.iter_mut().zip(&reservers) {
            size.adapt(reserver.wanted());
        }
        self.entities = phase.close(reservers)?.into_entities()?;
        let mut born = Vec::new();
        let mut sync = SyncPoint::begin(&mut self.entities, &mut logs, &mut born)?;
        self.spawned += born.len() as u64;
        let (energies, refused) = (&mut self.energy, &mut self.refused);
        sync.apply(&mut self.entities, |entities, entry| match entry {
            Entry::Spawn(_) => Ok(()),
            Entry::Refused(_) => {
                *refused += 1;
                Ok(())
            }
            Entry::Command(Command::Change(one, energy)) => match energies.insert(one, energy) {
                Ok(_) => Ok(()),
                Err(error) => Err((entry, error.into())),
            },
            Entry::Command(Command::Despawn(one)) => {
                energies.remove(one);
                match entities.free(one) {
                    Ok(_) => Ok(()),
                    Err(error) => Err((entry, Failure::from(error))),
                }
            }
        })?;
        self.frame += 1;
        Ok(())
    }

    /// A digest of all handles and their components, and of the handles that come next.
    fn digest(&self) -> u64 {
        let mut all =
            mixed(u64::from(self.entities.total()) ^ u64::from(self.entities.top()) << 32);
        for one in self.entities.iter() {
            let energy = self.energy.get(one).copied().unwrap_or(0);
            all = mixed(all ^ one.to_bits() ^ mixed(energy));
        }
        all
    }
}

/// Returns the digest after each frame, the game at the end, and how many frames were played again.
fn play(workers: usize) -> Result<(Vec<u64>, Game, u64)> {
    let mut game = Game::new()?;
    let mut digests: Vec<u64> = vec![];
    let (mut kept, mut again) = (game.clone(), 0);
    while game.frame < FRAMES {
        if game.frame % EVERY == EVERY - BACK {
            kept = game.clone();
        }
        game.step(workers)?;
        digests.push(game.digest());
        if game.frame % EVERY == 0 && game.frame < FRAMES {
            let mut back = kept.clone();
            while back.frame < game.frame {
                back.step(workers)?;
                assert_eq!(back.digest(), digests[back.frame as usize - 1]);
                again += 1;
            }
            game = back;
        }
    }
    Ok((digests, game, again))
}

/// How many frames the game in a world has, and the component that its entities have.
const WORLD_FRAMES: u64 = 1_000;
const ENERGY: ComponentId = ComponentId(0);

/// A system of that game: as `Game::run`, but it reads the world, and issues the world's own
/// commands.
fn run_in_world(
    system: usize,
    view: &View<'_>,
    commands: &mut WorldCommands<'_, Blocks>,
) -> Result<()> {
    let (all, input) = (view.with(ENERGY)?, mixed(view.phase() ^ 0x10c5));
    let crowd = all.len() as u64;
    for one in all {
        if one.index() as usize % SYSTEMS != system {
            continue;
        }
        let energy = view.get(one, ENERGY).unwrap_or(0);
        let luck = mixed(one.to_bits() ^ energy as u64 ^ input);
        match luck % 64 {
            0..8 if luck >> 8 & 0xff < 512 - crowd.min(512) => {
                if let Err(refused) = commands.spawn_many_with(2, &[(ENERGY, luck as i64)]) {
                    refused.or_memory()?;
                }
            }
            8..12 if crowd > MANY / 2 => commands.despawn(one)?,
            _ => commands.insert_with(one, &[(ENERGY, energy.wrapping_add(luck as i64))])?,
        }
    }
    Ok(())
}

/// The image of the world after each frame.
fn play_world(workers: usize) -> Result<Vec<Vec<u8>>> {
    let (mut world, mut images) = (World::new(), vec![]);
    for seed in 0..MANY {
        world.spawn(&[(ENERGY, mixed(seed) as i64)])?;
    }
    let mut sizes = [BlockSize::new(4096); SYSTEMS];
    let systems: [_; SYSTEMS] = std::array::from_fn(|system| {
        move |view: &View<'_>, commands: &mut WorldCommands<'_, Blocks>| {
            run_in_world(system, view, commands)
        }
    });
    for _ in 0..WORLD_FRAMES {
        let (phase, mut reservers) = world.open_in::<Blocks>(&sizes.map(|it| it.size()))?;
        let queues = fill_in_blocks(&StdThreads, &phase, &mut reservers, &systems, workers)?;
        for (size, reserver) in sizes.iter_mut().zip(&reservers) {
            size.adapt(reserver.wanted());
        }
        world = phase.close(reservers)?.into_world()?;
        world.apply(queues)?;
        let mut image = vec![];
        world.write_image(&mut image)?;
        images.push(image);
    }
    Ok(images)
}

fn main() -> Result<()> {
    let (first, game, again) = play(1)?;
    let (spawned, refused, last) = (game.spawned, game.refused, game.digest());
    println!(
        "{FRAMES} frames on 1 worker: {spawned} spawns, {refused} refused, digest {last:016x}"
    );
    for workers in [4, 8] {
        let (digests, ..) = play(workers)?;
        for (frame, (one, other)) in first.iter().zip(&digests).enumerate() {
            assert_eq!(one, other, "after frame {frame} on {workers} workers");
        }
        println!("on {workers} workers: the same digest after each frame");
    }
    println!("{again} frames played again: the same digests");

    let images = play_world(1)?;
    let last = images.last().expect("there are frames");
    let digest = last
        .iter()
        .fold(0, |all, byte| mixed(all ^ u64::from(*byte)));
    let bytes = last.len();
    println!("{WORLD_FRAMES} frames of a world on 1 worker: {bytes} bytes, digest {digest:016x}");
    for workers in [4, 8] {
        let others = play_world(workers)?;
        for (frame, (one, other)) in images.iter().zip(&others).enumerate() {
            assert!(
                one == other,
                "after frame {frame} of a world on {workers} workers"
            );
        }
        println!("on {workers} workers: the same bytes after each frame");
    }
    Ok(())
}
