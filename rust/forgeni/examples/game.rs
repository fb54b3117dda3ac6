//! A game to begin from, of 10,000 ships with drones. A frame has two stages of four systems, which
//! run side by side on threads. Those of the first stage change components, each those of one map:
//! if two changed the same map, it wouldn't compile. Those of the second stage look at all
//! components, spawn, and issue commands of the game's own type, each into its log. A sync point
//! runs the commands in the order of the systems.
//!
//! The game runs on 1, 2, 4 and 8 threads. Only the handles depend on their number:
//!
//! ```text
//! threads: 1, launched: 46519, lost: 15871, digest: 782db46486321508
//! threads: 2, launched: 46519, lost: 15871, digest: 782db46486321508
//! threads: 4, launched: 46519, lost: 15871, digest: 782db46486321508
//! threads: 8, launched: 46519, lost: 15871, digest: 782db46486321508
//! ```

use forgeni::{
    run_logs, Entities, Entry, Follows, Handle, HandleMap, Log, LogCommands, StdThreads,
};
use forgeni::{ReserveError, SyncPoint};
use std::{error::Error, sync::Mutex};

const SHIPS: i32 = 10_000;
const FRAMES: usize = 20;

/// How far from the port it is, and how far it flies in a frame.
#[derive(Debug)]
pub struct Body {
    pub place: i32,
    speed: i32,
}

/// Its fuel, and what it gains in a frame. Without fuel it is lost.
#[derive(Debug)]
struct Tank {
    fuel: i32,
    gain: i32,
}

/// The components of all entities, and what has happened to them. Ships alone have a name and
/// drones, and drones alone have a ship.
#[derive(Default)]
pub struct Parts {
    pub bodies: HandleMap<Body>,
    tanks: HandleMap<Tank>,
    names: HandleMap<String>,
    drones: HandleMap<Vec<Handle>>,
    pub ships: HandleMap<Handle>,
    events: Vec<Event>,
}

/// What one frame passes to the next.
enum Event {
    Launched,
    Lost,
}

/// What a system wants done at the sync point, with entities that it has spawned or found.
#[derive(Clone, Copy)]
enum Command {
    Build { ship: Handle, number: i32 },
    Launch { drone: Handle, ship: Handle },
    Turn(Handle),
    Refuel { drone: Handle, ship: Handle },
    Despawn(Handle),
}

#[derive(Default)]
pub struct Game {
    entities: Entities,
    pub parts: Parts,
    /// How many times each event happened.
    score: [usize; 2],
}

/// A system of one stage. It borrows what it reads and changes.
type System<'a> = Mutex<Box<dyn FnMut(&mut Commands<'_>) -> Result<(), ReserveError> + Send + 'a>>;

type Commands<'a> = LogCommands<'a, Command>;

/// A system that changes components, and no more.
fn change<'a>(mut run: impl FnMut() + Send + 'a) -> System<'a> {
    issue(move |_| {
        run();
        Ok(())
    })
}

/// A system that spawns and issues commands. A spawn that is refused ends the game.
fn issue<'a>(
    run: impl FnMut(&mut Commands<'_>) -> Result<(), ReserveError> + Send + 'a,
) -> System<'a> {
    Mutex::new(Box::new(run))
}

impl Game {
    pub fn new() -> Result<Self, Box<dyn Error>> {
        let (mut game, mut log) = (Self::default(), Log::new());
        for number in 0..SHIPS {
            let ship = log.spawn(&mut game.entities)?;
            log.push(Command::Build { ship, number })?;
            for _ in 0..4 {
                let drone = log.spawn(&mut game.entities)?;
                log.push(Command::Launch { drone, ship })?;
            }
        }
        game.sync(vec![log]).map(|()| game)
    }

    pub fn frame(&mut self, threads: usize) -> Result<(), Box<dyn Error>> {
        let (all, score) = (&mut self.parts, &mut self.score);
        let mut events = all.events.drain(..);
        let systems: [System<'_>; 4] = [
            change(|| all.bodies.for_each_mut(|_, body| body.place += body.speed)),
            change(|| all.tanks.for_each_mut(|_, tank| tank.fuel += tank.gain)),
            change(|| {
                // A ship of six drones gets a star a frame.
                let star = |ship| (all.drones[ship].len() >= 6).then_some('*');
                all.names.for_each_mut(|ship, name| name.extend(star(ship)));
            }),
            change(move || events.by_ref().for_each(|event| score[event as usize] += 1)),
        ];
        let logs = run_logs(&StdThreads, &mut self.entities, &systems, threads)?;
        drop(systems);
        self.sync(logs)?;

        // The commands come in this order, so each finds its entity: despawns come last.
        let all = &self.parts;
        let systems: [System<'_>; 4] = [
            issue(|log| {
                let mut far = all.bodies.iter().filter(|it| it.1.place * it.1.speed > 100);
                far.try_for_each(|(one, _)| Ok(log.push(Command::Turn(one))?))
            }),
            issue(|log| {
                for ship in all.drones.keys().filter(|it| all.tanks[*it].fuel >= 60) {
                    let drone = log.spawn()?;
                    log.push(Command::Launch { drone, ship })?;
                }
                Ok(())
            }),
            issue(|log| {
                let mut full = all.ships.iter().filter(|it| all.tanks[it.0].fuel > 15);
                full.try_for_each(|(drone, &ship)| Ok(log.push(Command::Refuel { drone, ship })?))
            }),
            issue(|log| {
                let mut empty = all.tanks.iter().filter(|(_, tank)| tank.fuel <= 0);
                empty.try_for_each(|(one, _)| Ok(log.push(Command::Despawn(one))?))
            }),
        ];
        let logs = run_logs(&StdThreads, &mut self.entities, &systems, threads)?;
        drop(systems);
        self.sync(logs)
    }

    /// Brings to life what was spawned, and runs the commands. The first that fails ends the game,
    /// and so does a spawn that was refused.
    fn sync(&mut self, mut logs: Vec<Log<Command>>) -> Result<(), Box<dyn Error>> {
        let mut sync = SyncPoint::begin(&mut self.entities, &mut logs, &mut Vec::new())?;
        sync.apply(&mut self.entities, |entities, entry| match entry {
            Entry::Spawn(_) => Ok(()),
            Entry::Refused(why) => Err((entry, why.into())),
            Entry::Command(command) => {
                let done = self.parts.run(entities, command);
                done.map_err(|error| (entry, error))
            }
        })
    }
}

impl Parts {
    fn run(&mut self, entities: &mut Entities, command: Command) -> Result<(), Box<dyn Error>> {
        match command {
            Command::Build { ship, number } => {
                let (speed, fuel) = (number % 17 - 8, 200 + number % 60);
                self.bodies.insert(ship, Body { place: 0, speed })?;
                self.tanks.insert(ship, Tank { fuel, gain: -2 })?;
                self.names.insert(ship, format!("ship {number}"))?;
                self.drones.insert(ship, Vec::new())?;
            }
            Command::Launch { drone, ship } => {
                self.tanks[ship].fuel -= 40;
                self.drones[ship].push(drone);
                let place = self.bodies[ship].place;
                let gain = (self.tanks[ship].fuel + place).rem_euclid(3) - 1;
                self.bodies.insert(drone, Body { place, speed: gain })?;
                self.tanks.insert(drone, Tank { fuel: 12, gain })?;
                self.ships.insert(drone, ship)?;
                self.events.push(Event::Launched);
            }
            Command::Turn(one) => self.bodies[one].speed *= -1,
            Command::Refuel { drone, ship } => {
                self.tanks[drone].fuel -= 5;
                self.tanks[ship].fuel += 5;
            }
            Command::Despawn(one) => self.despawn(entities, one)?,
        }
        Ok(())
    }

    /// Removes an entity, and its drones with it. A drone may already be gone, with its ship.
    fn despawn(&mut self, entities: &mut Entities, one: Handle) -> Result<(), Box<dyn Error>> {
        if !entities.is_alive(one) {
            return Ok(());
        }
        (&mut self.bodies, &mut self.tanks, &mut self.names).despawn(entities, one)?;
        self.events.push(Event::Lost);
        let ship = self.ships.remove(one);
        if let Some(drones) = ship.and_then(|ship| self.drones.get_mut(ship)) {
            drones.retain(|drone| *drone != one);
        }
        let mut drones = self.drones.remove(one).into_iter().flatten();
        drones.try_for_each(|drone| self.despawn(entities, drone))
    }

    /// A number made of all components by FNV-1a, whatever handles their entities have.
    pub fn digest(&self) -> u64 {
        let digests = self.bodies.iter().map(|(one, body)| {
            let (tank, name) = (&self.tanks[one], self.names.get(one));
            let drones = self.drones.get(one).map(Vec::len);
            let ship = self.ships.get(one).map(|ship| &self.names[*ship]);
            let text = format!("{body:?} {tank:?} {name:?} {drones:?} {ship:?}");
            let bytes = text.bytes().map(u64::from);
            bytes.fold(0, |sum, byte| (sum ^ byte).wrapping_mul(0x100_0000_01b3))
        });
        digests.fold(0, u64::wrapping_add)
    }
}

fn main() -> Result<(), Box<dyn Error>> {
    let mut first = None;
    for threads in [1, 2, 4, 8] {
        let mut game = Game::new()?;
        (0..FRAMES).try_for_each(|_| game.frame(threads))?;
        let ([launched, lost], digest) = (game.score, game.parts.digest());
        println!("threads: {threads}, launched: {launched}, lost: {lost}, digest: {digest:016x}");
        assert_eq!(*first.get_or_insert(digest), digest, "another game");
    }
    Ok(())
}
