//! A game in fifteen minutes: ships launch drones, and sink with them when their fuel is gone. Its
//! last ten frames are played from a save too, and again from a snapshot. It prints
//!
//! ```text
//! [("place", 24), ("fuel", 24), ("name", 4), ("ship", 20)]
//! ```

use forgeni::{run_to_sync_point, tables, AnyMap, Entities, Entry, Follows, Handle, HandleMap};
use forgeni::{JoinMaps, LogCommands, LogSystem, SparseMap, StdThreads};
use std::{error::Error, fmt::Display, str::FromStr, sync::Mutex};

type Result<T = ()> = std::result::Result<T, Box<dyn Error>>;

// All have a place and fuel. Ships alone have a name, and drones alone a ship.
tables! {
    #[derive(PartialEq)]
    struct Parts {
        place: HandleMap<i32>,
        fuel: HandleMap<i32>,
        name: SparseMap<String>,
        ship: SparseMap<Handle>,
    }
}

/// What a system wants done when all systems have run.
#[derive(Clone, Copy)]
enum Command {
    Launch(Handle, Handle),
    Sink(Handle),
}

/// Three systems run side by side. Then come their commands, in the order of the systems.
fn frame(entities: &mut Entities, parts: &mut Parts) -> Result {
    let fly = Mutex::new(|_: &mut LogCommands<'_, Command>| {
        let drones = (&mut parts.place, &parts.ship).join();
        drones.for_each(|(_, place, _)| *place += 1);
        Ok(())
    });
    let launch = |commands: &mut LogCommands<'_, Command>| {
        let mut ships = parts.name.keys();
        ships.try_for_each(|ship| match commands.spawn() {
            Ok(drone) => commands.push(Command::Launch(drone, ship)),
            Err(refused) => refused.or_memory(),
        })
    };
    let burn = Mutex::new(|commands: &mut LogCommands<'_, Command>| {
        parts.fuel.values_mut().for_each(|fuel| *fuel -= 1);
        let mut empty = parts.fuel.iter().filter(|(_, fuel)| **fuel == 0);
        empty.try_for_each(|(one, _)| commands.push(Command::Sink(one)))
    });
    let systems: [&(dyn LogSystem<Command> + Sync); 3] = [&fly, &launch, &burn];
    let mut sync = run_to_sync_point(&StdThreads, entities, &systems, 4, &mut Vec::new())?;
    sync.apply(entities, |all, it| parts.run(all, it).map_err(|e| (it, e)))
}

impl Parts {
    fn run(&mut self, entities: &mut Entities, entry: Entry<Command>) -> Result {
        match entry {
            Entry::Spawn(_) => {}
            Entry::Refused(why) => return Err(why.into()),
            Entry::Command(Command::Launch(drone, ship)) => {
                self.place.insert(drone, self.place[ship])?;
                self.fuel.insert(drone, 5)?;
                self.ship.insert(drone, ship)?;
            }
            Entry::Command(Command::Sink(one)) => self.sink(entities, one),
        }
        Ok(())
    }

    /// Removes an entity, and then its drones. It may already be gone, with its ship.
    fn sink(&mut self, entities: &mut Entities, one: Handle) {
        if self.despawn(entities, one).is_ok() {
            let mut drones: Vec<Handle> = self.place.keys().collect();
            drones.retain(|it| self.ship.get(*it) == Some(&one));
            drones.into_iter().for_each(|it| self.sink(entities, it));
        }
    }
}

/// A map as text. With the feature `serde`, `serde_json::to_string(&parts)` has all maps.
fn save(map: &impl AnyMap<Value: Display>) -> String {
    let lines = map.iter().map(|(one, it)| format!("{one} {it}\n"));
    lines.collect()
}

/// Reads such a text, without what it has of entities that aren't alive.
fn load<T: FromStr, M: FromIterator<(Handle, T)>>(text: &str, entities: &Entities) -> M {
    let entries = text.lines().filter_map(|line| line.split_once(' '));
    let read = entries.filter_map(|(one, it)| Some((one.parse().ok()?, it.parse().ok()?)));
    read.filter(|(one, _)| entities.is_alive(*one)).collect()
}

fn main() -> Result {
    let (mut entities, mut parts) = (Entities::new(), Parts::default());
    for (ship, number) in entities.alloc_many(10)?.into_iter().zip(1..) {
        parts.place.insert(ship, 0)?;
        parts.fuel.insert(ship, 20 + 3 * number)?;
        parts.name.insert(ship, format!("ship {number}"))?;
    }
    (0..30).try_for_each(|_| frame(&mut entities, &mut parts))?;
    let mut image = Vec::new();
    entities.write_image(&mut image)?;
    let (mut others, mut copy) = (Entities::read_image(&image)?, Parts::default());
    copy.place = load(&save(&parts.place), &others);
    copy.fuel = load(&save(&parts.fuel), &others);
    copy.name = load(&save(&parts.name), &others);
    copy.ship = load(&save(&parts.ship), &others);
    let before = (entities.try_clone()?, parts.try_clone()?);
    (0..10).try_for_each(|_| frame(&mut entities, &mut parts))?;
    (0..10).try_for_each(|_| frame(&mut others, &mut copy))?;
    assert!((&entities, &parts) == (&others, &copy));

    entities.try_clone_from(&before.0)?;
    parts.try_clone_from(&before.1)?;
    (0..10).try_for_each(|_| frame(&mut entities, &mut parts))?;
    assert!((&entities, &parts) == (&others, &copy));
    println!("{:?}", parts.lens());
    Ok(())
}
