//! What the tests of storages and worlds need: a world as its rules say it, and random components.
#![allow(dead_code)]

use crate::common::{handle, Numbers};
use forgeni::{Birth, ComponentId, Fault, FaultKind, Handle};
use std::collections::BTreeMap;

/// What an entity has.
pub type Components = BTreeMap<ComponentId, i64>;

/// One of these, if there is any.
pub fn pick<T: Copy>(numbers: &mut Numbers, all: &[T]) -> Option<T> {
    if all.is_empty() {
        return None;
    }
    Some(all[numbers.below(all.len() as u64) as usize])
}

/// A component, of few.
pub fn any_component(numbers: &mut Numbers) -> ComponentId {
    ComponentId([0, 1, 2, 7, 255][numbers.below(5) as usize])
}

/// Up to six components, of numbers that often stand twice.
pub fn any_components(numbers: &mut Numbers) -> Vec<(ComponentId, i64)> {
    let count = numbers.below(7);
    (0..count)
        .map(|_| {
            let id = any_component(numbers);
            (id, numbers.below(2000) as i64 - 1000)
        })
        .collect()
}

/// A birth, of few.
pub fn any_birth(numbers: &mut Numbers) -> Birth {
    Birth {
        frame: numbers.below(3),
        system: numbers.below(2) as u32,
        ordinal: numbers.below(2) as u32,
    }
}

/// A command as a system issued it, with what it was given.
#[derive(Clone, Debug)]
pub enum Command {
    Spawn(Vec<Handle>, Vec<(ComponentId, i64)>),
    Insert(Handle, Vec<(ComponentId, i64)>),
    Remove(Handle, ComponentId),
    Despawn(Handle),
    Refused(FaultKind),
}

impl Command {
    /// The handles that were reserved for it.
    pub fn listed(&self) -> &[Handle] {
        match self {
            Command::Spawn(handles, _) => handles,
            _ => &[],
        }
    }
}

/// A world as its rules say it, with no care for speed.
#[derive(Clone)]
pub struct WorldModel {
    pub slots: u32,
    pub generations: u32,
    pub made: u32,
    pub phase: u64,
    /// How many entities the world itself has spawned in this phase.
    pub spawned: u32,
    pub live: BTreeMap<Handle, (Birth, Components)>,
    /// What each slot that waits gives next, the one that was freed last at the end.
    pub waiting: Vec<Handle>,
}

impl WorldModel {
    pub fn new(slots: u32, generations: u32) -> Self {
        WorldModel {
            slots,
            generations,
            made: 0,
            phase: 0,
            spawned: 0,
            live: BTreeMap::new(),
            waiting: vec![],
        }
    }

    /// The handles that can be given, in their order.
    pub fn pool(&self) -> Vec<Handle> {
        let old = self.waiting.iter().rev().copied();
        old.chain((self.made..self.slots).map(|index| handle(index, 1)))
            .collect()
    }

    pub fn spawn(&mut self, birth: Birth, components: &[(ComponentId, i64)]) -> Option<Handle> {
        let given = *self.pool().first()?;
        if self.waiting.pop().is_none() {
            self.made += 1;
        }
        let components = components.iter().copied().collect();
        self.live.insert(given, (birth, components));
        Some(given)
    }

    /// The handle that the slot gives next. `None` if the entity isn't alive.
    pub fn despawn(&mut self, given: Handle) -> Option<Option<Handle>> {
        self.live.remove(&given)?;
        if given.generation() == self.generations {
            return Some(None);
        }
        let next = handle(given.index(), given.generation() + 1);
        self.waiting.push(next);
        Some(Some(next))
    }

    /// Brings the first handles of the pool to life, as these queues list them.
    fn flush(&mut self, count: usize, queues: &[Vec<Command>]) -> Vec<Handle> {
        let mut old: Vec<Handle> = Vec::new();
        let mut born: Vec<Handle> = Vec::new();
        for _ in 0..count {
            match self.waiting.pop() {
                Some(next) => old.push(next),
                None => {
                    born.push(handle(self.made, 1));
                    self.made += 1;
                }
            }
        }
        born.extend(old.into_iter().rev());
        for (system, queue) in queues.iter().enumerate() {
            let listed = queue.iter().flat_map(Command::listed);
            for (ordinal, entity) in listed.enumerate() {
                let birth = Birth {
                    frame: self.phase,
                    system: system as u32,
                    ordinal: ordinal as u32,
                };
                self.live.insert(*entity, (birth, Components::new()));
            }
        }
        self.phase += 1;
        self.spawned = 0;
        born
    }

    /// The sync point: who was born, and the faults.
    pub fn apply(&mut self, queues: &[Vec<Command>]) -> (Vec<Handle>, Vec<Fault>) {
        let count = queues.iter().flatten().map(|c| c.listed().len()).sum();
        let born = self.flush(count, queues);
        let mut faults = Vec::new();
        for (system, queue) in queues.iter().enumerate() {
            for (number, command) in queue.iter().enumerate() {
                for kind in self.take_effect(command) {
                    faults.push(Fault {
                        system,
                        command: number,
                        kind,
                    });
                }
            }
        }
        (born, faults)
    }

    fn take_effect(&mut self, command: &Command) -> Vec<FaultKind> {
        let mut faults = Vec::new();
        let mut change = |entity: &Handle, change: &dyn Fn(&mut Components)| {
            match self.live.get_mut(entity) {
                Some((_, held)) => change(held),
                None => faults.push(FaultKind::NotAlive(*entity)),
            };
        };
        match command {
            Command::Spawn(handles, components) => {
                for entity in handles {
                    change(entity, &|held| held.extend(components.iter().copied()));
                }
            }
            Command::Insert(entity, components) => {
                change(entity, &|held| held.extend(components.iter().copied()));
            }
            Command::Remove(entity, id) => change(entity, &|held| {
                held.remove(id);
            }),
            Command::Despawn(entity) => {
                if self.despawn(*entity).is_none() {
                    faults.push(FaultKind::NotAlive(*entity));
                }
            }
            Command::Refused(kind) => faults.push(*kind),
        }
        faults
    }

    /// The handles of all entities, by birth and then by handle.
    pub fn by_birth(&self) -> Vec<Handle> {
        let mut all: Vec<(Birth, Handle)> = self
            .live
            .iter()
            .map(|(entity, (birth, _))| (*birth, *entity))
            .collect();
        all.sort_unstable();
        all.into_iter().map(|(_, entity)| entity).collect()
    }
}
