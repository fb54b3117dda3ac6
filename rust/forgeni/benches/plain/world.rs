//! A world and its sync point in plain Rust: an allocator of the form of Bevy's, a storage, and
//! queues that are vectors of commands.

use super::allocator::{Entities, Handle};
use super::bundle::{Bundle, Item, Refused};
use super::storage::{Birth, Storage};

/// The number of no system: births of handles that no queue lists have it.
const NO_SYSTEM: u32 = u32::MAX;

// The timed queues have no spawns of many and no refusals.
#[allow(dead_code)]
pub enum Command {
    Spawn(Handle, Bundle),
    SpawnMany(Vec<Handle>, Bundle),
    Insert(Handle, Bundle),
    Remove(Handle, u8),
    Despawn(Handle),
    Refused(Refused),
}

/// Why a command had no effect.
#[allow(dead_code)]
pub enum FaultKind {
    NotAlive(Handle),
    Refused(Refused),
}

/// A command that had no effect: the number of its queue, its number there, and why.
#[allow(dead_code)]
pub struct Fault {
    system: usize,
    command: usize,
    kind: FaultKind,
}

/// What a sync point has done.
pub struct Report {
    pub born: Vec<Handle>,
    pub faults: Vec<Fault>,
}

#[derive(Default)]
pub struct World {
    pub entities: Entities,
    pub storage: Storage,
    phase: u64,
}

impl World {
    /// Brings an entity to life at once, with these components.
    pub fn spawn(&mut self, ordinal: u32, items: &[Item]) -> Option<Handle> {
        let handle = self.entities.alloc().ok()?;
        let mut birth = first_birth(0, 0);
        birth.ordinal = ordinal;
        self.storage.born(handle, birth);
        let place = self.storage.place(handle)?;
        self.storage.insert(place, items);
        Some(handle)
    }

    /// Brings to life what is reserved, and then applies the queues in their order.
    #[inline(never)]
    pub fn apply(&mut self, queues: &[Vec<Command>]) -> Report {
        let born = self.bring_to_life(queues);
        let mut faults = Vec::new();
        for (system, queue) in queues.iter().enumerate() {
            for (command, entry) in queue.iter().enumerate() {
                self.apply_command(entry, |kind| {
                    faults.push(Fault {
                        system,
                        command,
                        kind,
                    })
                });
            }
        }
        Report { born, faults }
    }

    /// The births: first what the queues list, each with its system, and then all others.
    fn bring_to_life(&mut self, queues: &[Vec<Command>]) -> Vec<Handle> {
        let mut born = Vec::new();
        self.entities.flush(&mut born);
        self.storage.reserve(born.len());
        for (system, queue) in queues.iter().enumerate() {
            self.enter_queue(system as u32, queue);
        }
        let mut birth = first_birth(self.phase, NO_SYSTEM);
        for handle in &born {
            if self.storage.place(*handle).is_none() {
                self.enter(*handle, &mut birth);
            }
        }
        self.phase += 1;
        born
    }

    fn enter_queue(&mut self, system: u32, queue: &[Command]) {
        let mut birth = first_birth(self.phase, system);
        for command in queue {
            match command {
                Command::Spawn(handle, _) => self.enter(*handle, &mut birth),
                Command::SpawnMany(handles, _) => {
                    for handle in handles {
                        self.enter(*handle, &mut birth);
                    }
                }
                _ => {}
            }
        }
    }

    fn enter(&mut self, handle: Handle, birth: &mut Birth) {
        if self.entities.contains(handle) {
            self.storage.born(handle, *birth);
        }
        birth.ordinal = birth.ordinal.saturating_add(1);
    }

    fn apply_command(&mut self, command: &Command, mut fault: impl FnMut(FaultKind)) {
        match command {
            Command::Spawn(handle, bundle) | Command::Insert(handle, bundle) => {
                self.insert(*handle, bundle.items(), fault);
            }
            Command::SpawnMany(handles, bundle) => {
                for handle in handles {
                    self.insert(*handle, bundle.items(), &mut fault);
                }
            }
            Command::Remove(handle, id) => match self.storage.place(*handle) {
                Some(place) => {
                    self.storage.remove(place, *id);
                }
                None => fault(FaultKind::NotAlive(*handle)),
            },
            Command::Despawn(handle) => match self.storage.place(*handle) {
                Some(place) => {
                    let _ = self.entities.free(*handle);
                    self.storage.despawn(place);
                }
                None => fault(FaultKind::NotAlive(*handle)),
            },
            Command::Refused(why) => fault(FaultKind::Refused(*why)),
        }
    }

    fn insert(&mut self, handle: Handle, items: &[Item], mut fault: impl FnMut(FaultKind)) {
        match self.storage.place(handle) {
            Some(place) => self.storage.insert(place, items),
            None => fault(FaultKind::NotAlive(handle)),
        }
    }
}

/// The birth of the first handle of a system.
fn first_birth(frame: u64, system: u32) -> Birth {
    Birth {
        frame,
        system,
        ordinal: 0,
    }
}
