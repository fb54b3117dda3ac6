//! Frames: systems that issue commands, and the sync point that applies them.

use crate::pool::{Handle, Pool, Refused};
use crate::script::{Operation, Script, System, Target};
use crate::world::{Birth, Item, World};
use std::io::{self, Write};
use std::ops::Range;

/// A command of a queue, with the bundle of its operation.
enum Command<'s> {
    /// These of the queue's handles.
    Spawn(Range<usize>, &'s [Item]),
    Insert(Handle, &'s [Item]),
    Remove(Handle, u8),
    Despawn(Handle),
    Refused(Refused),
}

/// The commands of a system, and the handles that it has reserved.
struct Queue<'s> {
    handles: Vec<Handle>,
    commands: Vec<Command<'s>>,
}

struct Fault {
    system: usize,
    command: usize,
    cause: Cause,
}

enum Cause {
    NotAlive(Handle),
    Refused(Refused),
}

/// The world as a frame began, and the entities that have a component, each listed when it is first
/// asked for.
struct View<'w> {
    world: &'w mut World,
    having: Vec<Option<Vec<Handle>>>,
}

/// Runs all frames, and reports each of them.
pub fn run(script: &Script, report: &mut Report<impl Write>) -> io::Result<World> {
    let components = script.components.len();
    let mut world = World::new(Pool::new(script.slots, script.generations), components);
    for (frame, systems) in script.frames.iter().enumerate() {
        let mut view = View {
            world: &mut world,
            having: vec![None; components],
        };
        let queues: Vec<Queue> = systems.iter().map(|system| view.issued(system)).collect();
        let born = bring_to_life(frame, &queues, &mut world);
        let mut faults = Vec::new();
        for (system, queue) in queues.iter().enumerate() {
            apply(&mut world, queue, |command, cause| {
                faults.push(Fault {
                    system,
                    command,
                    cause,
                })
            });
        }
        world.sweep();
        report.frame(frame, born, &faults)?;
    }
    Ok(world)
}

impl View<'_> {
    fn issued<'s>(&mut self, system: &'s System) -> Queue<'s> {
        let mut named = vec![0..0; system.names];
        let commands = Vec::with_capacity(system.operations.len());
        let mut queue = Queue {
            handles: Vec::new(),
            commands,
        };
        for operation in &system.operations {
            match operation {
                Operation::Spawn {
                    count,
                    bundle,
                    name,
                } => {
                    let first = queue.handles.len();
                    queue.commands.push(
                        match self.world.pool.reserve(*count, &mut queue.handles) {
                            Ok(()) => {
                                let spawned = first..queue.handles.len();
                                if let Some(name) = name {
                                    named[*name as usize] = spawned.clone();
                                }
                                Command::Spawn(spawned, bundle)
                            }
                            Err(refused) => Command::Refused(refused),
                        },
                    );
                }
                Operation::Insert(bundle, target) => {
                    self.on(target, &named, &mut queue, |handle| {
                        Command::Insert(handle, bundle)
                    });
                }
                Operation::Remove(component, target) => {
                    self.on(target, &named, &mut queue, |handle| {
                        Command::Remove(handle, *component)
                    });
                }
                Operation::Despawn(target) => self.on(target, &named, &mut queue, Command::Despawn),
            }
        }
        queue
    }

    /// Issues a command for each entity of a target.
    fn on<'s>(
        &mut self,
        target: &Target,
        named: &[Range<usize>],
        queue: &mut Queue<'s>,
        command: impl Fn(Handle) -> Command<'s>,
    ) {
        let one;
        let handles = match target {
            Target::Name(name) => &queue.handles[named[*name as usize].clone()],
            Target::Each(component) => self.having[*component as usize]
                .get_or_insert_with(|| self.world.having(*component)),
            Target::Handle(handle) => std::slice::from_ref(handle),
            Target::Birth(birth) => {
                one = self.world.with_birth(*birth);
                one.as_slice()
            }
        };
        queue.commands.extend(handles.iter().copied().map(command));
    }
}

/// How many have come to life.
fn bring_to_life(frame: usize, queues: &[Queue], world: &mut World) -> usize {
    world.pool.flush();
    for (system, queue) in queues.iter().enumerate() {
        for (ordinal, &handle) in queue.handles.iter().enumerate() {
            world.spawn(handle, Birth(frame as u32, system as u32, ordinal as u32));
        }
    }
    queues.iter().map(|queue| queue.handles.len()).sum()
}

fn apply(world: &mut World, queue: &Queue, mut fault: impl FnMut(usize, Cause)) {
    for (number, command) in queue.commands.iter().enumerate() {
        let (alive, handle) = match command {
            Command::Spawn(spawned, items) => {
                for &handle in &queue.handles[spawned.clone()] {
                    if !world.insert(handle, items) {
                        fault(number, Cause::NotAlive(handle));
                    }
                }
                continue;
            }
            &Command::Insert(handle, items) => (world.insert(handle, items), handle),
            &Command::Remove(handle, component) => (world.remove(handle, component), handle),
            &Command::Despawn(handle) => (world.despawn(handle), handle),
            Command::Refused(refused) => {
                fault(number, Cause::Refused(*refused));
                continue;
            }
        };
        if !alive {
            fault(number, Cause::NotAlive(handle));
        }
    }
}

/// Where the report goes, and whether it shows handles.
pub struct Report<W> {
    pub out: W,
    pub handles: bool,
}

impl<W: Write> Report<W> {
    #[inline(always)]
    fn text(&mut self, text: &str) -> io::Result<()> {
        self.out.write_all(text.as_bytes())
    }

    #[inline(always)]
    fn number(&mut self, label: &str, number: impl itoa::Integer) -> io::Result<()> {
        self.text(label)?;
        self.text(itoa::Buffer::new().format(number))
    }

    fn handle(&mut self, handle: Handle) -> io::Result<()> {
        if !self.handles {
            return Ok(());
        }
        self.number(" ", handle.index)?;
        self.number("v", handle.generation)
    }

    fn frame(&mut self, frame: usize, born: usize, faults: &[Fault]) -> io::Result<()> {
        self.number("frame ", frame)?;
        self.number(" born ", born)?;
        self.number(" faults ", faults.len())?;
        self.text("\n")?;
        for Fault {
            system,
            command,
            cause,
        } in faults
        {
            self.number("fault ", *system)?;
            self.number(" ", *command)?;
            match *cause {
                Cause::NotAlive(handle) => {
                    self.text(" not alive")?;
                    self.handle(handle)?;
                }
                Cause::Refused(Refused { wanted, left }) => {
                    self.number(" space wanted ", wanted)?;
                    self.number(" left ", left)?;
                }
            }
            self.text("\n")?;
        }
        Ok(())
    }

    /// The living entities, and how many there are.
    pub fn world(&mut self, world: &World, components: &[String]) -> io::Result<()> {
        for (Birth(frame, system, ordinal), handle) in world.entities() {
            self.number("", frame)?;
            self.number(".", system)?;
            self.number(".", ordinal)?;
            self.handle(handle)?;
            for (component, name) in components.iter().enumerate() {
                if let Some(value) = world.value(handle, component) {
                    self.text(" ")?;
                    self.text(name)?;
                    self.number("=", value)?;
                }
            }
            self.text("\n")?;
        }
        self.number("alive ", world.alive())?;
        self.text("\n")
    }
}
