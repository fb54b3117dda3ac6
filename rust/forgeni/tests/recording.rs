//! A log of the calls of Bevy 0.15's `Entities`, as docs/FORMATS.md has it. The type here has
//! Bevy's calls, over an allocator of this package.

use bevy::{Entities, Entity};
use forgeni::trace::{Checker, FreeReply, Log};
use forgeni::{Handle, Limits};
use std::fmt::Write;

mod bevy {
    use forgeni::Handle;
    use std::cell::RefCell;

    #[derive(Clone, Copy)]
    pub struct Entity(Handle);

    impl Entity {
        pub fn index(self) -> u32 {
            self.0.index()
        }

        pub fn generation(self) -> u32 {
            self.0.generation()
        }
    }

    pub struct Location;

    pub struct Entities(RefCell<forgeni::Entities>);

    impl Entities {
        pub fn new() -> Self {
            Entities(RefCell::new(forgeni::Entities::new()))
        }

        pub fn alloc(&mut self) -> Entity {
            Entity(self.0.get_mut().alloc().expect("a handle"))
        }

        pub fn free(&mut self, one: Entity) -> Option<Location> {
            self.0.get_mut().free(one.0).ok().map(|_| Location)
        }

        pub fn reserve_entity(&self) -> Entity {
            Entity(self.0.borrow_mut().request().expect("a handle"))
        }

        pub fn reserve_entities(&self, count: u32) -> impl Iterator<Item = Entity> {
            let given = self.0.borrow_mut().request_many(count);
            given.expect("handles").into_iter().map(Entity)
        }

        pub fn flush(&mut self, mut init: impl FnMut(Entity, &mut Location)) {
            let entities = self.0.get_mut();
            let flushed = entities.flush_with(|one| init(Entity(one), &mut Location));
            flushed.expect("memory");
        }
    }
}

/// What the log below is.
const TRACE: &str = "\
alloc => 0v1
free 0v1 => freed
free 0v1 => not alive
reserve 7 1 => 0v2
reserve 7 3 => 1v1 2v1 3v1
flush => born 1v1 2v1 3v1 0v2
";

/// The index, the letter `v` and the generation.
fn text(one: Entity) -> String {
    format!("{}v{}", one.index(), one.generation())
}

fn freed(entities: &mut Entities, one: Entity, trace: &mut String) {
    let is_freed = entities.free(one).is_some();
    let reply = if is_freed { "freed" } else { "not alive" };
    writeln!(trace, "free {} => {reply}", text(one)).expect("memory");
}

#[test]
fn calls_of_bevy_as_a_text() -> Result<(), std::fmt::Error> {
    let mut entities = Entities::new();
    let (mut trace, mut own) = (String::new(), String::new());

    let one = entities.alloc();
    writeln!(trace, "alloc => {}", text(one))?;
    freed(&mut entities, one, &mut trace);
    freed(&mut entities, one, &mut trace);

    // A thread writes to a log of its own, with its number.
    let one = entities.reserve_entity();
    writeln!(own, "reserve 7 1 => {}", text(one))?;
    let many: Vec<String> = entities.reserve_entities(3).map(text).collect();
    writeln!(own, "reserve 7 3 => {}", many.join(" "))?;

    // The logs of all threads come before the flush, one after the other.
    trace.push_str(&own);
    let mut born = String::new();
    entities.flush(|one, _| born += &format!(" {}", text(one)));
    writeln!(trace, "flush => born{born}")?;
    assert_eq!(trace, TRACE);
    Ok(())
}

#[test]
fn calls_of_bevy_checked_at_once() -> Result<(), Box<dyn std::error::Error>> {
    let handle = |one: Entity| Handle::new(one.index(), one.generation()).expect("a handle");
    let mut entities = Entities::new();
    let (mut checker, mut log) = (Checker::new(Limits::GREATEST), Log::new(7));

    let one = entities.alloc();
    checker.alloc(handle(one))?;
    let is_freed = entities.free(one).is_some();
    let reply = if is_freed {
        FreeReply::Freed
    } else {
        FreeReply::NotAlive
    };
    checker.free(handle(one), reply)?;

    log.push(1, handle(entities.reserve_entity()))?;
    let many: Vec<Handle> = entities.reserve_entities(3).map(handle).collect();
    log.push(3, many)?;

    checker.join(&mut log)?;
    let mut born = Vec::new();
    entities.flush(|one, _| born.push(handle(one)));
    checker.flush(born)?;
    checker.finish()?;
    Ok(())
}
