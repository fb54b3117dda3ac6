//! Reservers and commands that are dropped.
#![deny(unused_must_use)]

use forgeni::{Entities, World};

fn main() {
    let (shared, reservers) = Entities::new().share(1).unwrap();
    shared.close_lost(reservers);
    let (_open, mut systems) = World::new().open(1).unwrap();
    systems.remove(0);
    let mut world = World::new();
    world.spawn(&[]);
}
