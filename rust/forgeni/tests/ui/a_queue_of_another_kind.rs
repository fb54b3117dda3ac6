//! A world takes the queues of its own phases, and no logs.

use forgeni::{Log, World};

fn main() {
    let mut world = World::new();
    let logs: Vec<Log<u8>> = Vec::new();
    let _ = world.apply(logs);
}
