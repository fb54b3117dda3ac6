//! Allocators and worlds after some steps that follow from a seed.

use crate::{below, mixed, Result};
use alloc::vec::Vec;
use forgeni::{ComponentId, Entities, Limits, World};

/// How many there are of each.
pub const STEPS: u64 = 40;

/// Slots are retired early in some, and some have requests that no flush has brought to life.
pub fn entities(step: u64) -> Result<Entities> {
    let limits = Limits::new(200 + step as u32, 1 + step as u32 % 4).ok_or("no limits")?;
    let (mut entities, mut alive) = (Entities::with_exact_limits(limits), Vec::new());
    for turn in 0..20 * step {
        let luck = mixed(step << 32 ^ turn);
        if luck % 5 < 3 || alive.is_empty() {
            alive.extend(entities.alloc().ok());
        } else {
            entities.free(alive.swap_remove(below(alive.len(), luck)))?;
        }
    }
    for _ in 0..step % 7 {
        // There may be none left.
        _ = entities.request();
    }
    Ok(entities)
}

/// Entities with up to three components, some of them despawned.
pub fn world(step: u64) -> Result<World> {
    let (mut world, mut alive) = (World::new(), Vec::new());
    for turn in 0..10 * step {
        let luck = mixed(step << 40 ^ turn);
        let of = |id: u8| (ComponentId(id), (luck >> id) as i64);
        match luck % 6 {
            0 if !alive.is_empty() => {
                world.despawn(alive.swap_remove(below(alive.len(), luck)))?;
            }
            1 => alive.push(world.spawn(&[])?),
            2 => alive.push(world.spawn(&[of(7)])?),
            _ => alive.push(world.spawn(&[of(0), of(3), of(63)])?),
        }
    }
    Ok(world)
}
