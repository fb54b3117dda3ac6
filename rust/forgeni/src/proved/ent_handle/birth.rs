// Made of crates/ent_handle/src/birth.rt by rust/erase. It isn't edited by hand.

use core::cmp::Ordering;

/// When an entity was brought to life, and by which system. A birth names what the systems of a
/// world spawn, without a handle.
///
/// Births are ordered by frame, then by system, then by ordinal. Births and their order are this
/// project's own. The fields are described as a sync point sets them; a caller that spawns without
/// one chooses them.
///
/// ```
/// use forgeni::{Birth, World};
///
/// let mut world = World::new();
/// let (oak, queues) = world.phase(2, |_open, systems| systems[1].spawn(&[]))?;
/// world.apply(queues)?;
/// // On each machine the first one that system 1 spawned in frame 0 is the oak.
/// let birth = Birth { frame: 0, system: 1, ordinal: 0 };
/// assert_eq!(world.birth(oak?), Some(birth));
/// assert!(birth < Birth { frame: 1, system: 0, ordinal: 0 });
/// # Ok::<(), Box<dyn std::error::Error>>(())
/// ```
#[derive(Clone, Copy, Debug, PartialEq, Eq, Hash)]
pub struct Birth {
    /// The number of the phase that brought it to life.
    pub frame: u64,
    /// The first system whose queue lists the entity, counted from 0; 4,294,967,295 if none does.
    pub system: u32,
    /// How many handles that queue lists before it. If no queue lists the entity, how many such
    /// entities come before it in the order of the flush. The greatest ordinal is 4,294,967,295,
    /// which all later ones have too.
    pub ordinal: u32,
}

impl Ord for Birth {
    #[inline]
    fn cmp(&self, other: &Self) -> Ordering {
        self.frame
            .cmp(&other.frame)
            .then(self.system.cmp(&other.system))
            .then(self.ordinal.cmp(&other.ordinal))
    }
}

impl PartialOrd for Birth {
    #[inline]
    fn partial_cmp(&self, other: &Self) -> Option<Ordering> {
        Some(self.cmp(other))
    }
}
