//! The proved allocator, and what is drawn of it.

use super::state::{Occupant, State};
use crate::allocator::{Entities, ImageFault, Limits};
use crate::handles::{Handle, OutOfMemory};
use std::collections::BTreeMap;
use std::vec::Vec;

/// How many bytes of an image stand before the slots, and how many each slot has.
const HEADER: usize = 40;
const SLOT: usize = 12;

/// Entities, and the state that shows them. Each call is one of the entities. What they refuse
/// changes nothing that is drawn but the cursor.
pub(super) struct Followed {
    pub(super) entities: Entities,
    pub(super) state: State,
}

impl Followed {
    pub(super) fn new(limits: Limits) -> Self {
        Self::of(Entities::with_exact_limits(limits), BTreeMap::new())
    }

    /// The entities of an image. No image says for which caller a slot is reserved, so that one
    /// shows as waiting.
    pub(super) fn of_image(image: &[u8]) -> Result<Self, ImageFault> {
        let entities = Entities::read_image(image)?;
        let (_, slots) = image.split_at(HEADER);
        let slots = (0..).zip(slots.chunks_exact(SLOT).map(occupant));
        Ok(Self::of(entities, slots.collect()))
    }

    fn of(entities: Entities, slots: BTreeMap<u32, Occupant>) -> Self {
        let state = State {
            slots,
            ..State::default()
        };
        let mut followed = Followed { entities, state };
        followed.read_cursor();
        followed
    }

    pub(super) fn alloc(&mut self) {
        if let Ok(handle) = self.entities.alloc() {
            let alive = Occupant::Alive(handle.generation());
            self.state.slots.insert(handle.index(), alive);
        }
        self.read_cursor();
    }

    pub(super) fn free(&mut self, handle: Handle) {
        if let Ok(freed) = self.entities.free(handle) {
            let waiting = |next: Handle| Occupant::Waiting(next.generation());
            let occupant = freed.next.map_or(Occupant::Retired, waiting);
            self.state.slots.insert(handle.index(), occupant);
        }
        self.read_cursor();
    }

    pub(super) fn flush(&mut self) -> Result<(), OutOfMemory> {
        let mut born = Vec::new();
        self.entities.flush(&mut born)?;
        let alive = |one: Handle| (one.index(), Occupant::Alive(one.generation()));
        self.state.slots.extend(born.into_iter().map(alive));
        self.read_cursor();
        Ok(())
    }

    /// A request of this caller for `n` handles.
    pub(super) fn reserve(&mut self, caller: u32, n: u32) {
        // What is refused for want of room lowers the cursor too, and gives no handle.
        for handle in self.entities.request_many(n).unwrap_or_default() {
            let reserved = Occupant::Reserved {
                generation: handle.generation(),
                caller,
            };
            self.state.slots.insert(handle.index(), reserved);
        }
        self.read_cursor();
    }

    fn read_cursor(&mut self) {
        self.state.cursor = Some(self.entities.cursor());
    }
}

/// The occupant of a slot of an image.
fn occupant(slot: &[u8]) -> Occupant {
    let mut words = slot.chunks_exact(4).map(|word| match word {
        [a, b, c, d] => u32::from_le_bytes([*a, *b, *c, *d]),
        _ => 0,
    });
    match (words.next().unwrap_or(0), words.next()) {
        (generation, Some(1 | 2)) => Occupant::Alive(generation),
        (generation, Some(3)) => Occupant::Waiting(generation),
        _ => Occupant::Retired,
    }
}
