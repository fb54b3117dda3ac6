//! Handles, and the slots that they are taken from.

/// A slot, and which of its occupants is meant.
#[derive(Clone, Copy)]
pub struct Handle {
    pub index: u32,
    pub generation: u32,
}

/// How many handles a refused request asked for, and how many were left.
#[derive(Clone, Copy)]
pub struct Refused {
    pub wanted: u32,
    pub left: u32,
}

/// The row of a slot whose entity isn't alive.
const NO_ROW: u32 = u32::MAX;

struct Slot {
    generation: u32,
    row: u32,
}

/// Which slots are free, and the row of each living entity.
pub struct Pool {
    slots: Vec<Slot>,
    /// Slots that were freed. The last one is given first.
    waiting: Vec<u32>,
    /// How many of the waiting slots are reserved, and how many new ones.
    reserved: usize,
    fresh: u32,
    /// Whether a request was refused since the last flush.
    closed: bool,
    most: u32,
    last_generation: u32,
}

impl Pool {
    /// An empty one, for so many slots, each with occupants up to that generation.
    pub fn new(most: u32, last_generation: u32) -> Pool {
        Pool {
            slots: Vec::new(),
            waiting: Vec::new(),
            reserved: 0,
            fresh: 0,
            closed: false,
            most,
            last_generation,
        }
    }

    /// Appends so many handles, of waiting slots as far as there are any, or none.
    pub fn reserve(&mut self, wanted: u32, handles: &mut Vec<Handle>) -> Result<(), Refused> {
        let unreserved = self.waiting.len() - self.reserved;
        let made = self.slots.len() as u32 + self.fresh;
        let left = if self.closed {
            0
        } else {
            unreserved as u32 + (self.most - made)
        };
        if wanted > left {
            self.closed = true;
            return Err(Refused { wanted, left });
        }
        let reused = unreserved.min(wanted as usize);
        self.reserved += reused;
        let of_slot = |&index: &u32| {
            let Slot { generation, .. } = self.slots[index as usize];
            Handle { index, generation }
        };
        handles.extend(
            self.waiting[unreserved - reused..unreserved]
                .iter()
                .map(of_slot),
        );
        let new = wanted - reused as u32;
        self.fresh += new;
        handles.extend((made..made + new).map(|index| Handle {
            index,
            generation: 1,
        }));
        Ok(())
    }

    /// Makes the slots that are reserved, and opens the pool again. Each of them is to get a row.
    pub fn flush(&mut self) {
        self.waiting.truncate(self.waiting.len() - self.reserved);
        let made = self.slots.len() + self.fresh as usize;
        self.slots.resize_with(made, || Slot {
            generation: 1,
            row: NO_ROW,
        });
        (self.reserved, self.fresh, self.closed) = (0, 0, false);
    }

    /// The row of an entity, if it is alive.
    pub fn row(&self, handle: Handle) -> Option<u32> {
        let slot = self.slots.get(handle.index as usize)?;
        (slot.generation == handle.generation && slot.row != NO_ROW).then_some(slot.row)
    }

    /// The row of the living entity in a slot.
    pub fn row_at(&self, index: u32) -> u32 {
        self.slots[index as usize].row
    }

    pub fn set_row(&mut self, index: u32, row: u32) {
        self.slots[index as usize].row = row;
    }

    /// Frees the slot of a living entity, for the next generation if there is one.
    pub fn free(&mut self, index: u32) {
        let slot = &mut self.slots[index as usize];
        slot.row = NO_ROW;
        if slot.generation < self.last_generation {
            slot.generation += 1;
            self.waiting.push(index);
        }
    }
}
