//! What both plain queues use: handles, an allocator whose cursor is one atomic word, the
//! right of one caller to reserve from it, and bundles.

use std::sync::atomic::{AtomicI64, Ordering};

/// How many handles one caller may request.
const QUOTA: u64 = 1 << 40;

#[derive(Clone, Copy)]
pub struct Handle {
    pub index: u32,
    pub generation: u32,
}

impl Handle {
    pub fn to_bits(self) -> u64 {
        (u64::from(self.generation) << 32) | u64::from(self.index)
    }

    pub fn from_bits(bits: u64) -> Self {
        Handle {
            index: bits as u32,
            generation: (bits >> 32) as u32,
        }
    }
}

#[derive(Clone, Copy)]
pub enum Refused {
    Space { wanted: u32, left: u32 },
    Quota { left: u64 },
}

/// Slots with their generations, those that wait for their next occupant, and the cursor.
pub struct Shared {
    generations: Vec<u32>,
    pending: Vec<u32>,
    cursor: AtomicI64,
}

impl Shared {
    pub fn new() -> Self {
        Shared {
            generations: Vec::new(),
            pending: Vec::new(),
            cursor: AtomicI64::new(0),
        }
    }

    /// Reserves one handle, by one atomic subtraction.
    pub fn reserve(&self, reserver: &mut Reserver) -> Result<Handle, Refused> {
        if reserver.left == 0 {
            return Err(Refused::Quota { left: 0 });
        }
        reserver.left -= 1;
        let position = self.cursor.fetch_sub(1, Ordering::SeqCst);
        if position > 0 {
            let index = self.pending[position as usize - 1];
            return Ok(Handle {
                index,
                generation: self.generations[index as usize],
            });
        }
        match u32::try_from(self.generations.len() as i64 - position) {
            Ok(index) if index < u32::MAX => Ok(Handle {
                index,
                generation: 1,
            }),
            _ => Err(Refused::Space { wanted: 1, left: 0 }),
        }
    }
}

pub struct Reserver {
    left: u64,
}

impl Reserver {
    pub fn new() -> Self {
        Reserver { left: QUOTA }
    }
}

/// A component's number and its value.
pub type Item = (u8, i64);

/// Components by rising number, up to four of them in the bundle itself.
pub enum Bundle {
    Inline { len: u8, items: [Item; 4] },
    Heap(Vec<Item>),
}

impl Bundle {
    pub fn new() -> Self {
        Bundle::Inline {
            len: 0,
            items: [(0, 0); 4],
        }
    }

    pub fn items(&self) -> &[Item] {
        match self {
            Bundle::Inline { len, items } => &items[..usize::from(*len)],
            Bundle::Heap(items) => items,
        }
    }

    #[inline]
    pub fn put(&mut self, id: u8, value: i64) {
        let items = self.items();
        let index = items
            .iter()
            .position(|item| id <= item.0)
            .unwrap_or(items.len());
        let is_there = items.get(index).is_some_and(|item| item.0 == id);
        match self {
            Bundle::Inline { items, .. } if is_there => items[index].1 = value,
            Bundle::Heap(items) if is_there => items[index].1 = value,
            Bundle::Inline { len, items } if *len < 4 => {
                for later in (index..usize::from(*len)).rev() {
                    items[later + 1] = items[later];
                }
                items[index] = (id, value);
                *len += 1;
            }
            Bundle::Inline { items, .. } => {
                let mut items = items.to_vec();
                items.insert(index, (id, value));
                *self = Bundle::Heap(items);
            }
            Bundle::Heap(items) => items.insert(index, (id, value)),
        }
    }
}
