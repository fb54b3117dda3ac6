//! An entity allocator of the form of Bevy's `Entities`, in plain Rust: a vector of generation and
//! location, a vector of free indexes, and a signed cursor. It refuses a call before a flush, as
//! the verified one does; Bevy asserts it in debug builds.

use std::sync::atomic::{AtomicI64, Ordering};

/// The last generation of a slot.
const LAST: u32 = (1 << 31) - 1;

#[derive(Clone, Copy)]
pub struct Handle {
    pub index: u32,
    pub generation: u32,
}

impl Handle {
    pub fn to_bits(self) -> u64 {
        (u64::from(self.generation) << 32) | u64::from(self.index)
    }
}

#[derive(Clone, Copy, PartialEq, Eq)]
pub enum AllocFault {
    NeedsFlush,
    Space,
}

#[derive(Clone, Copy, PartialEq, Eq)]
pub enum FreeFault {
    NeedsFlush,
    NotAlive,
}

/// The handle that the slot gives next, if it isn't retired.
pub struct Freed {
    pub next: Option<Handle>,
}

/// One slot: its generation, and the row that a caller keeps with its occupant.
#[derive(Clone, Copy)]
struct Meta {
    generation: u32,
    location: Option<u32>,
}

impl Meta {
    const EMPTY: Meta = Meta {
        generation: 1,
        location: None,
    };
}

#[derive(Default)]
pub struct Entities {
    meta: Vec<Meta>,
    pending: Vec<u32>,
    cursor: i64,
    len: u32,
}

impl Entities {
    pub fn needs_flush(&self) -> bool {
        self.cursor != self.pending.len() as i64
    }

    pub fn alloc(&mut self) -> Result<Handle, AllocFault> {
        if self.needs_flush() {
            return Err(AllocFault::NeedsFlush);
        }
        let handle = match self.pending.pop() {
            Some(index) => Handle {
                index,
                generation: self.meta[index as usize].generation,
            },
            None => {
                if self.meta.len() >= u32::MAX as usize {
                    return Err(AllocFault::Space);
                }
                let index = self.meta.len() as u32;
                self.meta.push(Meta::EMPTY);
                Handle {
                    index,
                    generation: 1,
                }
            }
        };
        self.cursor = self.pending.len() as i64;
        self.len += 1;
        Ok(handle)
    }

    pub fn free(&mut self, handle: Handle) -> Result<Freed, FreeFault> {
        if self.needs_flush() {
            return Err(FreeFault::NeedsFlush);
        }
        let Some(meta) = self.meta.get_mut(handle.index as usize) else {
            return Err(FreeFault::NotAlive);
        };
        if meta.generation != handle.generation {
            return Err(FreeFault::NotAlive);
        }
        // No handle has the generation after the last one, so its slot is retired by it.
        let generation = handle.generation + 1;
        *meta = Meta {
            generation,
            location: None,
        };
        self.len -= 1;
        if handle.generation == LAST {
            return Ok(Freed { next: None });
        }
        let next = Handle {
            index: handle.index,
            generation,
        };
        self.pending.push(handle.index);
        self.cursor = self.pending.len() as i64;
        Ok(Freed { next: Some(next) })
    }

    /// The row that is kept with the handle.
    pub fn location(&self, handle: Handle) -> Option<u32> {
        let meta = self.meta.get(handle.index as usize)?;
        if meta.generation == handle.generation {
            meta.location
        } else {
            None
        }
    }

    /// Whether the handle is alive or reserved. As in Bevy, a free slot's next handle counts too.
    pub fn contains(&self, handle: Handle) -> bool {
        match self.meta.get(handle.index as usize) {
            Some(meta) => meta.generation == handle.generation,
            None => {
                let reserved = usize::try_from(-self.cursor).unwrap_or(0);
                handle.generation == 1 && (handle.index as usize) < self.meta.len() + reserved
            }
        }
    }

    /// Reserves one handle.
    pub fn reserve(&mut self) -> Option<Handle> {
        let position = self.cursor;
        self.cursor -= 1;
        self.at(position)
    }

    /// The handle at a position of the cursor.
    fn at(&self, position: i64) -> Option<Handle> {
        if position > 0 {
            let index = self.pending[position as usize - 1];
            Some(Handle {
                index,
                generation: self.meta[index as usize].generation,
            })
        } else {
            let index = u32::try_from(self.meta.len() as i64 - position).ok()?;
            Some(Handle {
                index,
                generation: 1,
            })
        }
    }

    /// Reserves that many handles.
    pub fn reserve_many(&mut self, count: u32) -> Option<Reserved<'_>> {
        let end = self.cursor;
        let start = end - i64::from(count);
        self.cursor = start;
        self.between(start, end)
    }

    /// The handles at the positions from `start` up to `end`.
    fn between(&self, start: i64, end: i64) -> Option<Reserved<'_>> {
        let made = self.meta.len() as i64;
        let fresh_start = u32::try_from(made - end.min(0)).ok()?;
        let fresh_end = u32::try_from(made - start.min(0)).ok()?;
        Some(Reserved {
            meta: &self.meta,
            old: self.pending[start.max(0) as usize..end.max(0) as usize].iter(),
            fresh: fresh_start..fresh_end,
        })
    }

    /// Brings to life what is reserved, and appends it.
    pub fn flush(&mut self, born: &mut Vec<Handle>) {
        let kept = if self.cursor >= 0 {
            self.cursor as usize
        } else {
            let made = self.meta.len();
            let fresh = -self.cursor as usize;
            self.meta.resize(made + fresh, Meta::EMPTY);
            self.len += fresh as u32;
            born.extend((made..made + fresh).map(|index| Handle {
                index: index as u32,
                generation: 1,
            }));
            self.cursor = 0;
            0
        };
        self.len += (self.pending.len() - kept) as u32;
        let meta = &self.meta;
        born.extend(self.pending.drain(kept..).map(|index| Handle {
            index,
            generation: meta[index as usize].generation,
        }));
    }
}

/// An allocator that many callers reserve from: its cursor is one atomic word.
pub struct Shared {
    entities: Entities,
    cursor: AtomicI64,
}

impl Entities {
    pub fn share(self) -> Shared {
        Shared {
            cursor: AtomicI64::new(self.cursor),
            entities: self,
        }
    }
}

impl Shared {
    pub fn close(self) -> Entities {
        Entities {
            cursor: self.cursor.into_inner(),
            ..self.entities
        }
    }

    /// Reserves one handle, by one atomic subtraction.
    pub fn reserve(&self) -> Option<Handle> {
        let position = self.cursor.fetch_sub(1, Ordering::Relaxed);
        self.entities.at(position)
    }

    /// Reserves that many handles, by one atomic subtraction.
    pub fn reserve_many(&self, count: u32) -> Option<Reserved<'_>> {
        let end = self.cursor.fetch_sub(i64::from(count), Ordering::Relaxed);
        self.entities.between(end - i64::from(count), end)
    }
}

/// The handles of a reservation: old slots first, then fresh ones.
pub struct Reserved<'a> {
    meta: &'a [Meta],
    old: std::slice::Iter<'a, u32>,
    fresh: std::ops::Range<u32>,
}

impl Iterator for Reserved<'_> {
    type Item = Handle;

    fn next(&mut self) -> Option<Handle> {
        match self.old.next() {
            Some(index) => Some(Handle {
                index: *index,
                generation: self.meta[*index as usize].generation,
            }),
            None => self.fresh.next().map(|index| Handle {
                index,
                generation: 1,
            }),
        }
    }

    fn size_hint(&self) -> (usize, Option<usize>) {
        let left = self.old.len() + self.fresh.len();
        (left, Some(left))
    }
}
