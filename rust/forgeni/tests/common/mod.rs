//! What several tests need: the allocator as its rules say it, and numbers from a seed.
#![allow(dead_code)]

pub mod counted;

use forgeni::{AllocError, Entities, FreeError, Freed, Handle, Limits, ReserveError, State};
use std::ffi::OsString;

pub fn handle(index: u32, generation: u32) -> Handle {
    Handle::new(index, generation).expect("a handle")
}

pub fn small(slots: u32, generations: u32) -> Entities {
    Entities::with_limits(Limits::new(slots, generations).expect("limits"))
}

/// What a flush brings to life.
pub fn flushed(entities: &mut Entities) -> Vec<Handle> {
    let mut born = vec![];
    entities.flush(&mut born).expect("memory");
    born
}

/// The allocator as its rules say it, for one caller, with no care for speed.
#[derive(Clone, PartialEq)]
pub struct Model {
    pub slots: u32,
    pub generations: u32,
    pub made: u32,
    pub live: Vec<Handle>,
    /// What each slot that waits gives next, the one that was freed last at the end.
    pub waiting: Vec<Handle>,
    /// What is reserved: of waiting slots, and of new ones, each in the order of the requests.
    pub old: Vec<Handle>,
    pub fresh: Vec<Handle>,
    pub asked: u64,
    /// Whether a request was refused: then all are, until the flush.
    pub shut: bool,
}

impl Model {
    pub fn new(slots: u32, generations: u32) -> Self {
        Model {
            slots,
            generations,
            made: 0,
            live: vec![],
            waiting: vec![],
            old: vec![],
            fresh: vec![],
            asked: 0,
            shut: false,
        }
    }

    pub fn alloc(&mut self) -> Result<Handle, AllocError> {
        if self.asked > 0 {
            return Err(AllocError::NeedsFlush);
        }
        let given = match self.waiting.pop() {
            Some(old) => old,
            None if self.made < self.slots => {
                self.made += 1;
                handle(self.made - 1, 1)
            }
            None => return Err(AllocError::Space),
        };
        self.live.push(given);
        Ok(given)
    }

    pub fn free(&mut self, given: Handle) -> Result<Freed, FreeError> {
        if self.asked > 0 {
            return Err(FreeError::NeedsFlush);
        }
        let at = self
            .live
            .iter()
            .position(|h| *h == given)
            .ok_or(FreeError::NotAlive)?;
        self.live.swap_remove(at);
        if given.generation() == self.generations {
            return Ok(Freed { next: None });
        }
        let next = handle(given.index(), given.generation() + 1);
        self.waiting.push(next);
        Ok(Freed { next: Some(next) })
    }

    /// What can be given, in the order in which single requests get it.
    pub fn pool(&self) -> Vec<Handle> {
        if self.shut {
            return vec![];
        }
        let old = self.waiting.iter().rev().copied();
        let next = self.made + self.fresh.len() as u32;
        old.chain((next..self.slots).map(|index| handle(index, 1)))
            .collect()
    }

    /// A request for `n` handles. Old ones come first, and of them the one that waits longest.
    pub fn reserve(&mut self, n: u32) -> Result<Vec<Handle>, ReserveError> {
        if n == 0 {
            return Ok(vec![]);
        }
        self.asked += u64::from(n);
        let pool = self.pool();
        if (pool.len() as u32) < n {
            self.shut = true;
            let left = pool.len() as u32;
            return Err(ReserveError::Space { wanted: n, left });
        }
        let old = self.waiting.len().min(n as usize);
        let given = &pool[..n as usize];
        self.waiting.truncate(self.waiting.len() - old);
        self.old.extend(&given[..old]);
        self.fresh.extend(&given[old..]);
        let mut reply: Vec<Handle> = given[..old].iter().rev().copied().collect();
        reply.extend(&given[old..]);
        Ok(reply)
    }

    pub fn flush(&mut self) -> Vec<Handle> {
        self.asked = 0;
        self.shut = false;
        self.made += self.fresh.len() as u32;
        let mut born = std::mem::take(&mut self.fresh);
        // The last of the old ones that were given comes first.
        born.extend(std::mem::take(&mut self.old).into_iter().rev());
        self.live.extend(&born);
        born
    }

    pub fn state(&self, given: Handle) -> State {
        if self.live.contains(&given) {
            State::Alive
        } else if self.old.contains(&given) || self.fresh.contains(&given) {
            State::Reserved
        } else {
            State::Gone
        }
    }

    /// Compares all that can be told of the allocator.
    pub fn expect(&self, entities: &Entities, place: &str) {
        assert_eq!(entities.len() as usize, self.live.len(), "{place}: len");
        assert_eq!(entities.total(), self.made, "{place}: total");
        assert_eq!(entities.room(), self.slots - self.made, "{place}: room");
        assert_eq!(entities.asked(), self.asked, "{place}: asked");
        let reserved = self.old.len() + self.fresh.len();
        assert_eq!(entities.reserved() as usize, reserved, "{place}: reserved");
        let waiting = self.waiting.len() + self.old.len();
        assert_eq!(entities.top() as usize, waiting, "{place}: waiting");
        let retired = self.made as usize - self.live.len() - waiting;
        assert_eq!(entities.retired() as usize, retired, "{place}: retired");
        let mut living = self.live.clone();
        living.sort();
        assert_eq!(entities.iter().len(), living.len(), "{place}: iter");
        assert!(entities.iter().eq(living), "{place}: iter");
    }
}

/// A generator of numbers (xorshift with a multiplication).
pub struct Numbers(u64);

impl Numbers {
    pub fn of(seed: u64) -> Self {
        Numbers(seed.wrapping_mul(0x9e37_79b9_7f4a_7c15) | 1)
    }

    pub fn below(&mut self, n: u64) -> u64 {
        self.0 ^= self.0 >> 12;
        self.0 ^= self.0 << 25;
        self.0 ^= self.0 >> 27;
        (self.0.wrapping_mul(0x2545_f491_4f6c_dd1d) >> 33) % n
    }
}

/// Runs a test by `FORGENI_SEEDS` seeds, or as many as this, or by `FORGENI_SEED` alone.
pub fn seeds(count: u64, run: impl Fn(u64)) {
    let set = |name: &str| std::env::var(name).ok().and_then(|n| n.parse::<u64>().ok());
    if let Some(seed) = set("FORGENI_SEED") {
        return run(seed);
    }
    for seed in 0..set("FORGENI_SEEDS").unwrap_or(count) {
        run(seed);
    }
}

/// The words that start this program anew. Where the tests run under an emulator, that is the first
/// of them: `FORGENI_EMULATOR` has it with its options (`.ci/targets.sh`).
pub fn this_program() -> Vec<OsString> {
    let emulator = std::env::var("FORGENI_EMULATOR").unwrap_or_default();
    let program = std::env::current_exe().expect("a path");
    let words = emulator.split_whitespace().map(OsString::from);
    words.chain([program.into()]).collect()
}
