//! An allocator of Bevy's form, used by threads, recorded and checked; and then with each of ten
//! faults that people have made in theirs.
//!
//! It prints
//!
//! ```text
//! threads  1: 3000 phases, 47985 calls agree
//! threads  2: 3000 phases, 78089 calls agree
//! threads  4: 3000 phases, 137962 calls agree
//! threads 16: 3000 phases, 498079 calls agree
//! a reservation in two steps: found
//! a fresh index off by one: differs line 1: reserve 0 3 => 1v1 2v1 3v1, expected 0v1 1v1 2v1
//! the generation kept: differs line 17: state 2v1 => alive, expected gone
//! the whole pending list flushed: differs line 111: flush => born 12v3 0v4 15v2 13v3 16v3 8v4 11v3, expected born 13v3 16v3 8v4 11v3
//! a bulk in the other order: differs line 20: reserve 0 2 => 2v2 4v2, expected 4v2 2v2
//! the cursor not reset: differs line 9: reserve 0 1 => 13v1, expected 7v1
//! a reservation lost between two threads: found
//! the reply by a cursor that is read again: found
//! a stale handle freed: differs line 18: free 2v1 => freed, expected not alive
//! the first generation after the last: differs line 84: alloc => 1v1, expected 8v3
//! ```

use forgeni::trace::{CheckError, Checker, FreeReply, Log};
use forgeni::{Handle, Limits, State};
use std::sync::atomic::{AtomicBool, AtomicI64, Ordering::Relaxed};
use std::sync::{Barrier, Mutex, RwLock};
use std::thread::{scope, yield_now};

/// A slot has few generations, so that the last one is reached.
const GENERATIONS: u32 = 4;

/// How many reservations a thread makes in a phase, and how many phases there are.
const RESERVATIONS: u32 = 4;
const PHASES: u32 = 3_000;

/// The most entities that live on to the next phase.
const LIVING: usize = 6;

fn main() -> Result<(), CheckError> {
    for threads in [1, 2, 4, 16] {
        let calls = checked(None, threads)?;
        println!("threads {threads:2}: {PHASES} phases, {calls} calls agree");
    }
    for (fault, what) in FAULTS {
        let threads = if fault.is_of_threads() { 4 } else { 1 };
        match checked(Some(fault), threads) {
            Err(CheckError::Differs(_)) if threads > 1 => println!("{what}: found"),
            Err(found) => println!("{what}: {found}"),
            Ok(_) => println!("{what}: not found"),
        }
    }
    Ok(())
}

/// What is wrong with an allocator.
#[derive(Clone, Copy, Debug, PartialEq, Eq)]
enum Fault {
    TwoSteps,
    FreshIndex,
    GenerationKept,
    WholeList,
    BulkOrder,
    CursorKept,
    Lost,
    ReadAgain,
    StaleFree,
    Wrap,
}

const FAULTS: [(Fault, &str); 10] = [
    (Fault::TwoSteps, "a reservation in two steps"),
    (Fault::FreshIndex, "a fresh index off by one"),
    (Fault::GenerationKept, "the generation kept"),
    (Fault::WholeList, "the whole pending list flushed"),
    (Fault::BulkOrder, "a bulk in the other order"),
    (Fault::CursorKept, "the cursor not reset"),
    (Fault::Lost, "a reservation lost between two threads"),
    (Fault::ReadAgain, "the reply by a cursor that is read again"),
    (Fault::StaleFree, "a stale handle freed"),
    (Fault::Wrap, "the first generation after the last"),
];

impl Fault {
    /// Whether it takes two threads to see it.
    fn is_of_threads(self) -> bool {
        matches!(self, Self::TwoSteps | Self::Lost | Self::ReadAgain)
    }
}

/// The allocator. The slots in `pending` below the cursor wait, and those above it are reserved.
/// Below 0 the cursor counts new slots.
struct Allocator {
    generations: Vec<u32>,
    pending: Vec<u32>,
    cursor: AtomicI64,
    len: u32,
    fault: Option<Fault>,
    /// How many are reserved, as an allocator with the fault `Lost` counts them.
    counted: AtomicI64,
}

impl Allocator {
    fn new(fault: Option<Fault>) -> Self {
        Self {
            generations: Vec::new(),
            pending: Vec::new(),
            cursor: AtomicI64::new(0),
            len: 0,
            fault,
            counted: AtomicI64::new(0),
        }
    }

    fn has(&self, fault: Fault) -> bool {
        self.fault == Some(fault)
    }

    fn handle(&self, slot: u32) -> Handle {
        Handle::new(slot, self.generations[slot as usize]).expect("a handle")
    }

    /// What a cursor that was found there gives.
    fn at(&self, cursor: i64) -> Handle {
        if cursor > 0 {
            return self.handle(self.pending[cursor as usize - 1]);
        }
        let off = i64::from(self.has(Fault::FreshIndex));
        let slot = self.generations.len() as i64 - cursor + off;
        Handle::new(slot as u32, 1).expect("a handle")
    }

    /// Lowers the cursor, and says where it was. This is the one atomic step of a reservation.
    fn lower(&self, count: i64) -> i64 {
        match self.fault {
            Some(Fault::TwoSteps) => {
                let found = self.cursor.load(Relaxed);
                yield_now();
                self.cursor.store(found - count, Relaxed);
                found
            }
            Some(Fault::ReadAgain) => {
                self.cursor.fetch_sub(count, Relaxed);
                yield_now();
                self.cursor.load(Relaxed) + count
            }
            Some(Fault::Lost) => {
                let counted = self.counted.load(Relaxed);
                yield_now();
                self.counted.store(counted + count, Relaxed);
                self.cursor.fetch_sub(count, Relaxed)
            }
            _ => self.cursor.fetch_sub(count, Relaxed),
        }
    }

    fn reserve_entity(&self) -> Handle {
        self.at(self.lower(1))
    }

    /// First slots that wait, the one that waits longest before the others, and then new ones.
    fn reserve_entities(&self, count: u32) -> Vec<Handle> {
        let high = self.lower(i64::from(count));
        let low = high - i64::from(count);
        let waiting = low.max(0) + 1..=high.max(0);
        let new = low.min(0) + 1..=high.min(0);
        let mut handles: Vec<Handle> = waiting.map(|cursor| self.at(cursor)).collect();
        if self.has(Fault::BulkOrder) {
            handles.reverse();
        }
        handles.extend(new.rev().map(|cursor| self.at(cursor)));
        handles
    }

    /// Brings to life what is reserved: first new slots, then those that waited.
    fn flush(&mut self) -> Vec<Handle> {
        let mut found = *self.cursor.get_mut();
        if self.has(Fault::Lost) {
            found = self.pending.len() as i64 - std::mem::take(self.counted.get_mut());
        }
        let made = self.generations.len();
        self.generations.resize(made + (-found).max(0) as usize, 1);
        let new = made..self.generations.len();
        let mut born: Vec<Handle> = new.map(|slot| self.handle(slot as u32)).collect();
        let is_whole = self.has(Fault::WholeList);
        let waiting = if is_whole { 0 } else { found.max(0) };
        let waited = self.pending.split_off(waiting as usize);
        born.extend(waited.into_iter().map(|slot| self.handle(slot)));
        let is_kept = self.has(Fault::CursorKept);
        *self.cursor.get_mut() = if is_kept { found } else { waiting };
        self.len += born.len() as u32;
        born
    }

    fn alloc(&mut self) -> Handle {
        self.len += 1;
        if let Some(slot) = self.pending.pop() {
            *self.cursor.get_mut() = self.pending.len() as i64;
            return self.handle(slot);
        }
        self.generations.push(1);
        self.handle(self.generations.len() as u32 - 1)
    }

    /// Whether the handle was alive. After the last generation its slot is retired.
    fn free(&mut self, handle: Handle) -> bool {
        let fault = self.fault;
        let generation = &mut self.generations[handle.index() as usize];
        if *generation != handle.generation() && fault != Some(Fault::StaleFree) {
            return false;
        }
        self.len -= 1;
        let is_last = *generation == GENERATIONS;
        *generation = match fault {
            Some(Fault::GenerationKept) => *generation,
            Some(Fault::Wrap) if is_last => 1,
            _ if is_last => 0,
            _ => *generation + 1,
        };
        if *generation > 0 {
            self.pending.push(handle.index());
            *self.cursor.get_mut() = self.pending.len() as i64;
        }
        true
    }

    /// Whether the handle is alive, right after a flush.
    fn contains(&self, handle: Handle) -> bool {
        self.generations[handle.index() as usize] == handle.generation()
    }
}

/// Uses an allocator, and checks what it answers. Returns how many calls there were.
fn checked(fault: Option<Fault>, threads: u32) -> Result<u64, CheckError> {
    let crew = Crew {
        allocator: RwLock::new(Allocator::new(fault)),
        logs: (0..threads).map(Log::new).map(Mutex::new).collect(),
        turn: Barrier::new(threads as usize + 1),
        is_over: AtomicBool::new(false),
    };
    scope(|scope| {
        for log in &crew.logs {
            scope.spawn(|| crew.work(log));
        }
        let calls = crew.lead();
        crew.is_over.store(true, Relaxed);
        crew.turn.wait();
        calls
    })
}

/// Threads that share an allocator. Each has a log of its own, and takes its lock once a phase.
struct Crew {
    allocator: RwLock<Allocator>,
    logs: Vec<Mutex<Log>>,
    /// A phase begins, or it has ended.
    turn: Barrier,
    is_over: AtomicBool,
}

impl Crew {
    /// What a thread does: all of them reserve side by side.
    fn work(&self, log: &Mutex<Log>) {
        for phase in 0_u64.. {
            self.turn.wait();
            if self.is_over.load(Relaxed) {
                return;
            }
            let allocator = self.allocator.read().expect("no panic");
            let mut log = log.lock().expect("no panic");
            let mut random = Random(phase << 32 | u64::from(log.caller()));
            for _ in 0..RESERVATIONS {
                let pushed = match random.below(4) {
                    1 => log.push(1, allocator.reserve_entity()),
                    count => log.push(count, allocator.reserve_entities(count)),
                };
                pushed.expect("memory for the log");
            }
            drop((allocator, log));
            self.turn.wait();
        }
    }

    /// What is done between two phases: the logs are joined, and then come calls that nothing
    /// overlaps.
    fn lead(&self) -> Result<u64, CheckError> {
        let limits = Limits::new(u32::MAX, GENERATIONS).expect("limits");
        let mut checker = Checker::new(limits);
        let (mut living, mut random) = (Vec::new(), Random(0));
        for _ in 0..PHASES {
            self.turn.wait();
            self.turn.wait();
            for log in &self.logs {
                checker.join(&mut log.lock().expect("no panic"))?;
            }
            let mut allocator = self.allocator.write().expect("no panic");
            let born = allocator.flush();
            living.extend(&born);
            checker.flush(born)?;
            use_alone(&mut allocator, &mut checker, &mut living, &mut random)?;
        }
        let calls = checker.calls();
        checker.finish()?;
        Ok(calls)
    }
}

/// The calls that nothing overlaps.
fn use_alone(
    allocator: &mut Allocator,
    checker: &mut Checker,
    living: &mut Vec<Handle>,
    random: &mut Random,
) -> Result<(), CheckError> {
    let mut last = None;
    while living.len() > LIVING {
        let one = living.swap_remove(random.below(living.len() as u32) as usize);
        checker.free(one, free_reply(allocator.free(one)))?;
        last = Some(one);
    }
    for _ in 0..random.below(3) {
        let one = allocator.alloc();
        checker.alloc(one)?;
        living.push(one);
    }
    if let Some(gone) = last {
        checker.state(gone, state(allocator.contains(gone)))?;
        checker.free(gone, free_reply(allocator.free(gone)))?;
    }
    checker.len(allocator.len)
}

fn free_reply(is_freed: bool) -> FreeReply {
    if is_freed {
        FreeReply::Freed
    } else {
        FreeReply::NotAlive
    }
}

fn state(is_alive: bool) -> State {
    if is_alive {
        State::Alive
    } else {
        State::Gone
    }
}

/// Numbers by a seed.
struct Random(u64);

impl Random {
    /// A number below `count`.
    fn below(&mut self, count: u32) -> u32 {
        self.0 = self.0.wrapping_add(0x9e37_79b9_7f4a_7c15);
        let mut mixed = self.0;
        mixed = (mixed ^ (mixed >> 30)).wrapping_mul(0xbf58_476d_1ce4_e5b9);
        mixed = (mixed ^ (mixed >> 27)).wrapping_mul(0x94d0_49bb_1331_11eb);
        ((mixed ^ (mixed >> 31)) % u64::from(count)) as u32
    }
}
