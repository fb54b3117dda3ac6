//! The erased code and the machine code of the kit, side by side: both replay random schedules, and
//! give the same bytes.
//!
//! The variable `SPAWNRUN` names the program that the kit has made of `crates/spawnrun`.

use crate::allocator::Limits;
use crate::handles::Handle;
use crate::traces::{read_schedule, write_outcome, Event, Machine, Outcome, ReadFault};
use std::ffi::OsString;
use std::io::Write;
use std::process::{Command, Stdio};
use std::sync::atomic::{AtomicU64, Ordering::Relaxed};
use std::{env, thread};

/// How many schedules are replayed.
const SCHEDULES: u64 = 20_000;

/// A schedule has at most so many events.
const MOST_EVENTS: u64 = 120;

/// Limits that schedules of this length come to, and greater ones.
const SLOTS: [u32; 6] = [1, 2, 5, 20, 1_000, u32::MAX];
const GENERATIONS: [u32; 5] = [1, 2, 3, 50, (1 << 31) - 1];

/// Numbers by a seed.
struct Random(u64);

impl Random {
    /// A number below `count`.
    fn below(&mut self, count: u64) -> u64 {
        // Splitmix: each step is a full period of 64 bits.
        self.0 = self.0.wrapping_add(0x9e37_79b9_7f4a_7c15);
        let mut mixed = self.0;
        mixed = (mixed ^ (mixed >> 30)).wrapping_mul(0xbf58_476d_1ce4_e5b9);
        mixed = (mixed ^ (mixed >> 27)).wrapping_mul(0x94d0_49bb_1331_11eb);
        (mixed ^ (mixed >> 31)) % count
    }

    fn of<T: Copy>(&mut self, items: &[T]) -> T {
        items[self.below(items.len() as u64) as usize]
    }
}

/// A schedule, with the limits of its allocator.
struct Schedule {
    limits: Limits,
    text: String,
}

impl Schedule {
    /// The schedule of this seed. While it is made it is replayed, so that it frees handles that
    /// there are, and steps of calls that are open.
    fn of(seed: u64) -> Self {
        let mut random = Random(seed);
        let limits = Limits::new(random.of(&SLOTS), random.of(&GENERATIONS)).expect("limits");
        let mut machine = Machine::new(limits).expect("it takes no memory");
        let (mut given, mut open) = (Vec::new(), 0);
        let mut text = String::new();
        for _ in 0..random.below(MOST_EVENTS) {
            let event = event(&mut random, &given, limits, open > 0);
            if let Ok(outcome) = machine.step(event) {
                given.extend(handles(&outcome));
                open += i32::from(outcome == Outcome::Open);
                open -= i32::from(matches!(event, Event::Answer(_)));
            }
            text.push_str(&line(event));
        }
        // Some are no schedules: a line is cut, or another one stands there.
        match random.below(16) {
            0 => text.truncate(random.below(text.len() as u64 + 1) as usize),
            1 => text.push_str(random.of(&[
                "free 0v0\n",
                "begin 1\n",
                "step 01\n",
                "alloc \n",
                "\n",
            ])),
            _ => {}
        }
        Schedule { limits, text }
    }

    /// What the erased code gives.
    fn erased(&self) -> Vec<u8> {
        let events = match read_schedule(self.text.as_bytes()) {
            Ok(events) => events,
            Err(ReadFault::Line { line, cause }) => {
                return format!("refused line {line} {}\n", cause.text()).into_bytes();
            }
            Err(ReadFault::Memory) => panic!("out of memory"),
        };
        let mut machine = Machine::new(self.limits).expect("it takes no memory");
        let outcomes = machine.run(&events).expect("memory");
        let mut text = Vec::new();
        for outcome in &outcomes {
            write_outcome(outcome, &mut text).expect("memory");
        }
        text.into()
    }

    /// What the program gives.
    fn native(&self, program: &OsString) -> Vec<u8> {
        let mut running = Command::new(program)
            .arg("replay")
            .args(["--slots", &self.limits.slots().to_string()])
            .args(["--generations", &self.limits.generations().to_string()])
            .stdin(Stdio::piped())
            .stdout(Stdio::piped())
            .stderr(Stdio::null())
            .spawn()
            .expect("SPAWNRUN names a program");
        let mut input = running.stdin.take().expect("a pipe");
        input.write_all(self.text.as_bytes()).expect("it reads");
        drop(input);
        running.wait_with_output().expect("it ends").stdout
    }
}

/// An event. If calls are open it mostly goes on with them.
fn event(random: &mut Random, given: &[Handle], limits: Limits, is_open: bool) -> Event {
    // A request that is served has a list of its handles, so the greatest one is to be refused.
    let most = if limits.slots() < u32::MAX {
        u32::MAX
    } else {
        1_000
    };
    let caller = random.of(&[0, 0, 0, 0, 1, 1, 1_023, 1_024]);
    match random.below(20) + if is_open { 12 } else { 0 } {
        0..5 => Event::Alloc,
        5..10 if !given.is_empty() => Event::Free(random.of(given)),
        5..10 => Event::Free(Handle::new(0, 1).expect("a handle")),
        10..14 => Event::Flush,
        14..19 => Event::Begin {
            caller,
            n: random.of(&[0, 1, 1, 2, 3, 10, 40, most]),
        },
        19..24 => Event::Step(caller),
        _ => Event::Answer(caller),
    }
}

/// The handles that an event has given.
fn handles(outcome: &Outcome) -> Vec<Handle> {
    match outcome {
        Outcome::Handle(handle) => [*handle].to_vec(),
        Outcome::Born(handles) | Outcome::Handles(handles) => handles.as_slice().to_vec(),
        _ => Vec::new(),
    }
}

/// The line of an event.
fn line(event: Event) -> String {
    match event {
        Event::Alloc => "alloc\n".to_owned(),
        Event::Free(handle) => format!("free {handle}\n"),
        Event::Flush => "flush\n".to_owned(),
        Event::Begin { caller, n } => format!("begin {caller} {n}\n"),
        Event::Step(caller) => format!("step {caller}\n"),
        Event::Answer(caller) => format!("answer {caller}\n"),
    }
}

/// How many lines begin like this.
fn count(text: &str, begin: &str) -> u64 {
    text.lines().filter(|line| line.starts_with(begin)).count() as u64
}

#[test]
#[ignore = "it needs the program that the kit makes of crates/spawnrun"]
fn random_schedules_give_the_same_bytes() {
    let program = env::var_os("SPAWNRUN").expect("SPAWNRUN names the program of crates/spawnrun");
    let next = AtomicU64::new(0);
    let replay = || loop {
        let seed = next.fetch_add(1, Relaxed);
        if seed >= SCHEDULES {
            return;
        }
        let schedule = Schedule::of(seed);
        let (ours, theirs) = (schedule.erased(), schedule.native(&program));
        assert!(
            ours == theirs,
            "the schedule of seed {seed}, of {} slots and {} generations:\n{}\nis here\n{}\nand there\n{}",
            schedule.limits.slots(),
            schedule.limits.generations(),
            schedule.text,
            String::from_utf8_lossy(&ours),
            String::from_utf8_lossy(&theirs),
        );
    };
    thread::scope(|scope| {
        for _ in 0..thread::available_parallelism().map_or(1, |count| count.get()) {
            scope.spawn(replay);
        }
    });
}

/// The schedules come to each outcome, so that the comparison is of something.
#[test]
fn random_schedules_come_to_each_outcome() {
    let begins = [
        "0v",
        "1v2",
        "freed ",
        "born 0v",
        "open",
        "cursor -",
        "cursor 0",
        "space wanted ",
        "needs flush",
        "not alive",
        "busy",
        "not open",
        "already open",
        "not stepped",
        "already stepped",
        "caller",
        "refused line",
    ];
    let mut counts = [0; 17];
    for seed in 0..SCHEDULES / 10 {
        let text = String::from_utf8(Schedule::of(seed).erased()).expect("a text");
        for (sum, begin) in counts.iter_mut().zip(begins) {
            *sum += count(&text, begin);
        }
    }
    for (count, begin) in counts.into_iter().zip(begins) {
        assert!(count >= 50, "{count} lines begin with {begin:?}");
    }
}
