//! Frames on joiners of the caller's: whatever they do with the halves, each system runs once.

use forgeni::{
    run_frame, ComponentId, FrameError, Join, OutOfMemory, Report, StdThreads, SystemCommands,
    View, World,
};
use std::panic::{catch_unwind, AssertUnwindSafe};
use std::sync::atomic::{AtomicUsize, Ordering};

const NUMBER: ComponentId = ComponentId(0);

/// Does with the first and with the second half what the word says: `1` and `2` call them, `!`
/// panics. It also counts how often it was asked.
struct Joiner(&'static str, AtomicUsize);

impl Joiner {
    fn new(word: &'static str) -> Self {
        Self(word, AtomicUsize::new(0))
    }
}

impl Join for Joiner {
    fn join(&self, first: &mut (dyn FnMut() + Send), second: &mut (dyn FnMut() + Send)) {
        self.1.fetch_add(1, Ordering::Relaxed);
        for letter in self.0.chars() {
            match letter {
                '1' => first(),
                '2' => second(),
                _ => panic!("the joiner"),
            }
        }
    }
}

/// Five systems, each of which spawns one entity with its number. One of them may panic.
fn frame(
    join: &(impl Join + Sync),
    world: &mut World,
    workers: usize,
    panics: Option<i64>,
) -> Result<Report, FrameError> {
    let system = |number| {
        move |_: &View<'_>, commands: &mut SystemCommands<'_>| -> Result<(), OutOfMemory> {
            let spawned = commands.spawn_with(&[(NUMBER, number)]);
            assert_ne!(panics, Some(number), "the system");
            spawned.map_or_else(|refused| refused.or_memory(), |_| Ok(()))
        }
    };
    let systems: Vec<_> = (0..5).map(system).collect();
    run_frame(join, world, &systems, workers)
}

/// The numbers of the entities, by birth.
fn numbers(world: &World) -> Vec<Option<i64>> {
    let all = world.by_birth().expect("memory").into_iter();
    all.map(|one| world.get(one, NUMBER)).collect()
}

const ALL: [Option<i64>; 5] = [Some(0), Some(1), Some(2), Some(3), Some(4)];

#[test]
fn each_system_runs_once_on_any_joiner() {
    for word in ["", "1", "2", "12", "21", "112", "2211", "1212"] {
        for workers in [1, 2, 3, 4, 7] {
            let (join, mut world) = (Joiner::new(word), World::new());
            let report = frame(&join, &mut world, workers, None).expect("memory");
            assert_eq!(
                (report.born.len(), numbers(&world)),
                (5, ALL.to_vec()),
                "{word}"
            );
            // Workers are halved until each is alone, and no more than there are systems run side
            // by side.
            assert_eq!(join.1.into_inner(), workers.min(5) - 1, "{word}");
        }
    }
}

/// The panic of a joiner is handed on when all systems have run, and the frame is complete.
#[test]
fn a_joiner_panics() {
    for word in ["!", "1!", "2!", "12!", "21!12"] {
        let mut world = World::new();
        let ran = AssertUnwindSafe(|| frame(&Joiner::new(word), &mut world, 4, None).map(drop));
        let panic = catch_unwind(ran).expect_err("a panic");
        assert_eq!(panic.downcast_ref(), Some(&"the joiner"), "{word}");
        assert_eq!(
            (world.frame(), numbers(&world)),
            (1, ALL.to_vec()),
            "{word}"
        );
        frame(&StdThreads, &mut world, 4, None).expect("memory");
        assert_eq!(world.len(), 10);
    }
}

/// The panic of a system comes before that of a joiner. No command was applied, and what was
/// reserved is born at the next flush.
#[test]
fn a_system_and_a_joiner_panic() {
    for (number, word) in [(0, "12!"), (3, "!"), (4, "12")] {
        let mut world = World::new();
        let joiner = Joiner::new(word);
        let ran = AssertUnwindSafe(|| frame(&joiner, &mut world, 2, Some(number)).map(drop));
        let panic = catch_unwind(ran).expect_err("a panic");
        let text = panic.downcast_ref::<String>().expect("a text");
        assert!(text.contains("the system"), "{word}: {text}");
        assert_eq!((world.frame(), world.len()), (0, 0), "{word}");
        world.flush().expect("memory");
        assert!((1..=5).contains(&world.len()), "{word}");
        assert!(numbers(&world).iter().all(Option::is_none), "{word}");
    }
}

/// A joiner behind a reference, also one of which only the trait is known.
#[test]
fn joiners_behind_references() {
    let mut world = World::new();
    frame(&&StdThreads, &mut world, 3, None).expect("memory");
    let dynamic: &(dyn Join + Sync) = &StdThreads;
    frame(&dynamic, &mut world, 3, None).expect("memory");
    assert_eq!(world.len(), 10);
}
