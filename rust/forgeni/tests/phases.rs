//! A phase on a borrow of the allocator, and pools of reservers: whatever its closure does, the
//! allocator is back at the end, with all that was reserved.

use crate::common::{flushed, handle, seeds, small, Model, Numbers};
use forgeni::{ComponentId, Entities, Handle, OtherPhase, ReserveError, ShareError, World};
use std::collections::HashSet;
use std::mem;
use std::panic::{catch_unwind, resume_unwind, AssertUnwindSafe};

#[test]
fn the_allocator_is_back() {
    let mut entities = small(5, 9);
    let first = entities.alloc().expect("a handle");
    let told = entities
        .phase(2, |shared, reservers| {
            assert_eq!((shared.count(), shared.returned()), (2, 0));
            assert_eq!((reservers.len(), reservers[1].number()), (2, 1));
            assert!(reservers[0].is_of(shared));
            (reservers[0].reserve(), reservers[1].reserve_many(2))
        })
        .expect("shared");
    assert_eq!(
        told,
        (Ok(handle(1, 1)), Ok(vec![handle(2, 1), handle(3, 1)]))
    );
    assert_eq!((entities.reserved(), entities.asked()), (3, 3));
    assert!(entities.is_alive(first) && entities.contains(handle(3, 1)));
    assert_eq!(flushed(&mut entities).len(), 3);
    assert_eq!(entities.alloc(), Ok(handle(4, 1)));
}

#[test]
fn a_phase_that_is_refused() {
    let mut entities = small(5, 9);
    let first = entities.alloc().expect("a handle");
    for callers in [0, 1025, usize::MAX] {
        let ran = entities.phase(callers, |_, _| panic!("it isn't called"));
        assert_eq!(ran, Err(ShareError::Count));
        assert!(entities.is_alive(first));
    }
    entities.request().expect("a handle");
    let ran = entities.phase(1, |_, _| panic!("it isn't called"));
    assert_eq!(ran, Err(ShareError::NeedsFlush));
    assert_eq!((entities.reserved(), entities.len()), (1, 1));
}

/// What lived as the phase was opened is told to every thread, whatever is reserved meanwhile.
#[test]
fn what_lives_in_a_phase() {
    let mut entities = small(300, 9);
    let all = entities.alloc_many(200).expect("memory");
    for (row, one) in (0..).zip(&all) {
        entities.try_set_row(*one, row).expect("alive");
    }
    for one in all.iter().step_by(2) {
        entities.free(*one).expect("alive");
    }
    let bare = entities.alloc().expect("a slot");
    let living: HashSet<Handle> = entities.iter().collect();
    entities
        .phase(4, |shared, reservers| {
            std::thread::scope(|scope| {
                for one in reservers {
                    scope.spawn(|| {
                        let new = one.reserve_many(40).expect("room");
                        assert!(new.iter().all(|new| !shared.entities().is_alive(*new)));
                        for (row, old) in (0..).zip(&all) {
                            let lives = living.contains(old);
                            assert_eq!(shared.entities().is_alive(*old), lives);
                            assert_eq!(one.entities().is_alive(*old), lives);
                            assert_eq!(shared.entities().row(*old), lives.then_some(row));
                            assert_eq!(one.entities().row(*old), lives.then_some(row));
                        }
                        assert!(
                            shared.entities().is_alive(bare)
                                && shared.entities().row(bare).is_none()
                        );
                        assert!(!shared.entities().is_alive(Handle::PLACEHOLDER));
                    });
                }
            });
        })
        .expect("shared");
    flushed(&mut entities);
    assert_eq!(entities.len() as usize, living.len() + 160);
    assert!(living.iter().all(|one| entities.is_alive(*one)));
    assert_eq!(entities.row(all[5]), Some(5));
}

/// The closure ends early. What was reserved until then counts.
#[test]
fn an_early_end() {
    let mut entities = small(3, 1);
    let ran = entities.phase(1, |_, reservers| {
        reservers[0].reserve_many(2)?;
        reservers[0].reserve_many(2)?;
        Ok::<(), ReserveError>(())
    });
    assert_eq!(ran, Ok(Err(ReserveError::Space { wanted: 2, left: 1 })));
    // All reservers are there, so it is known that the second one was refused.
    assert_eq!((entities.asked(), entities.reserved()), (4, 2));
    assert_eq!(flushed(&mut entities).len(), 2);
}

/// The closure panics, on its thread or on another one.
#[test]
fn a_panic() {
    let mut entities = small(9, 1);
    let ran = catch_unwind(AssertUnwindSafe(|| {
        entities.phase(3, |_, reservers| {
            std::thread::scope(|scope| {
                for (count, one) in (1..).zip(reservers) {
                    scope.spawn(move || {
                        one.reserve_many(count).expect("room");
                        if count == 2 {
                            resume_unwind(Box::new("stopped"));
                        }
                    });
                }
            });
        })
    }));
    assert!(ran.is_err());
    assert_eq!((entities.asked(), entities.reserved()), (6, 6));
    flushed(&mut entities);
    assert_eq!(entities.len(), 6);
    let ran = catch_unwind(AssertUnwindSafe(|| {
        entities.phase(1, |_, reservers| {
            reservers[0].reserve().expect("room");
            resume_unwind(Box::new("stopped"))
        })
    }));
    let ran: Result<Result<(), _>, _> = ran;
    assert!(ran.is_err());
    assert_eq!((entities.len(), entities.reserved()), (6, 1));
}

/// What is lent can be dropped, forgotten, and put in another's place. The phase has all the same.
#[test]
fn a_reserver_can_not_be_kept() {
    let (mut first, mut second) = (Entities::new(), Entities::new());
    first
        .phase(2, |here, a| {
            second
                .phase(2, |there, b| {
                    // They are of two phases, and it is known of which.
                    assert_eq!(a[0].meet(&mut b[0]), Err(OtherPhase));
                    b[0].reserve().expect("a handle");
                    assert!(!b[0].is_of(here) && b[0].is_of(there));
                })
                .expect("shared");
            let (one, other) = a.split_at_mut(1);
            mem::swap(&mut one[0], &mut other[0]);
            assert_eq!((a[0].number(), a[1].number()), (1, 0));
            a[0].reserve_many(3).expect("handles");
        })
        .expect("shared");
    assert_eq!((first.reserved(), second.reserved()), (3, 1));
}

/// A phase within a phase of the same allocator sees an empty one? No: the allocator is away, so it
/// can't even be named. This one is of another allocator, on each of several threads.
#[test]
fn phases_side_by_side() {
    let mut all: Vec<Entities> = (0..4).map(|_| Entities::new()).collect();
    std::thread::scope(|scope| {
        for (count, entities) in all.iter_mut().enumerate() {
            scope.spawn(move || {
                for _ in 0..100 {
                    entities
                        .phase(1 + count, |_, reservers| {
                            for one in reservers {
                                one.reserve().expect("a handle");
                            }
                        })
                        .expect("shared");
                    flushed(entities);
                }
            });
        }
    });
    let sizes: Vec<u32> = all.iter().map(Entities::len).collect();
    assert_eq!(sizes, [100, 200, 300, 400]);
}

/// What phases of random requests tell is what the model says, one after the other.
#[test]
fn random_phases() {
    seeds(2_000, |seed| {
        let mut numbers = Numbers::of(seed);
        let slots = 1 + numbers.below(12) as u32;
        let mut model = Model::new(slots, 3);
        let mut entities = small(slots, 3);
        for _ in 0..4 {
            let callers = 1 + numbers.below(4) as usize;
            entities
                .phase(callers, |_, reservers| {
                    for _ in 0..numbers.below(6) {
                        let one = &mut reservers[numbers.below(callers as u64) as usize];
                        let n = numbers.below(4) as u32;
                        assert_eq!(one.reserve_many(n), model.reserve(n), "seed {seed}");
                    }
                })
                .expect("shared");
            model.expect(&entities, &format!("seed {seed}"));
            assert_eq!(flushed(&mut entities), model.flush());
            for one in model.live.clone() {
                if numbers.below(2) == 0 {
                    assert_eq!(entities.free(one), model.free(one));
                }
            }
        }
    });
}

/// A lent reserver appends to a list, and leaves it as it was if it is refused.
#[test]
fn a_list_is_appended_to() {
    let mut entities = small(4, 1);
    let phase = entities.phase(1, |_, reservers| {
        let mut list = vec![handle(9, 9)];
        reservers[0].reserve_into(&mut list, 2).expect("two");
        reservers[0].reserve_into(&mut list, 1).expect("one");
        let wanted = [handle(9, 9), handle(0, 1), handle(1, 1), handle(2, 1)];
        assert_eq!(list, wanted);
        let refused = ReserveError::Space { wanted: 2, left: 1 };
        assert_eq!(reservers[0].reserve_into(&mut list, 2), Err(refused));
        assert_eq!(list, wanted);
    });
    phase.expect("shared");
    assert_eq!(entities.reserved(), 3);
}

#[cfg(feature = "std")]
mod pools {
    use super::*;
    use forgeni::{Lent, Reservers};
    use std::sync::atomic::{AtomicUsize, Ordering};
    use std::sync::{Arc, Barrier};
    use std::thread::sleep;
    use std::time::Duration;

    fn all_of(reserver: &mut Lent<'_>, n: u32) -> Vec<Handle> {
        reserver.reserve_many(n).expect("handles")
    }

    /// More threads than reservers, each of which comes for a while. No handle is given twice.
    /// Tasks on threads that come and go issue the commands of a world.
    #[test]
    fn of_a_world() {
        const HP: ComponentId = ComponentId(0);
        let mut world = World::new();
        let lent = world.phase(2, |_open, systems| {
            let pool = &Reservers::new(systems).expect("memory");
            std::thread::scope(|scope| {
                for value in 0..8 {
                    scope.spawn(move || pool.with(|commands| commands.spawn(&[(HP, value)])));
                }
            });
        });
        let ((), queues) = lent.expect("a phase");
        let report = world.apply(queues).expect("memory");
        assert_eq!((report.born.len(), report.faults.len()), (8, 0));
        let values = report.born.iter().filter_map(|one| world.get(*one, HP));
        let mut values: Vec<_> = values.collect();
        values.sort_unstable();
        assert_eq!(values, [0, 1, 2, 3, 4, 5, 6, 7]);
    }

    #[test]
    fn threads_that_come_and_go() {
        for (reservers, threads) in [(1, 4), (3, 8), (8, 8), (16, 5)] {
            let mut entities = Entities::new();
            let told = entities
                .phase(reservers, |_, reservers| {
                    let pool = Reservers::new(reservers).expect("memory");
                    std::thread::scope(|scope| {
                        let task = || -> Vec<Handle> {
                            let lent = (0..200).map(|_| pool.with(|one| all_of(one, 2)));
                            lent.flatten().collect()
                        };
                        let running: Vec<_> = (0..threads).map(|_| scope.spawn(task)).collect();
                        let ended = running.into_iter().map(|thread| thread.join());
                        ended.flat_map(|told| told.expect("no panic")).collect()
                    })
                })
                .expect("shared");
            let told: Vec<Handle> = told;
            let once: HashSet<Handle> = told.iter().copied().collect();
            assert_eq!((told.len(), once.len()), (400 * threads, 400 * threads));
            flushed(&mut entities);
            assert_eq!(entities.len() as usize, told.len());
            assert!(told.iter().all(|one| entities.is_alive(*one)));
        }
    }

    /// No two have one reserver at a time, and each that is free is found.
    #[test]
    fn each_is_lent_once() {
        let (shared, reservers) = Entities::new().share(3).expect("shared");
        let pool = Reservers::new(reservers).expect("memory");
        assert_eq!(pool.count(), 3);
        pool.with(|one| {
            pool.with(|two| {
                pool.with(|three| {
                    let numbers = [one.number(), two.number(), three.number()];
                    assert_eq!(numbers.into_iter().collect::<HashSet<_>>().len(), 3);
                    assert!(pool.try_with(|_| ()).is_none());
                });
                assert!(pool.try_with(|_| ()).is_some());
            });
        });
        let reservers = pool.into_inner();
        assert_eq!(reservers[2].number(), 2);
        assert!(shared.close(reservers).is_ok());
    }

    /// It waits where none is free, until one is.
    #[test]
    fn waiting() {
        let (shared, reservers) = Entities::new().share(1).expect("shared");
        let pool = Reservers::new(reservers).expect("memory");
        let (both, within) = (Barrier::new(2), AtomicUsize::new(0));
        std::thread::scope(|scope| {
            scope.spawn(|| {
                pool.with(|one| {
                    both.wait();
                    within.store(1, Ordering::SeqCst);
                    one.reserve().expect("a handle");
                    within.store(2, Ordering::SeqCst);
                })
            });
            both.wait();
            pool.with(|one| {
                assert_eq!(within.load(Ordering::SeqCst), 2);
                one.reserve().expect("a handle");
            });
        });
        let entities = shared.close(pool.into_inner()).expect("closed");
        assert_eq!(entities.reserved(), 2);
    }

    /// A waiting thread takes the first reserver that becomes free, whatever the numbers of the
    /// threads: one reserver is lent to a thread that waits for the other threads.
    #[test]
    fn the_first_that_comes_free() {
        let (shared, reservers) = Entities::new().share(2).expect("shared");
        let pool = Arc::new(Reservers::new(reservers).expect("memory"));
        let (tell, told) = std::sync::mpsc::channel();
        pool.with(|parent| {
            let (second, is_lent) = (Arc::clone(&pool), Arc::new(Barrier::new(2)));
            let lent = Arc::clone(&is_lent);
            std::thread::spawn(move || {
                second.with(|_| {
                    lent.wait();
                    std::thread::sleep(std::time::Duration::from_millis(100));
                });
            });
            is_lent.wait();
            // They all find both lent. Threads that are started one after the other have
            // consecutive numbers.
            for _ in 0..4 {
                let (pool, tell) = (Arc::clone(&pool), tell.clone());
                std::thread::spawn(move || {
                    let given = pool.with(|one| one.reserve()).expect("a handle");
                    tell.send(given).expect("the test waits");
                });
            }
            for _ in 0..4 {
                let given = told.recv_timeout(std::time::Duration::from_secs(20));
                given.expect("it waits although a reserver is free");
            }
            parent.reserve().expect("a handle");
        });
        drop(shared);
    }

    /// Many wait for few, and all of them are woken.
    #[test]
    fn all_who_wait_are_woken() {
        let (shared, reservers) = Entities::new().share(3).expect("shared");
        let pool = Reservers::new(reservers).expect("memory");
        std::thread::scope(|scope| {
            for _ in 0..16 {
                scope.spawn(|| {
                    for _ in 0..50 {
                        pool.with(|one| {
                            one.reserve().expect("a handle");
                            std::thread::yield_now();
                        });
                    }
                });
            }
        });
        let entities = shared.close(pool.into_inner()).expect("closed");
        assert_eq!(entities.reserved(), 16 * 50);
    }

    /// A thread gives the only reserver back, and comes again at once. While another one waits, it
    /// has a turn or two: that it has had one more when the other one wakes makes it wait too.
    #[test]
    fn who_waits_is_not_overtaken_for_good() {
        let (shared, reservers) = Entities::new().share(1).expect("shared");
        let pool = Reservers::new(reservers).expect("memory");
        let (turns, served) = (AtomicUsize::new(0), AtomicUsize::new(0));
        std::thread::scope(|scope| {
            scope.spawn(|| {
                while served.load(Ordering::SeqCst) < 10 && turns.load(Ordering::SeqCst) < 500 {
                    pool.with(|_| {
                        turns.fetch_add(1, Ordering::SeqCst);
                        sleep(Duration::from_millis(1));
                    });
                }
            });
            let mut meanwhile = 0;
            for _ in 0..10 {
                sleep(Duration::from_millis(1));
                let before = turns.load(Ordering::SeqCst);
                meanwhile += pool.with(|_| turns.load(Ordering::SeqCst)) - before;
                served.fetch_add(1, Ordering::SeqCst);
            }
            assert!(meanwhile <= 60, "{meanwhile} turns while ten waited");
        });
        assert!(shared.close(pool.into_inner()).is_ok());
    }

    /// Threads of any number find each reserver.
    #[test]
    fn threads_of_high_numbers() {
        let (shared, reservers) = Entities::new().share(3).expect("shared");
        let pool = Reservers::new(reservers).expect("memory");
        for _ in 0..600 {
            let given = std::thread::scope(|scope| {
                let task = scope.spawn(|| pool.with(|one| one.reserve()));
                task.join().expect("no panic")
            });
            given.expect("a handle");
        }
        // One after the other has the next number, so each reserver had its turn.
        let reservers = pool.into_inner();
        assert_eq!(reservers.len(), 3);
        assert!(reservers.iter().all(|one| one.quota_left() < 1 << 40));
        assert_eq!(shared.close(reservers).expect("closed").reserved(), 600);
    }

    /// After a panic in each of them, all are lent again, each once, and come back in their order.
    #[test]
    fn all_are_lent_after_panics() {
        let (shared, reservers) = Entities::new().share(3).expect("shared");
        let pool = Reservers::new(reservers).expect("memory");
        let ran = catch_unwind(AssertUnwindSafe(|| {
            pool.with(|_| pool.with(|_| pool.with(|_| resume_unwind(Box::new("stopped")))))
        }));
        let ran: Result<(), _> = ran;
        assert!(ran.is_err());
        let lent = pool.try_with(|one| {
            let two = pool.try_with(|two| {
                let three = pool.try_with(|three| three.number());
                (two.number(), three)
            });
            (one.number(), two)
        });
        let (one, Some((two, Some(three)))) = lent.expect("free") else {
            panic!("not all are free");
        };
        let numbers: HashSet<usize> = [one, two, three].into_iter().collect();
        assert_eq!(numbers.len(), 3);
        // A thread that panics wakes a waiting one.
        let all = Barrier::new(3);
        std::thread::scope(|scope| {
            for _ in 0..2 {
                scope.spawn(|| {
                    let ran = catch_unwind(AssertUnwindSafe(|| {
                        pool.with(|_| {
                            all.wait();
                            std::thread::sleep(std::time::Duration::from_millis(20));
                            resume_unwind(Box::new("stopped"))
                        })
                    }));
                    let ran: Result<(), _> = ran;
                    assert!(ran.is_err());
                });
            }
            pool.with(|one| {
                all.wait();
                let given = scope.spawn(|| pool.with(|one| one.reserve()));
                assert!(given.join().expect("no panic").is_ok());
                one.reserve().expect("a handle");
            });
        });
        let reservers = pool.into_inner();
        let numbers: Vec<usize> = reservers.iter().map(|one| one.number()).collect();
        assert_eq!(numbers, [0, 1, 2]);
        assert!(shared.close(reservers).is_ok());
    }

    /// A task that panics gives its reserver back.
    #[test]
    fn a_task_that_panics() {
        let (shared, reservers) = Entities::new().share(2).expect("shared");
        let pool = Reservers::new(reservers).expect("memory");
        for _ in 0..5 {
            let ran = catch_unwind(AssertUnwindSafe(|| {
                pool.with(|one| {
                    one.reserve().expect("a handle");
                    resume_unwind(Box::new("stopped"))
                })
            }));
            let ran: Result<(), _> = ran;
            assert!(ran.is_err());
        }
        let last = pool.try_with(|one| one.reserve());
        assert_eq!(last, Some(Ok(handle(5, 1))));
        let entities = shared.close(pool.into_inner()).expect("closed");
        assert_eq!((entities.asked(), entities.reserved()), (6, 6));
    }

    /// Threads that nobody joins have the pool in an `Arc`.
    #[test]
    fn a_pool_in_an_arc() {
        let (shared, reservers) = Entities::new().share(2).expect("shared");
        let pool = Arc::new(Reservers::new(reservers).expect("memory"));
        let threads: Vec<_> = (0..6)
            .map(|_| {
                let pool = Arc::clone(&pool);
                std::thread::spawn(move || pool.with(|one| all_of(one, 7)).len())
            })
            .collect();
        for thread in threads {
            assert_eq!(thread.join().expect("no panic"), 7);
        }
        let pool = Arc::into_inner(pool).expect("the last owner");
        assert_eq!(format!("{pool:?}"), "Reservers { count: 2, .. }");
        let entities = shared.close(pool.into_inner()).expect("closed");
        assert_eq!(entities.reserved(), 42);
    }

    /// Of `&mut` to reservers, which stay where they are.
    #[test]
    fn a_pool_of_references() {
        let (shared, mut reservers) = Entities::new().share(2).expect("shared");
        let pool = Reservers::new(&mut reservers).expect("memory");
        pool.with(|one| one.reserve()).expect("a handle");
        drop(pool);
        let entities = shared.close(reservers).expect("closed");
        assert_eq!(entities.reserved(), 1);
    }

    #[test]
    fn a_pool_of_none() {
        let pool: Reservers = Reservers::new([]).expect("it takes no memory");
        assert_eq!((pool.count(), pool.try_with(|_| ())), (0, None));
        let panic = catch_unwind(AssertUnwindSafe(|| pool.with(|_| ()))).expect_err("none");
        assert_eq!(panic.downcast_ref(), Some(&"the pool has no reservers"));
    }
}

/// A phase of a world on a borrow. The queues take effect after it, in the order of the systems.
#[test]
fn a_phase_of_a_world() {
    const HP: ComponentId = ComponentId(0);
    let mut world = World::new();
    let old = world.spawn(&[(HP, 1)]).expect("a handle");
    let (new, queues) = world
        .phase(2, |open, systems| {
            assert_eq!((open.count(), open.view().get(old, HP)), (2, Some(1)));
            assert_eq!(
                (systems[1].number(), systems[1].view().get(old, HP)),
                (1, Some(1))
            );
            systems[1].insert(old, &[(HP, 2)]).expect("memory");
            systems[0].insert(old, &[(HP, 3)]).expect("memory");
            systems[0].spawn_many(2, &[(HP, 4)]).expect("handles");
            systems[1].spawn(&[]).expect("a handle")
        })
        .expect("memory");
    assert!(world.needs_flush() && !world.contains(new));
    let report = world.apply(queues).expect("memory");
    assert_eq!(
        (report.born.len(), world.len(), world.get(old, HP)),
        (3, 4, Some(2))
    );
    // It goes on to count what it spawns.
    let next = world.spawn(&[]).expect("a handle");
    assert_eq!(world.birth(next).map(|birth| birth.ordinal), Some(0));
}

/// The world is back whatever ends the phase, and no command takes effect.
#[test]
fn a_phase_of_a_world_that_panics() {
    let mut world = World::new();
    let first = world.spawn(&[]).expect("a handle");
    let panics = || {
        let _ = world.phase(3, |_, systems| {
            systems[0].spawn_many(5, &[]).expect("handles");
            systems[1].despawn(first).expect("memory");
            std::panic::panic_any(7_u32);
        });
    };
    let panic = catch_unwind(AssertUnwindSafe(panics));
    assert_eq!(panic.expect_err("it panics").downcast_ref(), Some(&7_u32));
    assert!(world.contains(first) && world.needs_flush());
    world.flush().expect("memory");
    assert_eq!((world.len(), world.frame()), (6, 1));

    let refused = world.phase(0, |_, _| panic!("it isn't called"));
    assert!(matches!(refused, Err(ShareError::Count)));
    assert_eq!((world.len(), world.frame()), (6, 1));
}
