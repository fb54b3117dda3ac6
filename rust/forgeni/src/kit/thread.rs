//! Work side by side. It starts threads under the feature `std`.
//!
//! The contracts are those of the kit's `core/src/thread.rt` and `thread/lent.rt`.

/// Runs the two parts of a frame's work side by side: threads of std ([`StdThreads`]), rayon, or a
/// task pool of the caller's.
///
/// A `join` may call each part from another thread, and nothing else is trusted: a part that it
/// doesn't call is called afterwards, and a part that it calls again does nothing.
///
/// ```
/// use forgeni::{run_logs, Entities, Join, LogCommands};
///
/// /// Threads of std, with a name.
/// struct Named;
///
/// impl Join for Named {
///     fn join(&self, first: &mut (dyn FnMut() + Send), second: &mut (dyn FnMut() + Send)) {
///         std::thread::scope(|scope| {
///             let thread = std::thread::Builder::new().name("systems".into());
///             // A part that isn't called here is called afterwards.
///             let _refused = thread.spawn_scoped(scope, first);
///             second();
///         });
///     }
/// }
///
/// let halt = |commands: &mut LogCommands<'_, &str>| commands.push("halt");
/// assert_eq!(run_logs(&Named, &mut Entities::new(), &[halt; 8], 2)?.len(), 8);
/// # Ok::<(), Box<dyn std::error::Error>>(())
/// ```
pub trait Join {
    /// Calls both, side by side if it can, and returns when both have returned. It is best to call
    /// the second one in this thread at once: if there are more than two workers, that one calls
    /// `join` again.
    ///
    /// ```
    /// # #[cfg(feature = "std")] {
    /// use forgeni::{Join, StdThreads};
    ///
    /// let (mut low, mut high) = (0_u32, 0_u32);
    /// StdThreads.join(&mut || low = (1..=50).sum(), &mut || high = (51..=100).sum());
    /// assert_eq!(low + high, 5_050);
    /// # }
    /// ```
    fn join(&self, first: &mut (dyn FnMut() + Send), second: &mut (dyn FnMut() + Send));
}

impl<J: Join + ?Sized> Join for &J {
    fn join(&self, first: &mut (dyn FnMut() + Send), second: &mut (dyn FnMut() + Send)) {
        (**self).join(first, second);
    }
}

/// Runs one of two parts in a new thread of std, which ends with the frame. Without the feature
/// `std` one part runs after the other.
///
/// ```
/// use forgeni::{run_logs, Entities, LogCommands, StdThreads};
///
/// let halt = |commands: &mut LogCommands<'_, &str>| commands.push("halt");
/// // What `run_logs` does: at most three threads are started for four workers.
/// let logs = run_logs(&StdThreads, &mut Entities::new(), &[halt; 100], 4)?;
/// assert_eq!(logs.len(), 100);
/// # Ok::<(), Box<dyn std::error::Error>>(())
/// ```
#[derive(Clone, Copy, Debug, Default)]
pub struct StdThreads;

impl Join for StdThreads {
    /// Calls the second one, and the first one beside it if a thread can be started. A panic of one
    /// of them is handed on when both have ended. If std is refused the memory that it takes to
    /// start a thread, it may end the program.
    #[cfg(feature = "std")]
    fn join(&self, first: &mut (dyn FnMut() + Send), second: &mut (dyn FnMut() + Send)) {
        let ended = std::thread::scope(|scope| {
            let started = std::thread::Builder::new().spawn_scoped(scope, first);
            second();
            started.map_or(Ok(()), |thread| thread.join())
        });
        ended.unwrap_or_else(|panic| std::panic::resume_unwind(panic));
    }

    #[cfg(not(feature = "std"))]
    fn join(&self, _first: &mut (dyn FnMut() + Send), second: &mut (dyn FnMut() + Send)) {
        second();
    }
}

/// Calls both, and returns what they return.
///
/// The contract: each is called once, whatever `rt` does, and both have returned when it returns.
pub fn join_mut<R: Join, A: Send, B: Send>(
    rt: &R,
    first: &mut (impl FnMut() -> A + Send),
    second: &mut (impl FnMut() -> B + Send),
) -> (A, B) {
    let (mut returned_first, mut returned_second) = (None, None);
    rt.join(
        &mut || {
            returned_first.get_or_insert_with(&mut *first);
        },
        &mut || {
            returned_second.get_or_insert_with(&mut *second);
        },
    );
    (
        returned_first.unwrap_or_else(first),
        returned_second.unwrap_or_else(second),
    )
}

#[cfg(test)]
mod tests {
    use super::*;

    #[test]
    fn both_are_called_once() {
        let (mut left, mut right) = (0, 0);
        let both = join_mut(
            &StdThreads,
            &mut || {
                left += 1;
                'l'
            },
            &mut || {
                right += 1;
                "r"
            },
        );
        assert_eq!((both, left, right), (('l', "r"), 1, 1));
    }

    /// Calls the parts as many times as these numbers say, the second one first.
    struct Calls(usize, usize);

    impl Join for Calls {
        fn join(&self, first: &mut (dyn FnMut() + Send), second: &mut (dyn FnMut() + Send)) {
            (0..self.1).for_each(|_| second());
            (0..self.0).for_each(|_| first());
        }
    }

    #[test]
    fn each_is_called_once_whatever_the_joiner_does() {
        for joiner in [Calls(0, 0), Calls(0, 1), Calls(1, 0), Calls(2, 3)] {
            let (mut left, mut right) = (0, 0);
            let both = join_mut(&joiner, &mut || left += 1, &mut || right += 1);
            assert_eq!((both, left, right), (((), ()), 1, 1));
        }
    }

    #[test]
    #[cfg(feature = "std")]
    fn both_run_side_by_side() {
        let together = std::sync::Barrier::new(2);
        let mut meet = || {
            together.wait();
        };
        join_mut(&StdThreads, &mut meet.clone(), &mut meet);
    }

    /// Nothing is called again here, so the panic is that of the only call.
    #[test]
    #[cfg(feature = "std")]
    fn a_panic_in_a_thread_of_its_own_is_handed_on() {
        for number in 0..2 {
            let calls = core::sync::atomic::AtomicU32::new(0);
            let mut panics = || {
                calls.fetch_add(1, core::sync::atomic::Ordering::SeqCst);
                std::panic::resume_unwind(std::boxed::Box::new("once"));
            };
            let mut ends = || ();
            let both = std::panic::AssertUnwindSafe(|| match number {
                0 => StdThreads.join(&mut panics, &mut ends),
                _ => StdThreads.join(&mut ends, &mut panics),
            });
            let panic = std::panic::catch_unwind(both).expect_err("a panic");
            assert_eq!(
                (panic.downcast_ref(), calls.into_inner()),
                (Some(&"once"), 1)
            );
        }
    }

    #[test]
    #[cfg(feature = "std")]
    fn a_panic_is_handed_on_when_both_have_ended() {
        for number in 0..2 {
            let ended = core::sync::atomic::AtomicU32::new(0);
            let mut panics = || panic!("as it is said");
            let mut ends = || {
                ended.fetch_add(1, core::sync::atomic::Ordering::SeqCst);
            };
            let both = std::panic::AssertUnwindSafe(|| match number {
                0 => drop(join_mut::<_, (), ()>(&StdThreads, &mut panics, &mut ends)),
                _ => drop(join_mut::<_, (), ()>(&StdThreads, &mut ends, &mut panics)),
            });
            let panic = std::panic::catch_unwind(both).expect_err("a panic");
            assert_eq!(panic.downcast_ref(), Some(&"as it is said"));
            assert_eq!(ended.into_inner(), 1);
        }
    }
}
