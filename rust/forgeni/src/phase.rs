//! A phase on a borrow of the allocator.

use crate::lending::Lending;
use crate::lent::Lent;
use crate::numbers::next_number;
use crate::phases::Opening;
use crate::{Entities, HandedBack, Phase, Phased, Reserver, ShareError};
use alloc::vec::Vec;

/// # Phases
impl Entities {
    /// Shares the allocator among `callers` reservers, 1 to 1,024, for as long as `run` runs. The
    /// allocator is back when it returns, as after [`Phase::close`]: `run` can't lose a reserver,
    /// since each is only [`Lent`] to it.
    ///
    /// ```
    /// use forgeni::Entities;
    ///
    /// let mut entities = Entities::new();
    /// let first = entities.alloc()?;
    /// let replies = entities.phase(4, |shared, reservers| {
    ///     assert_eq!(shared.count(), 4);
    ///     std::thread::scope(|scope| {
    ///         let tasks: Vec<_> = reservers
    ///             .iter_mut()
    ///             .map(|reserver| scope.spawn(move || reserver.reserve_many(10)))
    ///             .collect();
    ///         tasks.into_iter().map(|task| task.join().expect("no panic")).collect::<Vec<_>>()
    ///     })
    /// })?;
    /// assert!(replies.iter().all(Result::is_ok));
    /// entities.flush(&mut Vec::new())?;
    /// assert_eq!(entities.len(), 41);
    /// assert!(entities.is_alive(first));
    /// # Ok::<(), Box<dyn std::error::Error + Send + Sync>>(())
    /// ```
    ///
    /// The call returns what `run` returns, so `run` can end early with `?`:
    ///
    /// ```
    /// use forgeni::{Entities, ReserveError};
    ///
    /// let mut entities = Entities::new();
    /// let ended: Result<(), ReserveError> = entities.phase(1, |_, reservers| {
    ///     reservers[0].reserve()?;
    ///     Err(ReserveError::Memory)
    /// })?;
    /// assert_eq!(ended, Err(ReserveError::Memory));
    /// assert_eq!(entities.reserved(), 1);
    /// # Ok::<(), forgeni::ShareError>(())
    /// ```
    ///
    /// # Errors
    ///
    /// The same as for [`share`](Self::share). `run` isn't called then, and the allocator is as it
    /// was.
    ///
    /// # Panics
    ///
    /// A panic in `run` is propagated. The allocator is back even then, with all that was reserved.
    ///
    /// # Aborts
    ///
    /// The same as for `share`.
    pub fn phase<T>(
        &mut self,
        callers: usize,
        run: impl FnOnce(&Phase, &mut [Lent<'_>]) -> T,
    ) -> Result<T, ShareError> {
        let open = |entities: Entities| entities.share(callers);
        let (done, ()) = lending(self, open, |parts| (closed(parts), ()), run)?;
        Ok(done)
    }
}

/// What `run` makes of a phase, and what is left of the phase when `back` has made of it again what
/// was opened. That happens even if `run` panics.
pub(crate) fn lending<T: Default, S: Phased, A, B>(
    home: &mut T,
    open: impl FnOnce(T) -> Result<(Phase<S>, Vec<Reserver<S>>), HandedBack<T, ShareError>>,
    back: fn((Phase<S>, Vec<Reserver<S>>)) -> (T, B),
    run: impl FnOnce(&Phase<S>, &mut [Lent<'_, S>]) -> A,
) -> Result<(A, B), ShareError> {
    let open = |home| open(home).map_err(HandedBack::into_parts);
    let mut lending = Lending::begin(home, open, back)?;
    let (phase, reservers) = lending.parts();
    let mut lent = Vec::new();
    lent.try_reserve_exact(reservers.len())
        .map_err(|_| ShareError::Memory)?;
    lent.extend(reservers.iter_mut().map(Lent::of));
    let done = run(phase, &mut lent);
    Ok((done, lending.end()))
}

/// The phase of this opening under a number of its own, and all its reservers. If they can't be
/// given out, `back` makes what was shared of what the phase ended with.
pub(crate) fn opened<S: Phased, T>(
    opening: Result<Opening<S>, HandedBack<T, ShareError>>,
    back: impl FnOnce(S::Closed) -> T,
) -> Result<(Phase<S>, Vec<Reserver<S>>), HandedBack<T, ShareError>> {
    let parts = opening?.numbered(next_number());
    parts.map_err(|parts| HandedBack::new(back(closed(parts)), ShareError::Memory))
}

/// What a phase ended with that had all its reservers.
pub(crate) fn closed<S: Phased>((phase, reservers): (Phase<S>, Vec<Reserver<S>>)) -> S::Closed {
    let closed = phase.close(reservers);
    closed.expect("all reservers of the phase are here, and nobody else has one")
}
