//! A phase on a borrow of the world.

use crate::lent::Lent;
use crate::phase::{closed, lending};
use crate::{OpenWorld, Phase, Queues, ShareError, World};

/// # Phases
impl World {
    /// Opens the world for `count` systems, 1 to 1,024, for as long as `run` takes. Then the world
    /// is back, with all that was reserved, and [`apply`](Self::apply) takes the queues. `run`
    /// can't lose a system, since each is only [`Lent`] to it.
    ///
    /// ```
    /// use forgeni::{ComponentId, World};
    ///
    /// const AGE: ComponentId = ComponentId(0);
    ///
    /// let mut world = World::new();
    /// let ((), queues) = world.phase(4, |open, systems| {
    ///     assert_eq!(open.count(), 4);
    ///     std::thread::scope(|scope| {
    ///         for commands in systems {
    ///             scope.spawn(move || commands.spawn_many(10, &[(AGE, 1)]));
    ///         }
    ///     });
    /// })?;
    /// let report = world.apply(queues)?;
    /// assert_eq!((report.born.len(), world.len()), (40, 40));
    /// # Ok::<(), Box<dyn std::error::Error + Send + Sync>>(())
    /// ```
    ///
    /// # Errors
    ///
    /// The same as for [`open`](Self::open). `run` isn't called then, and the world is as it was.
    ///
    /// # Panics
    ///
    /// A panic in `run` is propagated. The world is back even then, with all that was reserved, and
    /// no command takes effect.
    ///
    /// # Aborts
    ///
    /// The same as for `open`.
    pub fn phase<T>(
        &mut self,
        count: usize,
        run: impl FnOnce(&Phase<OpenWorld>, &mut [Lent<'_, OpenWorld>]) -> T,
    ) -> Result<(T, Queues), ShareError> {
        lending(self, |world| world.open(count), closed, run)
    }
}
