// Made of crates/ent_total/src/queues.rt by rust/erase. It isn't edited by hand.

use alloc::vec::Vec;
use core::fmt;

/// The queues of a phase or of a frame, in the order of their effect, for one
/// [`apply`](crate::phases::World::apply) of the world whose phase it was.
///
/// ```
/// use forgeni::{SyncError, World};
///
/// let mut world = World::new();
/// let (spawned, queues) = world.phase(1, |_open, systems| systems[0].spawn(&[]))?;
/// // They are of this world, and another one refuses them.
/// let refused = World::new().apply(queues);
/// let Err(SyncError::OtherWorld(queues)) = refused else { return Err("it took them".into()) };
/// assert_eq!(world.apply(queues)?.born, [spawned?]);
/// # Ok::<(), Box<dyn std::error::Error>>(())
/// ```
#[must_use]
pub struct Queues {
    world: u64,
    queues: Vec<crate::commands::IssuedCommands>,
}

impl Queues {
    #[inline]
    pub(super) fn new(world: u64, queues: Vec<crate::commands::IssuedCommands>) -> Self
        // requires { length queues.items ≤ 2 ^ 16 }
        // ensures { result ≡ record { world = world; queues = queues.items } }
    {
        Queues { world, queues }
    }

    /// Returns the number of queues.
    ///
    /// ```
    /// use forgeni::World;
    ///
    /// let mut world = World::new();
    /// let ((), queues) = world.phase(4, |_open, _systems| ())?;
    /// assert_eq!(queues.len(), 4);
    /// # Ok::<(), Box<dyn std::error::Error>>(())
    /// ```
    ///
    /// <details><summary>Contract</summary>
    ///
    /// <code style="display: block; tab-size: 4; white-space: pre-wrap">// In the words of [contracts](crate::contracts):
    /// ensures { result ≡ [length](crate::contracts::logic#length) self.now.queues }
    /// </code>
    ///
    /// </details>
    #[must_use]
    #[inline]
    pub fn len(&self) -> usize {
        self.queues.len()
    }

    /// Returns `true` if there are no queues.
    ///
    /// ```
    /// use forgeni::{Queues, Report, SyncError, World};
    ///
    /// fn report(world: &mut World, queues: Queues) -> Result<Report, SyncError> {
    ///     debug_assert!(!queues.is_empty(), "a phase has at least one system");
    ///     world.apply(queues)
    /// }
    /// ```
    ///
    /// <details><summary>Contract</summary>
    ///
    /// <code style="display: block; tab-size: 4; white-space: pre-wrap">// In the words of [contracts](crate::contracts):
    /// ensures { [IsTrue](crate::contracts::logic#IsTrue) result ↔ (self.now.queues ≡ \[\]) }
    /// </code>
    ///
    /// </details>
    #[must_use]
    #[inline]
    pub fn is_empty(&self) -> bool {
        self.queues.is_empty()
    }

    /// The number of their world.
    #[inline]
    pub(super) fn world(&self) -> u64
        // ensures { result ≡ self.now.world }
    {
        self.world
    }

    /// The queues themselves.
    #[inline]
    pub(super) fn list(&self) -> &[crate::commands::IssuedCommands]
        // ensures list { result.now ≡ self.now.queues }
        // ensures few { length self.now.queues ≤ 2 ^ 16 }
    {
        &self.queues
    }
}

/// It shows how many there are, and says that there is more.
impl fmt::Debug for Queues {
    #[inline]
    fn fmt(&self, f: &mut fmt::Formatter<'_>) -> fmt::Result {
        let len = self.len();
        write!(f, "Queues {{ len: {len}, .. }}")
    }
}
