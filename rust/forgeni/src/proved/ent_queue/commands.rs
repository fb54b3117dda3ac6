// Made of crates/ent_queue/src/commands.rt by rust/erase. It isn't edited by hand.

use crate::commands::output::Output;
use crate::commands::queue::IssuedCommands;
use crate::allocator::Source;
use crate::handles::Handle;
use crate::reserving::SharedSource;

/// What one system fills, with a reserver that is lent to it: the commands of a world, which take
/// effect when their queue is applied (in a frame, at its sync point), or the entries of a log.
///
/// A spawn reserves its handle at once, so a system knows the handles of what it spawns. `O` is
/// what is filled, and `S` the source of the handles.
///
/// ```
/// use forgeni::{run_frame, ComponentId, OutOfMemory, StdThreads, SystemCommands, View, World};
///
/// const HEAT: ComponentId = ComponentId(0);
///
/// fn sparks(_: &View<'_>, commands: &mut SystemCommands<'_>) -> Result<(), OutOfMemory> {
///     match commands.spawn_with(&[(HEAT, 900)]) {
///         // It has a handle at once, and lives from the sync point on.
///         Ok(spark) => commands.insert_with(spark, &[(HEAT, 899)]),
///         Err(refused) => refused.or_memory(),
///     }
/// }
///
/// let mut world = World::new();
/// let report = run_frame(&StdThreads, &mut world, &[sparks; 2], 2)?;
/// assert!(report.born.iter().all(|one| world.get(*one, HEAT) == Some(899)));
/// # Ok::<(), Box<dyn std::error::Error>>(())
/// ```
pub struct SystemCommands<'a, O = IssuedCommands, S: Source = SharedSource> {
    pub(super) reserver: &'a mut S::Reserver,
    pub(super) source: &'a S,
    pub(super) output: O,
}

impl<'a, O: Output, S: Source> SystemCommands<'a, O, S> {
    /// Begins with nothing. The reserver is one of the source's.
    #[inline]
    pub(crate) fn new(source: &'a S, reserver: &'a mut S::Reserver) -> Self
        // requires { S.serves source.now reserver.old }
        // ensures same { result.reserver.ghost_name ≡ reserver.entry.ghost_name }
        // ensures reserver { reserver_of result ≡ reserver.old }
        // ensures source { source_of result ≡ source.now }
        // ensures output { output_of result ≡ O.empty }
    {
        SystemCommands::resume(source, reserver, O::unfilled())
    }
}

/// # Looking at entities
impl<'a, O, S: Source> SystemCommands<'a, O, S> {
    /// Returns `true` if the entity was alive when the phase was opened. It takes constant time.
    ///
    /// ```
    /// use forgeni::{run_logs, Entities, Handle, LogCommands, StdThreads};
    ///
    /// let mut entities = Entities::new();
    /// let target = entities.alloc()?;
    /// let aim = |commands: &mut LogCommands<'_, (&str, Handle)>| {
    ///     if commands.is_alive(target) { commands.push(("aim", target)) } else { Ok(()) }
    /// };
    /// assert_eq!(run_logs(&StdThreads, &mut entities, &[aim], 1)?[0].len(), 1);
    /// # Ok::<(), Box<dyn std::error::Error>>(())
    /// ```
    ///
    /// <details><summary>Contract</summary>
    ///
    /// <code style="display: block; tab-size: 4; white-space: pre-wrap">// In the words of [contracts](crate::contracts):
    /// ensures { result ≡ [set.contains](crate::contracts::logic#FinSet.contains) (S.start ([source_of](crate::contracts::ent_queue::commands#source_of) self.now)).live handle }
    /// </code>
    ///
    /// </details>
    #[must_use]
    #[inline]
    pub fn is_alive(&self, handle: Handle) -> bool {
        self.source.was_alive(handle)
    }

    /// Returns the row that the entity had when the phase was opened, or `None` if it wasn't alive
    /// then or had no row. It takes constant time.
    ///
    /// ```
    /// use forgeni::{run_logs, Entities, Entry, LogCommands, StdThreads};
    ///
    /// let mut entities = Entities::new();
    /// let cart = entities.alloc()?;
    /// entities.try_set_row(cart, 7)?;
    /// let look = |commands: &mut LogCommands<'_, u32>| match commands.row(cart) {
    ///     Some(row) => commands.push(row),
    ///     None => Ok(()),
    /// };
    /// let logs = run_logs(&StdThreads, &mut entities, &[look], 1)?;
    /// assert_eq!(logs[0].entries(), [Entry::Command(7)]);
    /// # Ok::<(), Box<dyn std::error::Error>>(())
    /// ```
    ///
    /// <details><summary>Contract</summary>
    ///
    /// <code style="display: block; tab-size: 4; white-space: pre-wrap">// In the words of [contracts](crate::contracts):
    /// ensures value { result ≡ [map.get](crate::contracts::logic#FinMap.get) (S.rows ([source_of](crate::contracts::ent_queue::commands#source_of) self.now)) handle }
    /// ensures alive { [OnSome](crate::contracts::logic#OnSome) result
    /// &#9;([set.contains](crate::contracts::logic#FinSet.contains) (S.start ([source_of](crate::contracts::ent_queue::commands#source_of) self.now)).live handle ≡ [true](crate::contracts::logic#true)) }
    /// </code>
    ///
    /// </details>
    #[must_use]
    #[inline]
    pub fn row(&self, handle: Handle) -> Option<u32> {
        self.source.had_row(handle)
    }
}

impl<'a, O, S: Source> SystemCommands<'a, O, S> {
    /// Goes on with what was begun before, whose entries stay in front. The reserver may be another
    /// one of the source than before.
    #[inline]
    pub(crate) fn resume(source: &'a S, reserver: &'a mut S::Reserver, output: O) -> Self
        // requires { S.serves source.now reserver.old }
        // ensures same { result.reserver.ghost_name ≡ reserver.entry.ghost_name }
        // ensures reserver { reserver_of result ≡ reserver.old }
        // ensures source { source_of result ≡ source.now }
        // ensures output { output_of result ≡ output }
    {
        SystemCommands {
            reserver,
            source,
            output,
        }
    }
}

/// # The end
impl<O, S: Source> SystemCommands<'_, O, S> {
    /// Returns what was filled, and gives the reserver back to its owner.
    ///
    /// <details><summary>Contract</summary>
    ///
    /// <code style="display: block; tab-size: 4; white-space: pre-wrap">// In the words of [contracts](crate::contracts):
    /// ensures reserver { self.exit.0.now ≡ self.entry.reserver.now }
    /// ensures output { result ≡ self.entry.output }
    /// </code>
    ///
    /// </details>
    #[inline]
    pub fn finish(self) -> O {
        let SystemCommands {
            reserver: _,
            source: _,
            output,
        } = self;
        output
    }
}
