// Made of crates/ent_queue/src/logging.rt by rust/erase. It isn't edited by hand.

//! The calls of a system that fills a log.

use crate::commands::commands::SystemCommands;
use crate::allocator::{ReserveError, Source};
use crate::handles::{Handle, OutOfMemory};
use crate::logs::{Entry, Log};
use core::fmt;

/// # Filling a log
impl<C, S: Source> SystemCommands<'_, Log<C>, S> {
    /// Reserves a handle at once, and adds its entry, or that of the refusal. Room for the entry is
    /// allocated first, so each reservation has one.
    ///
    /// ```
    /// use forgeni::{run_logs, Entities, Handle, LogCommands, OutOfMemory, StdThreads};
    ///
    /// fn launch(commands: &mut LogCommands<'_, (Handle, u32)>) -> Result<(), OutOfMemory> {
    ///     match commands.spawn() {
    ///         Ok(drone) => commands.push((drone, 100)),
    ///         // The log has it, and the sync point hands it on.
    ///         Err(refused) => refused.or_memory(),
    ///     }
    /// }
    ///
    /// let logs = run_logs(&StdThreads, &mut Entities::new(), &[launch; 2], 2)?;
    /// assert!(logs.iter().all(|log| log.len() == 2 && log.refused() == 0));
    /// # Ok::<(), Box<dyn std::error::Error>>(())
    /// ```
    ///
    /// # Errors
    ///
    /// - [`ReserveError::Memory`] if there is no room for the entry. The log is as it was, and
    ///   nothing was reserved.
    /// - [`ReserveError::Space`] and [`ReserveError::Quota`] as the source returns them. The log
    ///   has an entry for the [refusal](Entry::Refused), which the sync point passes on in its
    ///   turn. [`ReserveError::or_memory`] lets the system go on.
    ///
    /// <details><summary>Contract</summary>
    ///
    /// <code style="display: block; tab-size: 4; white-space: pre-wrap">// In the words of [contracts](crate::contracts):
    /// requires { [IsReady](crate::contracts::ent_queue::commands#IsReady) S.serves self.old }
    /// ensures extends { [Extends](crate::contracts::ent_queue::commands#Extends) [Logs](crate::contracts::ent_queue::logging#Logs) S.serves S.may_reply self.old self.new }
    /// ensures ok { [IfOk](crate::contracts::logic#IfOk) result (λ handle.
    /// &#9;[output_of](crate::contracts::ent_queue::commands#output_of) self.new ≡ [output_of](crate::contracts::ent_queue::commands#output_of) self.old ++ Spawn handle ∷ \[\]) }
    /// ensures refused { [IfErr](crate::contracts::logic#IfErr) result (λ error.
    /// &#9;[output_of](crate::contracts::ent_queue::commands#output_of) self.new ≡ [output_of](crate::contracts::ent_queue::commands#output_of) self.old ++ [refused_by](crate::contracts::ent_log::spawning#refused_by) error) }
    /// &#32;
    /// // Anything but Memory is the result of a reservation.
    /// ensures replies { (reply : [Result](crate::contracts::logic#Result) [HandleValue](crate::contracts::ent_handle::handle#Handle) Refusal) → result ≡ [returned](crate::contracts::ent_log::spawning#returned) reply
    /// &#9;→ S.may_reply ([source_of](crate::contracts::ent_queue::commands#source_of) self.old) ([reserver_of](crate::contracts::ent_queue::commands#reserver_of) self.old) ([reserver_of](crate::contracts::ent_queue::commands#reserver_of) self.new) 1
    /// &#9;([listed_alone](crate::contracts::ent_alloc::sequential#listed_alone) reply) }
    /// ensures memory { [IsErrOf](crate::contracts::logic#IsErrOf) result ReserveError.Memory
    /// &#9;→ [reserver_of](crate::contracts::ent_queue::commands#reserver_of) self.new ≡ [reserver_of](crate::contracts::ent_queue::commands#reserver_of) self.old }
    /// </code>
    ///
    /// </details>
    #[inline]
    pub fn spawn(&mut self) -> Result<Handle, ReserveError> {
        self.output.spawn_from(self.source, self.reserver)
    }

    /// Adds a command, which the sync point passes on in its turn.
    ///
    /// ```
    /// use forgeni::{run_logs, Entities, Entry, LogCommands, StdThreads, SyncPoint};
    ///
    /// let mut entities = Entities::new();
    /// let say = |commands: &mut LogCommands<'_, String>| commands.push("halt".into());
    /// let mut logs = run_logs(&StdThreads, &mut entities, &[say; 2], 2)?;
    /// let mut sync = SyncPoint::begin(&mut entities, &mut logs, &mut Vec::new())?;
    /// assert_eq!(sync.take_next(), Some(Entry::Command("halt".into())));
    /// # Ok::<(), Box<dyn std::error::Error>>(())
    /// ```
    ///
    /// # Errors
    ///
    /// [`OutOfMemory`] if there is no room for it. The log is as it was, and the command is
    /// dropped.
    ///
    /// <details><summary>Contract</summary>
    ///
    /// <code style="display: block; tab-size: 4; white-space: pre-wrap">// In the words of [contracts](crate::contracts):
    /// requires { [IsReady](crate::contracts::ent_queue::commands#IsReady) S.serves self.old }
    /// ensures extends { [Extends](crate::contracts::ent_queue::commands#Extends) [Logs](crate::contracts::ent_queue::logging#Logs) S.serves S.may_reply self.old self.new }
    /// ensures reserver { [reserver_of](crate::contracts::ent_queue::commands#reserver_of) self.new ≡ [reserver_of](crate::contracts::ent_queue::commands#reserver_of) self.old }
    /// ensures ok { [OnOk](crate::contracts::logic#OnOk) result ([output_of](crate::contracts::ent_queue::commands#output_of) self.new ≡ [output_of](crate::contracts::ent_queue::commands#output_of) self.old ++ Command command ∷ \[\]) }
    /// ensures err { [OnErr](crate::contracts::logic#OnErr) result ([output_of](crate::contracts::ent_queue::commands#output_of) self.new ≡ [output_of](crate::contracts::ent_queue::commands#output_of) self.old) }
    /// </code>
    ///
    /// </details>
    #[inline]
    pub fn push(&mut self, command: C) -> Result<(), OutOfMemory> {
        Log::push(&mut self.output, command)
    }

    /// Returns the entries so far, in the order of issue.
    ///
    /// ```
    /// use forgeni::{run_logs, Entities, Entry, LogCommands, OutOfMemory, StdThreads};
    ///
    /// /// Two enemies are seen, but the guard shouts once.
    /// fn guard(commands: &mut LogCommands<'_, &'static str>) -> Result<(), OutOfMemory> {
    ///     for _enemy in 0..2 {
    ///         if !commands.entries().contains(&Entry::Command("halt")) {
    ///             commands.push("halt")?;
    ///         }
    ///     }
    ///     Ok(())
    /// }
    ///
    /// assert_eq!(run_logs(&StdThreads, &mut Entities::new(), &[guard], 1)?[0].len(), 1);
    /// # Ok::<(), Box<dyn std::error::Error>>(())
    /// ```
    ///
    /// <details><summary>Contract</summary>
    ///
    /// <code style="display: block; tab-size: 4; white-space: pre-wrap">// In the words of [contracts](crate::contracts):
    /// ensures { result.now ≡ [output_of](crate::contracts::ent_queue::commands#output_of) self.now }
    /// </code>
    ///
    /// </details>
    #[must_use]
    #[inline]
    pub fn entries(&self) -> &[Entry<C>] {
        self.output.entries()
    }
}

/// The log so far.
impl<C: fmt::Debug, S: Source> fmt::Debug for SystemCommands<'_, Log<C>, S> {
    #[inline]
    fn fmt(&self, f: &mut fmt::Formatter<'_>) -> fmt::Result {
        let log = &self.output;
        write!(f, "{log:?}")
    }
}
