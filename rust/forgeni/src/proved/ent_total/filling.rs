// Made of crates/ent_total/src/filling.rt by rust/erase. It isn't edited by hand.

//! What a system enters into a log, with the handles of a reserver.
use crate::phases::reserver::Reserver;
use crate::allocator::Phased;
use crate::logs::Log;
use crate::commands::SystemCommands;
use crate::running::LogSystem;
use core::mem;

/// # Running a system
impl<S: Phased> Reserver<S> {
    /// Runs a system that fills a log, with the handles of this reserver. The log is emptied first,
    /// and keeps its memory.
    ///
    /// It runs on the thread that calls it. So a program runs its systems on whatever threads it
    /// has, each with a reserver and a log of its own, in a phase of any source. The logs can be
    /// filled again in the next frame:
    ///
    /// ```
    /// use forgeni::{Entities, Entry, Log, LogCommands, OutOfMemory, Overflow};
    ///
    /// fn sow(out: &mut LogCommands<'_, u32, Overflow>) -> Result<(), OutOfMemory> {
    ///     (0..100).try_for_each(|height| match out.spawn() {
    ///         Ok(_) => out.push(height),
    ///         Err(why) => why.or_memory(),
    ///     })
    /// }
    ///
    /// let (mut entities, mut born, mut heights) = (Entities::new(), Vec::new(), 0);
    /// let mut logs = [Log::new(), Log::new()];
    /// for _frame in 0..2 {
    ///     let (phase, mut reservers) = entities.share_in::<Overflow>(&[128; 2])?;
    ///     std::thread::scope(|scope| {
    ///         let pairs = reservers.iter_mut().zip(&mut logs);
    ///         let threads = pairs.map(|(mine, log)| scope.spawn(|| mine.fill(log, &sow)));
    ///         let mut threads = threads.collect::<Vec<_>>().into_iter();
    ///         threads.try_for_each(|one| one.join().expect("no panic"))
    ///     })?;
    ///     let ended = phase.close(reservers)?;
    ///     assert_eq!(ended.requested_past(), 0);
    ///     entities = ended.into_entities()?;
    ///     entities.flush(&mut born)?;
    ///     for entry in logs.iter().flat_map(Log::entries) {
    ///         if let Entry::Command(height) = entry {
    ///             heights += height;
    ///         }
    ///     }
    /// }
    /// assert_eq!((entities.len(), heights), (400, 4 * 4950));
    /// # Ok::<(), Box<dyn std::error::Error + Send + Sync>>(())
    /// ```
    ///
    /// # Errors
    ///
    /// The error of the system. The log has what it had entered before, and what it reserved stays
    /// reserved.
    ///
    /// # Panics
    ///
    /// If the system panics, the panic is propagated. The log is empty then, and what the system
    /// reserved stays reserved.
    ///
    /// <details><summary>Contract</summary>
    ///
    /// <code style="display: block; tab-size: 4; white-space: pre-wrap">// In the words of [contracts](crate::contracts):
    /// ensures fills { [Fills](crate::contracts::ent_total::reserving#Fills) S.may_reply self.old self.new log.new }
    /// ensures ok { [OnOk](crate::contracts::logic#OnOk) result (T.may_log system.now log.new) }
    /// ensures err { [IfErr](crate::contracts::logic#IfErr) result (λ error. T.may_leave system.now log.new error) }
    /// </code>
    ///
    /// </details>
    #[inline]
    pub fn fill<C, T, E>(&mut self, log: &mut Log<C>, system: &T) -> Result<(), E>
    where
        T: LogSystem<C, S, E>,
    {
        let mut filled = mem::replace(log, Log::new());
        filled.clear();
        let source: &S = &self.source;
        let mut commands = SystemCommands::resume(source, &mut self.reserver, filled);
        let ran = system.run(&mut commands);
        *log = commands.finish();
        ran
    }
}
