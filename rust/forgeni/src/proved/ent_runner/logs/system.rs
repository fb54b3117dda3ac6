// Made of crates/ent_runner/src/logs/system.rt by rust/erase. It isn't edited by hand.

use crate::allocator::Source;
use crate::logs::Log;
use crate::commands::SystemCommands;

/// A system that fills a log. `C` is the caller's type of commands, `S` is the source of the
/// handles, a shared allocator or blocks, and `E` is the system's error. If `E` is
/// `From<OutOfMemory>` and `From<ReserveError>`, `?` converts what the calls of `commands` return.
///
/// One value may run on any worker.
///
/// ```
/// use forgeni::{run_logs, Entities, Entry, LogCommands, LogSystem, OutOfMemory, StdThreads};
///
/// struct Says(&'static str);
///
/// impl LogSystem<&'static str> for Says {
///     fn run(&self, commands: &mut LogCommands<'_, &'static str>) -> Result<(), OutOfMemory> {
///         commands.push(self.0)
///     }
/// }
///
/// let logs = run_logs(&StdThreads, &mut Entities::new(), &[Says("one"), Says("two")], 2)?;
/// assert_eq!(logs[1].entries(), [Entry::Command("two")]);
/// # Ok::<(), Box<dyn std::error::Error>>(())
/// ```
pub trait LogSystem<C, S: Source = crate::reserving::SharedSource, E = crate::handles::OutOfMemory> {
    /// Runs it once.
    ///
    /// ```
    /// use forgeni::{run_logs, Entities, Handle, LogCommands, OutOfMemory, StdThreads};
    ///
    /// fn launch(commands: &mut LogCommands<'_, (Handle, String)>) -> Result<(), OutOfMemory> {
    ///     match commands.spawn() {
    ///         Ok(drone) => commands.push((drone, String::from("drone"))),
    ///         Err(refused) => refused.or_memory(),
    ///     }
    /// }
    ///
    /// let logs = run_logs(&StdThreads, &mut Entities::new(), &[launch; 3], 2)?;
    /// assert!(logs.iter().all(|log| log.len() == 2));
    /// # Ok::<(), Box<dyn std::error::Error>>(())
    /// ```
    ///
    /// # Errors
    ///
    /// The error of the system. All logs are then dropped. In a shared allocator, what the systems
    /// had reserved stays reserved; in blocks, all reservers are dropped.
    ///
    /// <details><summary>Contract</summary>
    ///
    /// <code style="display: block; tab-size: 4; white-space: pre-wrap">// In the words of [contracts](crate::contracts):
    /// requires { [IsReady](crate::contracts::ent_queue::commands#IsReady) S.serves commands.old }
    /// ensures extends { [Extends](crate::contracts::ent_queue::commands#Extends) [Logs](crate::contracts::ent_queue::logging#Logs) S.serves S.may_reply commands.old commands.new }
    /// ensures may { [output_of](crate::contracts::ent_queue::commands#output_of) commands.old ≡ \[\]
    /// &#9;→ [OnOk](crate::contracts::logic#OnOk) result (may_log self.now ([output_of](crate::contracts::ent_queue::commands#output_of) commands.new)) }
    /// ensures leaves { [output_of](crate::contracts::ent_queue::commands#output_of) commands.old ≡ \[\]
    /// &#9;→ [IfErr](crate::contracts::logic#IfErr) result (λ error. may_leave self.now ([output_of](crate::contracts::ent_queue::commands#output_of) commands.new) error) }
    /// </code>
    ///
    /// </details>
    fn run(&self, commands: &mut SystemCommands<'_, Log<C>, S>) -> Result<(), E>;
}
