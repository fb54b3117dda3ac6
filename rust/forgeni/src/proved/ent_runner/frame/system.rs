// Made of crates/ent_runner/src/frame/system.rt by rust/erase. It isn't edited by hand.

use crate::allocator::Source;
use crate::commands::{IssuedCommands, SystemCommands};
use crate::worlds::View;

/// A system: it reads the world as it was when the frame began, and issues commands that take
/// effect at the frame's sync point. `S` is the source of its handles: a shared allocator, or
/// blocks. `E` is its error.
///
/// One value may run on any worker, so all that it knows of the world is what the view says. In
/// plain Rust a function is a system, and so is a closure: `system` tells Rust the types of its
/// parameters. Systems of several types go into one list in boxes, or behind `&dyn System<S, E>`.
///
/// `S` is the source of its handles, and `E` is its error. If `E` is `From<OutOfMemory>` and
/// `From<ReserveError>`, `?` converts what the calls of `commands` return.
///
/// ```
/// use forgeni::{run_frame, Handle, OutOfMemory, StdThreads, System, SystemCommands, View, World};
///
/// struct Despawn(Handle);
///
/// impl System for Despawn {
///     fn run(&self, view: &View<'_>, out: &mut SystemCommands<'_>) -> Result<(), OutOfMemory> {
///         if view.contains(self.0) { out.despawn(self.0) } else { Ok(()) }
///     }
/// }
///
/// let mut world = World::new();
/// let cart = world.spawn(&[])?;
/// run_frame(&StdThreads, &mut world, &[Despawn(cart)], 1)?;
/// assert!(world.is_empty());
/// # Ok::<(), Box<dyn std::error::Error>>(())
/// ```
pub trait System<S: Source = crate::reserving::SharedSource, E = crate::handles::OutOfMemory> {
    /// Runs it once.
    ///
    /// ```
    /// use forgeni::{run_frame, ComponentId, OutOfMemory, StdThreads, SystemCommands, View, World};
    ///
    /// const AGE: ComponentId = ComponentId(0);
    ///
    /// fn grow(view: &View<'_>, commands: &mut SystemCommands<'_>) -> Result<(), OutOfMemory> {
    ///     for one in view.with(AGE)? {
    ///         let age = view.get(one, AGE).unwrap_or(0);
    ///         commands.insert_with(one, &[(AGE, age + 1)])?;
    ///     }
    ///     Ok(())
    /// }
    ///
    /// let mut world = World::new();
    /// let oak = world.spawn(&[(AGE, 80)])?;
    /// run_frame(&StdThreads, &mut world, &[grow], 1)?;
    /// assert_eq!(world.get(oak, AGE), Some(81));
    /// # Ok::<(), Box<dyn std::error::Error>>(())
    /// ```
    ///
    /// # Errors
    ///
    /// The error of the system. The whole frame is then lost. In a shared allocator, what the
    /// system had reserved stays reserved; in blocks, all reservers are dropped.
    ///
    /// <details><summary>Contract</summary>
    ///
    /// <code style="display: block; tab-size: 4; white-space: pre-wrap">// In the words of [contracts](crate::contracts):
    /// requires { [IsReady](crate::contracts::ent_queue::commands#IsReady) S.serves commands.old }
    /// ensures extends { [Extends](crate::contracts::ent_queue::commands#Extends) [Issues](crate::contracts::ent_queue::issuing#Issues) S.serves S.may_reply commands.old commands.new }
    /// ensures may { [output_of](crate::contracts::ent_queue::commands#output_of) commands.old ≡ \[\]
    /// &#9;→ [OnOk](crate::contracts::logic#OnOk) result (may_issue self.now view.now ([output_of](crate::contracts::ent_queue::commands#output_of) commands.new)) }
    /// ensures leaves { [output_of](crate::contracts::ent_queue::commands#output_of) commands.old ≡ \[\]
    /// &#9;→ [IfErr](crate::contracts::logic#IfErr) result (λ error.
    /// &#9;may_leave self.now view.now ([output_of](crate::contracts::ent_queue::commands#output_of) commands.new) error) }
    /// </code>
    ///
    /// </details>
    fn run(
        &self,
        view: &View<'_>,
        commands: &mut SystemCommands<'_, IssuedCommands, S>,
    ) -> Result<(), E>;
}
