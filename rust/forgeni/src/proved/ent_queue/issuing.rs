// Made of crates/ent_queue/src/issuing.rt by rust/erase. It isn't edited by hand.

//! The calls of a system that fills a queue.

use alloc::vec::Vec;
use crate::commands::bundle::Bundle as OwnBundle;
use crate::commands::commands::SystemCommands;
use crate::commands::queue::IssuedCommands;
use crate::allocator::{ReserveError, Source};
use crate::handles::{ComponentId, Handle, OutOfMemory};
use crate::components::InlineBundle;

/// # Commands of a world
impl<S: Source> SystemCommands<'_, IssuedCommands, S> {
    /// Reserves a handle. Its entity gets these components when the queue is applied. They may be
    /// in any order; if a component is listed twice, its last value counts.
    ///
    /// ```
    /// use forgeni::{run_frame, system, ComponentId, StdThreads, World};
    ///
    /// const HEAT: ComponentId = ComponentId(0);
    ///
    /// let burn = system(|_, commands| match commands.spawn_with(&[(HEAT, 900)]) {
    ///     Ok(_) => Ok(()),
    ///     Err(refused) => refused.or_memory(),
    /// });
    /// let mut world = World::new();
    /// let report = run_frame(&StdThreads, &mut world, &[burn], 1)?;
    /// assert_eq!(world.get(report.born[0], HEAT), Some(900));
    /// # Ok::<(), Box<dyn std::error::Error>>(())
    /// ```
    ///
    /// # Errors
    ///
    /// The same as for [`SystemCommands::spawn`].
    ///
    /// <details><summary>Contract</summary>
    ///
    /// <code style="display: block; tab-size: 4; white-space: pre-wrap">// In the words of [contracts](crate::contracts):
    /// requires { [IsReady](crate::contracts::ent_queue::commands#IsReady) S.serves self.old }
    /// ensures extends { [Extends](crate::contracts::ent_queue::commands#Extends) [Issues](crate::contracts::ent_queue::issuing#Issues) S.serves S.may_reply self.old self.new }
    /// ensures ok { [IfOk](crate::contracts::logic#IfOk) result (λ handle. [output_of](crate::contracts::ent_queue::commands#output_of) self.new
    /// &#9;≡ [output_of](crate::contracts::ent_queue::commands#output_of) self.old ++ [Spawn](crate::contracts::ent_queue::command#Spawn) handle ([bundle_of](crate::contracts::ent_storage::bundle#bundle_of) components.now) ∷ \[\]) }
    /// ensures refused { [IfErr](crate::contracts::logic#IfErr) result (λ fault.
    /// &#9;[output_of](crate::contracts::ent_queue::commands#output_of) self.new ≡ [output_of](crate::contracts::ent_queue::commands#output_of) self.old ++ [refused_by](crate::contracts::ent_queue::reserving#refused_by) 1 fault) }
    /// ensures memory { [IsErrOf](crate::contracts::logic#IsErrOf) result ReserveError.Memory
    /// &#9;→ [reserver_of](crate::contracts::ent_queue::commands#reserver_of) self.new ≡ [reserver_of](crate::contracts::ent_queue::commands#reserver_of) self.old }
    /// &#32;
    /// // Anything but Memory is the result of a reservation.
    /// ensures replies { (reply : [Result](crate::contracts::logic#Result) [HandleValue](crate::contracts::ent_handle::handle#Handle) Refusal) → result ≡ [queued](crate::contracts::ent_queue::reserving#queued) reply
    /// &#9;→ S.may_reply ([source_of](crate::contracts::ent_queue::commands#source_of) self.old) ([reserver_of](crate::contracts::ent_queue::commands#reserver_of) self.old) ([reserver_of](crate::contracts::ent_queue::commands#reserver_of) self.new) 1
    /// &#9;([listed_alone](crate::contracts::ent_alloc::sequential#listed_alone) reply) }
    /// </code>
    ///
    /// </details>
    #[inline]
    pub fn spawn_with(&mut self, components: &[(ComponentId, i64)]) -> Result<Handle, ReserveError> {
        let Ok(bundle) = OwnBundle::of(components) else {
            return Err(ReserveError::Memory);
        };
        self.spawn(&bundle)
    }

    /// Reserves a handle. Its entity gets the components when the queue is applied.
    ///
    /// ```
    /// use forgeni::{run_frame, system, Bundle, ComponentId, StdThreads, World};
    ///
    /// const HEAT: ComponentId = ComponentId(0);
    ///
    /// let spark = Bundle::of(&[(HEAT, 900)])?;
    /// let burn = system(|_, commands| match commands.spawn(&spark) {
    ///     Ok(_) => Ok(()),
    ///     Err(refused) => refused.or_memory(),
    /// });
    /// let mut world = World::new();
    /// let report = run_frame(&StdThreads, &mut world, &[burn], 1)?;
    /// assert_eq!(world.get(report.born[0], HEAT), Some(900));
    /// # Ok::<(), Box<dyn std::error::Error>>(())
    /// ```
    ///
    /// # Errors
    ///
    /// [`ReserveError::Memory`]: nothing has changed. With [`ReserveError::Space`] and
    /// [`ReserveError::Quota`] the queue keeps the refusal, which is a fault of the sync point's
    /// report, and [`ReserveError::or_memory`] lets the system go on.
    ///
    /// <details><summary>Contract</summary>
    ///
    /// <code style="display: block; tab-size: 4; white-space: pre-wrap">// In the words of [contracts](crate::contracts):
    /// requires { [IsReady](crate::contracts::ent_queue::commands#IsReady) S.serves self.old }
    /// ensures extends { [Extends](crate::contracts::ent_queue::commands#Extends) [Issues](crate::contracts::ent_queue::issuing#Issues) S.serves S.may_reply self.old self.new }
    /// ensures ok { [IfOk](crate::contracts::logic#IfOk) result (λ handle.
    /// &#9;[output_of](crate::contracts::ent_queue::commands#output_of) self.new ≡ [output_of](crate::contracts::ent_queue::commands#output_of) self.old ++ [Spawn](crate::contracts::ent_queue::command#Spawn) handle bundle.now ∷ \[\]) }
    /// ensures refused { [IfErr](crate::contracts::logic#IfErr) result (λ fault.
    /// &#9;[output_of](crate::contracts::ent_queue::commands#output_of) self.new ≡ [output_of](crate::contracts::ent_queue::commands#output_of) self.old ++ [refused_by](crate::contracts::ent_queue::reserving#refused_by) 1 fault) }
    /// ensures memory { [IsErrOf](crate::contracts::logic#IsErrOf) result ReserveError.Memory
    /// &#9;→ [reserver_of](crate::contracts::ent_queue::commands#reserver_of) self.new ≡ [reserver_of](crate::contracts::ent_queue::commands#reserver_of) self.old }
    /// &#32;
    /// // Anything but Memory is the result of a reservation.
    /// ensures replies { (reply : [Result](crate::contracts::logic#Result) [HandleValue](crate::contracts::ent_handle::handle#Handle) Refusal) → result ≡ [queued](crate::contracts::ent_queue::reserving#queued) reply
    /// &#9;→ S.may_reply ([source_of](crate::contracts::ent_queue::commands#source_of) self.old) ([reserver_of](crate::contracts::ent_queue::commands#reserver_of) self.old) ([reserver_of](crate::contracts::ent_queue::commands#reserver_of) self.new) 1
    /// &#9;([listed_alone](crate::contracts::ent_alloc::sequential#listed_alone) reply) }
    /// </code>
    ///
    /// </details>
    #[inline]
    pub fn spawn<const INLINE: usize>(
        &mut self,
        bundle: &InlineBundle<INLINE>,
    ) -> Result<Handle, ReserveError> {
        self.output
            .spawn(self.source, self.reserver, bundle.items())
    }

    /// Reserves `n` handles at once. Each of their entities gets these components when the queue is
    /// applied. They may be in any order; if a component is listed twice, its last value counts.
    ///
    /// ```
    /// use forgeni::{run_frame, system, Limits, StdThreads, World};
    ///
    /// let burst = system(|_, commands| match commands.spawn_many_with(50, &[]) {
    ///     Ok(_) => Ok(()),
    ///     // The report has it as a fault, and the other systems go on.
    ///     Err(refused) => refused.or_memory(),
    /// });
    /// let mut world = World::with_limits(Limits::new(10, 1).unwrap());
    /// let report = run_frame(&StdThreads, &mut world, &[burst], 1)?;
    /// assert_eq!((report.born.len(), report.faults.len()), (0, 1));
    /// # Ok::<(), Box<dyn std::error::Error>>(())
    /// ```
    ///
    /// # Errors
    ///
    /// The same as for [`SystemCommands::spawn_many`].
    ///
    /// <details><summary>Contract</summary>
    ///
    /// <code style="display: block; tab-size: 4; white-space: pre-wrap">// In the words of [contracts](crate::contracts):
    /// requires { [IsReady](crate::contracts::ent_queue::commands#IsReady) S.serves self.old }
    /// ensures extends { [Extends](crate::contracts::ent_queue::commands#Extends) [Issues](crate::contracts::ent_queue::issuing#Issues) S.serves S.may_reply self.old self.new }
    /// ensures ok { [IfOk](crate::contracts::logic#IfOk) result (λ handles. [output_of](crate::contracts::ent_queue::commands#output_of) self.new
    /// &#9;≡ [output_of](crate::contracts::ent_queue::commands#output_of) self.old ++ [SpawnMany](crate::contracts::ent_queue::command#SpawnMany) handles.items ([bundle_of](crate::contracts::ent_storage::bundle#bundle_of) components.now) ∷ \[\]) }
    /// ensures length { [IfOk](crate::contracts::logic#IfOk) result (λ handles. [length](crate::contracts::logic#length) handles.items ≡ n) }
    /// ensures refused { [IfErr](crate::contracts::logic#IfErr) result (λ fault.
    /// &#9;[output_of](crate::contracts::ent_queue::commands#output_of) self.new ≡ [output_of](crate::contracts::ent_queue::commands#output_of) self.old ++ [refused_by](crate::contracts::ent_queue::reserving#refused_by) n fault) }
    /// ensures memory { [IsErrOf](crate::contracts::logic#IsErrOf) result ReserveError.Memory
    /// &#9;→ [reserver_of](crate::contracts::ent_queue::commands#reserver_of) self.new ≡ [reserver_of](crate::contracts::ent_queue::commands#reserver_of) self.old }
    /// &#32;
    /// // Anything but Memory is the result of a reservation.
    /// ensures replies { (reply : [Result](crate::contracts::logic#Result) ([List](crate::contracts::logic#List) [HandleValue](crate::contracts::ent_handle::handle#Handle)) Refusal)
    /// &#9;→ [as_list](crate::contracts::ent_queue::reserving#as_list) result ≡ [queued](crate::contracts::ent_queue::reserving#queued) reply
    /// &#9;→ S.may_reply ([source_of](crate::contracts::ent_queue::commands#source_of) self.old) ([reserver_of](crate::contracts::ent_queue::commands#reserver_of) self.old) ([reserver_of](crate::contracts::ent_queue::commands#reserver_of) self.new) n
    /// &#9;reply }
    /// </code>
    ///
    /// </details>
    #[inline]
    pub fn spawn_many_with(
        &mut self,
        n: u32,
        components: &[(ComponentId, i64)],
    ) -> Result<Vec<Handle>, ReserveError> {
        let Ok(bundle) = OwnBundle::of(components) else {
            return Err(ReserveError::Memory);
        };
        self.spawn_many(n, &bundle)
    }

    /// Reserves `n` handles at once. Each of their entities gets the components when the queue is
    /// applied. It takes time for each handle, which goes into the list and into the queue.
    ///
    /// ```
    /// use forgeni::{run_frame, system, Bundle, ComponentId, StdThreads, World};
    ///
    /// const HEAT: ComponentId = ComponentId(0);
    ///
    /// let spark = Bundle::of(&[(HEAT, 900)])?;
    /// let burst = system(|_, commands| match commands.spawn_many(50, &spark) {
    ///     Ok(_) => Ok(()),
    ///     Err(refused) => refused.or_memory(),
    /// });
    /// let mut world = World::new();
    /// assert_eq!(run_frame(&StdThreads, &mut world, &[burst], 1)?.born.len(), 50);
    /// # Ok::<(), Box<dyn std::error::Error>>(())
    /// ```
    ///
    /// # Errors
    ///
    /// The same as for [`SystemCommands::spawn`].
    ///
    /// <details><summary>Contract</summary>
    ///
    /// <code style="display: block; tab-size: 4; white-space: pre-wrap">// In the words of [contracts](crate::contracts):
    /// requires { [IsReady](crate::contracts::ent_queue::commands#IsReady) S.serves self.old }
    /// ensures extends { [Extends](crate::contracts::ent_queue::commands#Extends) [Issues](crate::contracts::ent_queue::issuing#Issues) S.serves S.may_reply self.old self.new }
    /// ensures ok { [IfOk](crate::contracts::logic#IfOk) result (λ handles.
    /// &#9;[output_of](crate::contracts::ent_queue::commands#output_of) self.new ≡ [output_of](crate::contracts::ent_queue::commands#output_of) self.old ++ [SpawnMany](crate::contracts::ent_queue::command#SpawnMany) handles.items bundle.now ∷ \[\]) }
    /// ensures length { [IfOk](crate::contracts::logic#IfOk) result (λ handles. [length](crate::contracts::logic#length) handles.items ≡ n) }
    /// ensures refused { [IfErr](crate::contracts::logic#IfErr) result (λ fault.
    /// &#9;[output_of](crate::contracts::ent_queue::commands#output_of) self.new ≡ [output_of](crate::contracts::ent_queue::commands#output_of) self.old ++ [refused_by](crate::contracts::ent_queue::reserving#refused_by) n fault) }
    /// ensures memory { [IsErrOf](crate::contracts::logic#IsErrOf) result ReserveError.Memory
    /// &#9;→ [reserver_of](crate::contracts::ent_queue::commands#reserver_of) self.new ≡ [reserver_of](crate::contracts::ent_queue::commands#reserver_of) self.old }
    /// &#32;
    /// // Anything but Memory is the result of a reservation.
    /// ensures replies { (reply : [Result](crate::contracts::logic#Result) ([List](crate::contracts::logic#List) [HandleValue](crate::contracts::ent_handle::handle#Handle)) Refusal)
    /// &#9;→ [as_list](crate::contracts::ent_queue::reserving#as_list) result ≡ [queued](crate::contracts::ent_queue::reserving#queued) reply
    /// &#9;→ S.may_reply ([source_of](crate::contracts::ent_queue::commands#source_of) self.old) ([reserver_of](crate::contracts::ent_queue::commands#reserver_of) self.old) ([reserver_of](crate::contracts::ent_queue::commands#reserver_of) self.new) n
    /// &#9;reply }
    /// </code>
    ///
    /// </details>
    #[inline]
    pub fn spawn_many<const INLINE: usize>(
        &mut self,
        n: u32,
        bundle: &InlineBundle<INLINE>,
    ) -> Result<Vec<Handle>, ReserveError> {
        self.output
            .spawn_many(self.source, self.reserver, n, bundle.items())
    }

    /// Gives the entity these components, in place of those that it has under the same numbers.
    /// They may be in any order; if a component is listed twice, its last value counts.
    ///
    /// ```
    /// use forgeni::{run_frame, ComponentId, OutOfMemory, StdThreads, SystemCommands, View, World};
    ///
    /// const SPEED: ComponentId = ComponentId(0);
    ///
    /// fn brake(view: &View<'_>, commands: &mut SystemCommands<'_>) -> Result<(), OutOfMemory> {
    ///     let all = view.with(SPEED)?;
    ///     all.into_iter().try_for_each(|one| commands.insert_with(one, &[(SPEED, 0)]))
    /// }
    ///
    /// let mut world = World::new();
    /// let cart = world.spawn(&[(SPEED, 40)])?;
    /// run_frame(&StdThreads, &mut world, &[brake], 1)?;
    /// assert_eq!(world.get(cart, SPEED), Some(0));
    /// # Ok::<(), Box<dyn std::error::Error>>(())
    /// ```
    ///
    /// # Errors
    ///
    /// `Memory`. Nothing has changed then.
    ///
    /// <details><summary>Contract</summary>
    ///
    /// <code style="display: block; tab-size: 4; white-space: pre-wrap">// In the words of [contracts](crate::contracts):
    /// requires { [IsReady](crate::contracts::ent_queue::commands#IsReady) S.serves self.old }
    /// ensures extends { [Extends](crate::contracts::ent_queue::commands#Extends) [Issues](crate::contracts::ent_queue::issuing#Issues) S.serves S.may_reply self.old self.new }
    /// ensures reserver { [reserver_of](crate::contracts::ent_queue::commands#reserver_of) self.new ≡ [reserver_of](crate::contracts::ent_queue::commands#reserver_of) self.old }
    /// ensures ok { [OnOk](crate::contracts::logic#OnOk) result ([output_of](crate::contracts::ent_queue::commands#output_of) self.new
    /// &#9;≡ [output_of](crate::contracts::ent_queue::commands#output_of) self.old ++ [Insert](crate::contracts::ent_queue::command#Insert) handle ([bundle_of](crate::contracts::ent_storage::bundle#bundle_of) components.now) ∷ \[\]) }
    /// ensures err { [OnErr](crate::contracts::logic#OnErr) result ([output_of](crate::contracts::ent_queue::commands#output_of) self.new ≡ [output_of](crate::contracts::ent_queue::commands#output_of) self.old) }
    /// </code>
    ///
    /// </details>
    #[inline]
    pub fn insert_with(
        &mut self,
        handle: Handle,
        components: &[(ComponentId, i64)],
    ) -> Result<(), OutOfMemory> {
        let bundle = OwnBundle::of(components)?;
        self.insert(handle, &bundle)
    }

    /// Gives the entity the components, in place of those that it has under the same numbers.
    ///
    /// ```
    /// use forgeni::{run_frame, system, Bundle, ComponentId, StdThreads, World};
    ///
    /// const SPEED: ComponentId = ComponentId(0);
    ///
    /// let mut world = World::new();
    /// let cart = world.spawn(&[])?;
    /// let fast = Bundle::of(&[(SPEED, 40)])?;
    /// run_frame(&StdThreads, &mut world, &[system(|_, commands| commands.insert(cart, &fast))], 1)?;
    /// assert_eq!(world.get(cart, SPEED), Some(40));
    /// # Ok::<(), Box<dyn std::error::Error>>(())
    /// ```
    ///
    /// # Errors
    ///
    /// `Memory`. Nothing has changed then.
    ///
    /// <details><summary>Contract</summary>
    ///
    /// <code style="display: block; tab-size: 4; white-space: pre-wrap">// In the words of [contracts](crate::contracts):
    /// requires { [IsReady](crate::contracts::ent_queue::commands#IsReady) S.serves self.old }
    /// ensures extends { [Extends](crate::contracts::ent_queue::commands#Extends) [Issues](crate::contracts::ent_queue::issuing#Issues) S.serves S.may_reply self.old self.new }
    /// ensures reserver { [reserver_of](crate::contracts::ent_queue::commands#reserver_of) self.new ≡ [reserver_of](crate::contracts::ent_queue::commands#reserver_of) self.old }
    /// ensures ok { [OnOk](crate::contracts::logic#OnOk) result
    /// &#9;([output_of](crate::contracts::ent_queue::commands#output_of) self.new ≡ [output_of](crate::contracts::ent_queue::commands#output_of) self.old ++ [Insert](crate::contracts::ent_queue::command#Insert) handle bundle.now ∷ \[\]) }
    /// ensures err { [OnErr](crate::contracts::logic#OnErr) result ([output_of](crate::contracts::ent_queue::commands#output_of) self.new ≡ [output_of](crate::contracts::ent_queue::commands#output_of) self.old) }
    /// </code>
    ///
    /// </details>
    #[inline]
    pub fn insert<const INLINE: usize>(
        &mut self,
        handle: Handle,
        bundle: &InlineBundle<INLINE>,
    ) -> Result<(), OutOfMemory> {
        IssuedCommands::insert(&mut self.output, handle, bundle.items())
    }

    /// Removes the component from the entity, if it has it.
    ///
    /// ```
    /// use forgeni::{run_frame, system, ComponentId, StdThreads, World};
    ///
    /// const LIT: ComponentId = ComponentId(0);
    ///
    /// let mut world = World::new();
    /// let lamp = world.spawn(&[(LIT, 1)])?;
    /// run_frame(&StdThreads, &mut world, &[system(|_, commands| commands.remove(lamp, LIT))], 1)?;
    /// assert!(world.contains(lamp) && world.get(lamp, LIT).is_none());
    /// # Ok::<(), Box<dyn std::error::Error>>(())
    /// ```
    ///
    /// # Errors
    ///
    /// `Memory`. Nothing has changed then.
    ///
    /// <details><summary>Contract</summary>
    ///
    /// <code style="display: block; tab-size: 4; white-space: pre-wrap">// In the words of [contracts](crate::contracts):
    /// requires { [IsReady](crate::contracts::ent_queue::commands#IsReady) S.serves self.old }
    /// ensures extends { [Extends](crate::contracts::ent_queue::commands#Extends) [Issues](crate::contracts::ent_queue::issuing#Issues) S.serves S.may_reply self.old self.new }
    /// ensures reserver { [reserver_of](crate::contracts::ent_queue::commands#reserver_of) self.new ≡ [reserver_of](crate::contracts::ent_queue::commands#reserver_of) self.old }
    /// ensures ok { [OnOk](crate::contracts::logic#OnOk) result ([output_of](crate::contracts::ent_queue::commands#output_of) self.new ≡ [output_of](crate::contracts::ent_queue::commands#output_of) self.old ++ [Remove](crate::contracts::ent_queue::command#Remove) handle id ∷ \[\]) }
    /// ensures err { [OnErr](crate::contracts::logic#OnErr) result ([output_of](crate::contracts::ent_queue::commands#output_of) self.new ≡ [output_of](crate::contracts::ent_queue::commands#output_of) self.old) }
    /// </code>
    ///
    /// </details>
    #[inline]
    pub fn remove(&mut self, handle: Handle, id: ComponentId) -> Result<(), OutOfMemory> {
        self.output.remove(handle, id)
    }

    /// Despawns the entity.
    ///
    /// ```
    /// use forgeni::{run_frame, ComponentId, OutOfMemory, StdThreads, SystemCommands, View, World};
    ///
    /// const AGE: ComponentId = ComponentId(0);
    ///
    /// fn wither(view: &View<'_>, commands: &mut SystemCommands<'_>) -> Result<(), OutOfMemory> {
    ///     let old = view.with(AGE)?.into_iter().filter(|one| view.get(*one, AGE) > Some(100));
    ///     old.map(|one| commands.despawn(one)).collect()
    /// }
    ///
    /// let mut world = World::new();
    /// world.spawn(&[(AGE, 80)])?;
    /// world.spawn(&[(AGE, 300)])?;
    /// run_frame(&StdThreads, &mut world, &[wither], 1)?;
    /// assert_eq!(world.len(), 1);
    /// # Ok::<(), Box<dyn std::error::Error>>(())
    /// ```
    ///
    /// # Errors
    ///
    /// `Memory`. Nothing has changed then.
    ///
    /// <details><summary>Contract</summary>
    ///
    /// <code style="display: block; tab-size: 4; white-space: pre-wrap">// In the words of [contracts](crate::contracts):
    /// requires { [IsReady](crate::contracts::ent_queue::commands#IsReady) S.serves self.old }
    /// ensures extends { [Extends](crate::contracts::ent_queue::commands#Extends) [Issues](crate::contracts::ent_queue::issuing#Issues) S.serves S.may_reply self.old self.new }
    /// ensures reserver { [reserver_of](crate::contracts::ent_queue::commands#reserver_of) self.new ≡ [reserver_of](crate::contracts::ent_queue::commands#reserver_of) self.old }
    /// ensures ok { [OnOk](crate::contracts::logic#OnOk) result ([output_of](crate::contracts::ent_queue::commands#output_of) self.new ≡ [output_of](crate::contracts::ent_queue::commands#output_of) self.old ++ [Despawn](crate::contracts::ent_queue::command#Despawn) handle ∷ \[\]) }
    /// ensures err { [OnErr](crate::contracts::logic#OnErr) result ([output_of](crate::contracts::ent_queue::commands#output_of) self.new ≡ [output_of](crate::contracts::ent_queue::commands#output_of) self.old) }
    /// </code>
    ///
    /// </details>
    #[inline]
    pub fn despawn(&mut self, handle: Handle) -> Result<(), OutOfMemory> {
        self.output.despawn(handle)
    }
}

impl<S: Source> SystemCommands<'_, IssuedCommands, S> {
    /// Gives each of the entities the components, by a command for each handle in their order. It
    /// takes less time than as many calls of `insert`, if there are more than a few handles.
    ///
    /// # Errors
    ///
    /// `Memory`. Nothing has changed then.
    #[inline]
    pub(crate) fn insert_each<const INLINE: usize>(
        &mut self,
        handles: &[Handle],
        bundle: &InlineBundle<INLINE>,
    ) -> Result<(), OutOfMemory>
        // requires { IsReady S.serves self.old }
        // ensures extends { Extends Issues S.serves S.may_reply self.old self.new }
        // ensures reserver { reserver_of self.new ≡ reserver_of self.old }
        // ensures ok { OnOk result (output_of self.new
        //     ≡ output_of self.old ++ map (λ handle. Insert handle bundle.now) handles.now) }
        // ensures err { OnErr result (output_of self.new ≡ output_of self.old) }
    {
        IssuedCommands::insert_each(&mut self.output, handles, bundle.items())
    }
}
