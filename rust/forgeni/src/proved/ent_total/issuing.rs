// Made of crates/ent_total/src/issuing.rt by rust/erase. It isn't edited by hand.

//! The commands that a reserver of a world's phase issues.
use alloc::vec::Vec;
use crate::phases::open_world::OpenWorld;
use crate::phases::reserver::Reserver;
use crate::allocator::ReserveError;
use crate::handles::{ComponentId, Handle, OutOfMemory};
use crate::commands::{IssuedCommands, SystemCommands, Output};
use crate::worlds::View;
use core::mem;

/// # Issuing commands
impl Reserver<OpenWorld> {
    /// Reserves a handle at once, by one atomic step. Its entity gets these components, in any
    /// order, when the queue is applied. If a component is listed twice, its last value counts.
    ///
    /// # Errors
    ///
    /// `Memory`. Nothing has changed then. With `Space` and `Quota` the queue keeps the refusal,
    /// which is a fault of the sync point's report, and the system may go on.
    ///
    /// ```
    /// use forgeni::{ComponentId, World};
    ///
    /// let (open, mut systems) = World::new().open(1)?;
    /// let cart = systems[0].spawn(&[(ComponentId(0), 5)])?;
    /// assert!(!open.view().contains(cart));
    /// let (mut world, queues) = open.close(systems)?;
    /// world.apply(queues)?;
    /// assert_eq!(world.get(cart, ComponentId(0)), Some(5));
    /// # Ok::<(), Box<dyn std::error::Error>>(())
    /// ```
    ///
    /// <details><summary>Contract</summary>
    ///
    /// <code style="display: block; tab-size: 4; white-space: pre-wrap">// In the words of [contracts](crate::contracts):
    /// ensures extends { [Extends](crate::contracts::ent_total::issuing#Extends) self.old self.new }
    /// ensures ok { [IfOk](crate::contracts::logic#IfOk) result (λ handle. [queue_of](crate::contracts::ent_total::issuing#queue_of) self.new
    /// &#9;≡ [queue_of](crate::contracts::ent_total::issuing#queue_of) self.old ++ [Spawn](crate::contracts::ent_queue::command#Spawn) handle ([bundle_of](crate::contracts::ent_storage::bundle#bundle_of) components.now) ∷ \[\]) }
    /// ensures refused { [IfErr](crate::contracts::logic#IfErr) result (λ fault.
    /// &#9;[queue_of](crate::contracts::ent_total::issuing#queue_of) self.new ≡ [queue_of](crate::contracts::ent_total::issuing#queue_of) self.old ++ [refused_by](crate::contracts::ent_queue::reserving#refused_by) 1 fault) }
    /// ensures memory { [IsErrOf](crate::contracts::logic#IsErrOf) result ReserveError.Memory → self.new ≡ self.old }
    /// ensures given { [IfOk](crate::contracts::logic#IfOk) result (λ handle.
    /// &#9;[IsReturned](crate::contracts::ent_shared::replies#IsReturned) ([shared_of](crate::contracts::ent_total::issuing#shared_of) self.old) ([reserver_of](crate::contracts::ent_total::issuing#reserver_of) self.old) ([reserver_of](crate::contracts::ent_total::issuing#reserver_of) self.new) 1
    /// &#9;([Ok](crate::contracts::logic#Ok) (handle ∷ \[\]))) }
    /// ensures refusal { [IfErr](crate::contracts::logic#IfErr) result
    /// &#9;([IsRefused](crate::contracts::ent_total::issuing#IsRefused) ([shared_of](crate::contracts::ent_total::issuing#shared_of) self.old) ([reserver_of](crate::contracts::ent_total::issuing#reserver_of) self.old) ([reserver_of](crate::contracts::ent_total::issuing#reserver_of) self.new) 1) }
    /// &#32;
    /// // What was given is recorded, and nothing else.
    /// ensures recorded { [handles_given](crate::contracts::ent_shared::order#handles_given) ([reserver_of](crate::contracts::ent_total::issuing#reserver_of) self.new).own
    /// &#9;≡ [handles_given](crate::contracts::ent_shared::order#handles_given) ([reserver_of](crate::contracts::ent_total::issuing#reserver_of) self.old).own ++ [handle_in](crate::contracts::ent_total::issuing#handle_in) result }
    /// </code>
    ///
    /// </details>
    #[inline]
    pub fn spawn(
        &mut self,
        components: &[(ComponentId, i64)],
    ) -> Result<Handle, ReserveError> {
        let queue = self.take_queue();
        let shared = self.source.shared();
        let mut commands = SystemCommands::resume(shared, &mut self.reserver.0, queue);
        let spawned = commands.spawn_with(components);
        self.reserver.1 = commands.finish();
        spawned
    }

    /// Reserves `n` handles at once, by one atomic step. Each of their entities gets these
    /// components when the queue is applied. It takes time for each handle, which goes into the
    /// list and into the queue.
    ///
    /// ```
    /// use forgeni::{ComponentId, World};
    ///
    /// const HEAT: ComponentId = ComponentId(0);
    ///
    /// let mut world = World::new();
    /// let (sparks, queues) = world.phase(1, |_open, systems| {
    ///     systems[0].spawn_many(100, &[(HEAT, 900)])
    /// })?;
    /// world.apply(queues)?;
    /// assert!(sparks?.into_iter().all(|one| world.get(one, HEAT) == Some(900)));
    /// # Ok::<(), Box<dyn std::error::Error>>(())
    /// ```
    ///
    /// # Errors
    ///
    /// The same as for [`spawn`](Self::spawn).
    ///
    /// <details><summary>Contract</summary>
    ///
    /// <code style="display: block; tab-size: 4; white-space: pre-wrap">// In the words of [contracts](crate::contracts):
    /// ensures extends { [Extends](crate::contracts::ent_total::issuing#Extends) self.old self.new }
    /// ensures ok { [IfOk](crate::contracts::logic#IfOk) result (λ handles. [queue_of](crate::contracts::ent_total::issuing#queue_of) self.new
    /// &#9;≡ [queue_of](crate::contracts::ent_total::issuing#queue_of) self.old ++ [SpawnMany](crate::contracts::ent_queue::command#SpawnMany) handles.items ([bundle_of](crate::contracts::ent_storage::bundle#bundle_of) components.now) ∷ \[\]) }
    /// ensures length { [IfOk](crate::contracts::logic#IfOk) result (λ handles. [length](crate::contracts::logic#length) handles.items ≡ n) }
    /// ensures refused { [IfErr](crate::contracts::logic#IfErr) result (λ fault.
    /// &#9;[queue_of](crate::contracts::ent_total::issuing#queue_of) self.new ≡ [queue_of](crate::contracts::ent_total::issuing#queue_of) self.old ++ [refused_by](crate::contracts::ent_queue::reserving#refused_by) n fault) }
    /// ensures memory { [IsErrOf](crate::contracts::logic#IsErrOf) result ReserveError.Memory → self.new ≡ self.old }
    /// ensures given { [IfOk](crate::contracts::logic#IfOk) result (λ handles.
    /// &#9;[IsReturned](crate::contracts::ent_shared::replies#IsReturned) ([shared_of](crate::contracts::ent_total::issuing#shared_of) self.old) ([reserver_of](crate::contracts::ent_total::issuing#reserver_of) self.old) ([reserver_of](crate::contracts::ent_total::issuing#reserver_of) self.new) n
    /// &#9;([Ok](crate::contracts::logic#Ok) handles.items)) }
    /// ensures refusal { [IfErr](crate::contracts::logic#IfErr) result
    /// &#9;([IsRefused](crate::contracts::ent_total::issuing#IsRefused) ([shared_of](crate::contracts::ent_total::issuing#shared_of) self.old) ([reserver_of](crate::contracts::ent_total::issuing#reserver_of) self.old) ([reserver_of](crate::contracts::ent_total::issuing#reserver_of) self.new) n) }
    /// &#32;
    /// // What was given is recorded, and nothing else.
    /// ensures recorded { [handles_given](crate::contracts::ent_shared::order#handles_given) ([reserver_of](crate::contracts::ent_total::issuing#reserver_of) self.new).own
    /// &#9;≡ [handles_given](crate::contracts::ent_shared::order#handles_given) ([reserver_of](crate::contracts::ent_total::issuing#reserver_of) self.old).own ++ [handles_in](crate::contracts::ent_total::issuing#handles_in) result }
    /// </code>
    ///
    /// </details>
    #[inline]
    pub fn spawn_many(
        &mut self,
        n: u32,
        components: &[(ComponentId, i64)],
    ) -> Result<Vec<Handle>, ReserveError> {
        let queue = self.take_queue();
        let shared = self.source.shared();
        let mut commands = SystemCommands::resume(shared, &mut self.reserver.0, queue);
        let spawned = commands.spawn_many_with(n, components);
        self.reserver.1 = commands.finish();
        spawned
    }

    /// Gives the entity these components, instead of those that it has under the same numbers. If a
    /// component is listed twice, its last value counts.
    ///
    /// ```
    /// use forgeni::{ComponentId, World};
    ///
    /// const AGE: ComponentId = ComponentId(0);
    ///
    /// let mut world = World::new();
    /// let oak = world.spawn(&[(AGE, 80)])?;
    /// let (open, mut systems) = world.open(1)?;
    /// systems[0].insert(oak, &[(AGE, 81)])?;
    ///
    /// // It takes effect when the queue is applied.
    /// assert_eq!(systems[0].view().get(oak, AGE), Some(80));
    /// let (mut world, queues) = open.close(systems)?;
    /// world.apply(queues)?;
    /// assert_eq!(world.get(oak, AGE), Some(81));
    /// # Ok::<(), Box<dyn std::error::Error>>(())
    /// ```
    ///
    /// # Errors
    ///
    /// `OutOfMemory`. Nothing has changed then.
    ///
    /// <details><summary>Contract</summary>
    ///
    /// <code style="display: block; tab-size: 4; white-space: pre-wrap">// In the words of [contracts](crate::contracts):
    /// ensures ok { [OnOk](crate::contracts::logic#OnOk) result
    /// &#9;(self.new ≡ [issued](crate::contracts::ent_total::issuing#issued) self.old ([Insert](crate::contracts::ent_queue::command#Insert) handle ([bundle_of](crate::contracts::ent_storage::bundle#bundle_of) components.now))) }
    /// ensures memory { [OnErr](crate::contracts::logic#OnErr) result (self.new ≡ self.old) }
    /// </code>
    ///
    /// </details>
    #[inline]
    pub fn insert(
        &mut self,
        handle: Handle,
        components: &[(ComponentId, i64)],
    ) -> Result<(), OutOfMemory> {
        let queue = self.take_queue();
        let shared = self.source.shared();
        let mut commands = SystemCommands::resume(shared, &mut self.reserver.0, queue);
        let issued = commands.insert_with(handle, components);
        self.reserver.1 = commands.finish();
        issued
    }

    /// Removes the component from the entity, if it has it.
    ///
    /// ```
    /// use forgeni::{ComponentId, World};
    ///
    /// const LIT: ComponentId = ComponentId(0);
    ///
    /// let mut world = World::new();
    /// let lamp = world.spawn(&[(LIT, 1)])?;
    /// let (done, queues) = world.phase(1, |_open, systems| systems[0].remove(lamp, LIT))?;
    /// done?;
    /// world.apply(queues)?;
    /// assert!(world.contains(lamp) && world.get(lamp, LIT).is_none());
    /// # Ok::<(), Box<dyn std::error::Error>>(())
    /// ```
    ///
    /// # Errors
    ///
    /// `OutOfMemory`. Nothing has changed then.
    ///
    /// <details><summary>Contract</summary>
    ///
    /// <code style="display: block; tab-size: 4; white-space: pre-wrap">// In the words of [contracts](crate::contracts):
    /// ensures ok { [OnOk](crate::contracts::logic#OnOk) result (self.new ≡ [issued](crate::contracts::ent_total::issuing#issued) self.old ([Remove](crate::contracts::ent_queue::command#Remove) handle id)) }
    /// ensures memory { [OnErr](crate::contracts::logic#OnErr) result (self.new ≡ self.old) }
    /// </code>
    ///
    /// </details>
    #[inline]
    pub fn remove(&mut self, handle: Handle, id: ComponentId) -> Result<(), OutOfMemory> {
        let queue = self.take_queue();
        let shared = self.source.shared();
        let mut commands = SystemCommands::resume(shared, &mut self.reserver.0, queue);
        let issued = commands.remove(handle, id);
        self.reserver.1 = commands.finish();
        issued
    }

    /// Removes the entity from the world. If it isn't alive when the command takes effect, that is
    /// a fault of the sync point's report.
    ///
    /// ```
    /// use forgeni::{FaultKind, World};
    ///
    /// let mut world = World::new();
    /// let oak = world.spawn(&[])?;
    /// let (open, mut systems) = world.open(2)?;
    /// for commands in &mut systems {
    ///     commands.despawn(oak)?;
    /// }
    /// let (mut world, queues) = open.close(systems)?;
    /// let report = world.apply(queues)?;
    /// assert_eq!(report.faults.len(), 1);
    /// assert_eq!((report.faults[0].system, report.faults[0].kind), (1, FaultKind::NotAlive(oak)));
    /// # Ok::<(), Box<dyn std::error::Error>>(())
    /// ```
    ///
    /// # Errors
    ///
    /// `OutOfMemory`. Nothing has changed then.
    ///
    /// <details><summary>Contract</summary>
    ///
    /// <code style="display: block; tab-size: 4; white-space: pre-wrap">// In the words of [contracts](crate::contracts):
    /// ensures ok { [OnOk](crate::contracts::logic#OnOk) result (self.new ≡ [issued](crate::contracts::ent_total::issuing#issued) self.old ([Despawn](crate::contracts::ent_queue::command#Despawn) handle)) }
    /// ensures memory { [OnErr](crate::contracts::logic#OnErr) result (self.new ≡ self.old) }
    /// </code>
    ///
    /// </details>
    #[inline]
    pub fn despawn(&mut self, handle: Handle) -> Result<(), OutOfMemory> {
        let queue = self.take_queue();
        let shared = self.source.shared();
        let mut commands = SystemCommands::resume(shared, &mut self.reserver.0, queue);
        let issued = commands.despawn(handle);
        self.reserver.1 = commands.finish();
        issued
    }
}

/// # Looking at the world
impl Reserver<OpenWorld> {
    /// Returns a view of the world, like the one that a system of a frame gets.
    ///
    /// ```
    /// use forgeni::{Handle, View, World};
    ///
    /// fn oldest(view: &View<'_>) -> Option<Handle> {
    ///     view.by_birth().ok()?.first().copied()
    /// }
    ///
    /// let mut world = World::new();
    /// let oak = world.spawn(&[])?;
    /// let (_open, systems) = world.open(1)?;
    /// assert_eq!(oldest(&systems[0].view()), Some(oak));
    /// # Ok::<(), Box<dyn std::error::Error>>(())
    /// ```
    ///
    /// <details><summary>Contract</summary>
    ///
    /// <code style="display: block; tab-size: 4; white-space: pre-wrap">// In the words of [contracts](crate::contracts):
    /// ensures { result ≡ [view_of](crate::contracts::ent_total::issuing#view_of) self.now.source }
    /// </code>
    ///
    /// </details>
    #[must_use]
    #[inline]
    pub fn view(&self) -> View<'_> {
        self.source.view()
    }
}

/// # Its number
impl Reserver<OpenWorld> {
    /// Returns the number of the system: its position in the list that the phase began with,
    /// counted from 0. Births and faults number systems by the order of their queues at the close
    /// instead.
    ///
    /// ```
    /// use forgeni::World;
    ///
    /// // The systems run in any order, and each has a name by its number.
    /// const NAMES: [&str; 2] = ["move", "burn"];
    ///
    /// let (_open, systems) = World::new().open(2)?;
    /// let names = systems.iter().rev().map(|one| NAMES[one.number()]);
    /// assert_eq!(names.collect::<Vec<_>>(), ["burn", "move"]);
    /// # Ok::<(), Box<dyn std::error::Error>>(())
    /// ```
    ///
    /// Systems that came back in any order can be sorted by it:
    ///
    /// ```
    /// use forgeni::World;
    ///
    /// let (open, systems) = World::new().open(3)?;
    /// // Threads have ended in some order.
    /// let mut ended: Vec<_> = systems.into_iter().rev().collect();
    /// ended.sort_by_key(|one| one.number());
    /// assert_eq!(ended.iter().map(|one| one.number()).collect::<Vec<_>>(), [0, 1, 2]);
    /// let _closed = open.close(ended)?;
    /// # Ok::<(), Box<dyn std::error::Error>>(())
    /// ```
    ///
    /// <details><summary>Contract</summary>
    ///
    /// <code style="display: block; tab-size: 4; white-space: pre-wrap">// In the words of [contracts](crate::contracts):
    /// ensures { result ≡ ([reserver_of](crate::contracts::ent_total::issuing#reserver_of) self.now).own.number }
    /// </code>
    ///
    /// </details>
    #[must_use]
    #[inline]
    pub fn number(&self) -> usize {
        self.reserver.0.number()
    }
}

impl Reserver<OpenWorld> {
    /// The queue, and leaves an empty one, which takes no memory.
    #[inline]
    fn take_queue(&mut self) -> IssuedCommands
        // ensures queue { result ≡ queue_of self.old }
        // ensures rest { self.new ≡ with_queue self.old [] }
    {
        mem::replace(&mut self.reserver.1, IssuedCommands::unfilled())
    }
}
