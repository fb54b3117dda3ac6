// Made of crates/ent_total/src/world.rt by rust/erase. It isn't edited by hand.

use alloc::vec::Vec;
use crate::allocator::{AllocError, FreeError, Freed, Limits};
use crate::handles::{Birth, ComponentId, Handle, OutOfMemory};
use crate::commands::Bundle;
use crate::components::Items;

/// The system in the birth of an entity that no system spawned.
const NO_SYSTEM: u32 = 0xffff_ffff;

/// The living entities and their components.
///
/// A component is a number ([`ComponentId`]) and a value of 64 bits. Systems that run side by side
/// don't touch the world: `open` gives each a [`Reserver`](crate::phases::Reserver), and
/// [`apply`](World::apply) lets their queues take effect. Outside of phases, entities come and go
/// at once ([`spawn`](World::spawn), [`despawn`](World::despawn)), and the components of a living
/// entity change only by commands.
///
/// Queues take effect in their order, whichever system issued first. So births, components and
/// faults are the same on any number of threads, if no request is refused, no allocation fails, and
/// nothing depends on handles.
///
/// It may go to another thread, and many threads may read it at once.
///
/// ```
/// use forgeni::{ComponentId, World};
///
/// const AGE: ComponentId = ComponentId(0);
///
/// let (open, mut systems) = World::new().open(2)?;
/// std::thread::scope(|scope| {
///     for commands in &mut systems {
///         scope.spawn(move || commands.spawn(&[(AGE, 1)]));
///     }
/// });
/// let (mut world, queues) = open.close(systems)?;
/// let report = world.apply(queues)?;
/// assert_eq!(report.born.len(), 2);
/// assert!(report.faults.is_empty());
/// for entity in world.by_birth()? {
///     assert_eq!(world.get(entity, AGE), Some(1));
/// }
/// # Ok::<(), Box<dyn std::error::Error>>(())
/// ```
pub struct World {
    pub(super) world: crate::worlds::World,
    /// By it queues know their world. It is given from outside: what a queue says of its world is
    /// as good as it.
    pub(super) number: u64,
    /// How many entities [`spawn`](World::spawn) made since the last flush, at most 2^32 - 1.
    pub(super) spawned: u32,
}

/// Creates a world without entities, with these limits. It doesn't allocate. The number is its own:
/// by it queues know their world.
///
/// <details><summary>Contract</summary>
///
/// <code style="display: block; tab-size: 4; white-space: pre-wrap">// In the words of [contracts](crate::contracts):
/// ensures { result ≡ record { world = [first_world](crate::contracts::ent_world::world#first_world) limits; number = number; spawned = 0 } }
/// </code>
///
/// </details>
#[inline]
pub fn new_world(limits: Limits, number: u64) -> World {
    World {
        world: crate::worlds::World::new(limits),
        number,
        spawned: 0,
    }
}

/// # Entities
impl World {
    /// Brings an entity to life at once, with these components, in any order. If a component is
    /// listed twice, its last value counts.
    ///
    /// The entity's birth names the phase and no system. Its ordinal is how many entities `spawn`
    /// made before it since the last flush, and at most 2^32 - 1.
    ///
    /// # Errors
    ///
    /// `NeedsFlush` if handles were requested since the last flush, `Space` if no slot is left,
    /// `Memory` if memory runs out. Nothing has changed then.
    ///
    /// ```
    /// use forgeni::World;
    ///
    /// let mut world = World::new();
    /// let cart = world.spawn(&[])?;
    /// let horse = world.spawn(&[])?;
    /// assert_eq!(world.birth(cart).unwrap().to_string(), "0.4294967295.0");
    /// assert_eq!(world.birth(horse).unwrap().to_string(), "0.4294967295.1");
    /// # Ok::<(), forgeni::AllocError>(())
    /// ```
    ///
    /// <details><summary>Contract</summary>
    ///
    /// <code style="display: block; tab-size: 4; white-space: pre-wrap">// In the words of [contracts](crate::contracts):
    /// ensures front { [IfOk](crate::contracts::logic#IfOk) result (λ handle.
    /// &#9;[slice_get](crate::contracts::logic#slice_get) self.old.world.allocator.pool 0 ≡ [Some](crate::contracts::logic#Some) handle) }
    /// ensures ok { [IfOk](crate::contracts::logic#IfOk) result (λ handle. self.new.world
    /// &#9;≡ [after_spawn](crate::contracts::ent_world::effects#after_spawn) ([next_birth](crate::contracts::ent_total::spawning#next_birth) self.old) ([bundle_of](crate::contracts::ent_storage::bundle#bundle_of) components.now) handle self.old.world) }
    /// ensures counted { [OnOk](crate::contracts::logic#OnOk) result (self.new.spawned ≡ [ordinal](crate::contracts::ent_world::sync#ordinal) (self.old.spawned + 1)) }
    /// ensures number { self.new.number ≡ self.old.number }
    /// &#32;
    /// // When it is refused, and what holds then.
    /// ensures refused { [IsSpawnRefused](crate::contracts::ent_total::spawning#IsSpawnRefused) self.old.world.allocator
    /// &#9;([length](crate::contracts::logic#length) ([bundle_of](crate::contracts::ent_storage::bundle#bundle_of) components.now)) result }
    /// ensures err { [OnErr](crate::contracts::logic#OnErr) result (self.new ≡ self.old) }
    /// </code>
    ///
    /// </details>
    #[inline(always)]
    pub fn spawn(
        &mut self,
        components: &[(ComponentId, i64)],
    ) -> Result<Handle, AllocError> {
        let birth = Birth {
            frame: self.world.phase(),
            system: NO_SYSTEM,
            ordinal: self.spawned,
        };
        let handle = self.spawn_with_birth(birth, components)?;
        self.spawned = self.spawned.saturating_add(1);
        Ok(handle)
    }

    /// Removes a living entity, with all its components.
    ///
    /// ```
    /// use forgeni::{FreeError, World};
    ///
    /// let mut world = World::new();
    /// let cart = world.spawn(&[])?;
    /// world.despawn(cart)?;
    /// assert!(!world.contains(cart));
    /// assert_eq!(world.despawn(cart), Err(FreeError::NotAlive));
    /// # Ok::<(), Box<dyn std::error::Error>>(())
    /// ```
    ///
    /// # Errors
    ///
    /// `NeedsFlush` if handles were requested since the last flush, `NotAlive` if the handle names
    /// no living entity, `Memory` if memory runs out. Nothing has changed then.
    ///
    /// <details><summary>Contract</summary>
    ///
    /// <code style="display: block; tab-size: 4; white-space: pre-wrap">// In the words of [contracts](crate::contracts):
    /// ensures ok { [OnOk](crate::contracts::logic#OnOk) result
    /// &#9;(self.new ≡ record self.old { world = [after_despawn](crate::contracts::ent_world::effects#after_despawn) handle self.old.world }) }
    /// ensures next { [IfOk](crate::contracts::logic#IfOk) result (λ freed.
    /// &#9;freed.next ≡ [next](crate::contracts::ent_alloc::sequential#next) self.old.world.allocator.limits handle) }
    /// ensures lived { [OnOk](crate::contracts::logic#OnOk) result ([lives_in](crate::contracts::ent_world::world#lives_in) self.old.world handle ≡ [true](crate::contracts::logic#true)) }
    /// ensures needs_flush { [IsErrOf](crate::contracts::logic#IsErrOf) result FreeError.NeedsFlush
    /// &#9;↔ (0 \< self.old.world.allocator.asked) }
    /// ensures not_alive { [IsErrOf](crate::contracts::logic#IsErrOf) result FreeError.NotAlive
    /// &#9;↔ ((self.old.world.allocator.asked ≡ 0)
    /// &#9;× ([lives_in](crate::contracts::ent_world::world#lives_in) self.old.world handle ≡ [false](crate::contracts::logic#false))) }
    /// ensures memory { [IsErrOf](crate::contracts::logic#IsErrOf) result FreeError.Memory
    /// &#9;→ handle.generation ≢ self.old.world.allocator.limits.generations }
    /// ensures err { [OnErr](crate::contracts::logic#OnErr) result (self.new ≡ self.old) }
    /// </code>
    ///
    /// </details>
    #[inline]
    pub fn despawn(&mut self, handle: Handle) -> Result<Freed, FreeError> {
        self.world.despawn(handle)
    }

    /// Like [`spawn`](World::spawn), but with this birth. It can be any birth, even that of another
    /// entity.
    ///
    /// ```
    /// use forgeni::{Birth, ComponentId, World};
    ///
    /// const AGE: ComponentId = ComponentId(0);
    ///
    /// // An entity of an old save comes back, under the name that it had.
    /// let birth = Birth { frame: 17, system: 2, ordinal: 0 };
    /// let mut world = World::new();
    /// let oak = world.spawn_with_birth(birth, &[(AGE, 80)])?;
    /// assert_eq!(world.birth(oak), Some(birth));
    /// # Ok::<(), Box<dyn std::error::Error>>(())
    /// ```
    ///
    /// # Errors
    ///
    /// The same as for `spawn`.
    ///
    /// <details><summary>Contract</summary>
    ///
    /// <code style="display: block; tab-size: 4; white-space: pre-wrap">// In the words of [contracts](crate::contracts):
    /// ensures front { [IfOk](crate::contracts::logic#IfOk) result (λ handle.
    /// &#9;[slice_get](crate::contracts::logic#slice_get) self.old.world.allocator.pool 0 ≡ [Some](crate::contracts::logic#Some) handle) }
    /// ensures ok { [IfOk](crate::contracts::logic#IfOk) result (λ handle. self.new ≡ record self.old {
    /// &#32;&#32;world = [after_spawn](crate::contracts::ent_world::effects#after_spawn) birth ([bundle_of](crate::contracts::ent_storage::bundle#bundle_of) components.now) handle self.old.world;
    /// }) }
    /// &#32;
    /// // When it is refused, and what holds then.
    /// ensures refused { [IsSpawnRefused](crate::contracts::ent_total::spawning#IsSpawnRefused) self.old.world.allocator
    /// &#9;([length](crate::contracts::logic#length) ([bundle_of](crate::contracts::ent_storage::bundle#bundle_of) components.now)) result }
    /// ensures err { [OnErr](crate::contracts::logic#OnErr) result (self.new ≡ self.old) }
    /// </code>
    ///
    /// </details>
    #[inline(always)]
    pub fn spawn_with_birth(
        &mut self,
        birth: Birth,
        components: &[(ComponentId, i64)],
    ) -> Result<Handle, AllocError> {
        let Ok(bundle) = Bundle::of(components) else {
            return Err(self.no_bundle());
        };
        self.world.spawn(birth, &bundle)
    }

    /// Brings to life what is reserved, without components. Use it after a phase whose systems have
    /// spawned and whose queues won't be applied. [`apply`](World::apply) brings entities to life
    /// too.
    ///
    /// The birth of each entity names the phase that ends, no system, and the entity's number among
    /// those that are born. So an entity that [`spawn`](World::spawn) made in that phase may have
    /// the same birth.
    ///
    /// ```
    /// use forgeni::World;
    ///
    /// let mut world = World::new();
    /// let (spawned, queues) = world.phase(1, |_open, systems| systems[0].spawn(&[]))?;
    /// // The commands are dropped, but the handle was given.
    /// drop(queues);
    /// world.flush()?;
    /// assert!(world.contains(spawned?));
    /// # Ok::<(), Box<dyn std::error::Error>>(())
    /// ```
    ///
    /// # Errors
    ///
    /// `OutOfMemory`, only if something is reserved. Nothing has changed then.
    ///
    /// <details><summary>Contract</summary>
    ///
    /// <code style="display: block; tab-size: 4; white-space: pre-wrap">// In the words of [contracts](crate::contracts):
    /// ensures ok { [OnOk](crate::contracts::logic#OnOk) result (self.new ≡ record self.old {
    /// &#32;&#32;world = [after_births](crate::contracts::ent_world::sync#after_births) \[\] self.old.world;
    /// &#32;&#32;spawned = 0;
    /// }) }
    /// ensures flushed { [OnOk](crate::contracts::logic#OnOk) result (self.new.world.allocator.asked ≡ 0) }
    /// ensures err { [OnErr](crate::contracts::logic#OnErr) result (self.new ≡ self.old) }
    /// ensures memory { [OnErr](crate::contracts::logic#OnErr) result (0 \< [length](crate::contracts::logic#length) self.old.world.allocator.taken) }
    /// </code>
    ///
    /// </details>
    #[inline]
    pub fn flush(&mut self) -> Result<(), OutOfMemory> {
        self.world.flush()?;
        self.spawned = 0;
        Ok(())
    }
}

/// # Looking at entities
impl World {
    /// Returns the value of the entity's component, if the entity is alive and has it.
    ///
    /// ```
    /// use forgeni::{ComponentId, World};
    ///
    /// const AGE: ComponentId = ComponentId(0);
    /// const SIZE: ComponentId = ComponentId(1);
    ///
    /// let mut world = World::new();
    /// let oak = world.spawn(&[(AGE, 80)])?;
    /// assert_eq!((world.get(oak, AGE), world.get(oak, SIZE)), (Some(80), None));
    /// # Ok::<(), forgeni::AllocError>(())
    /// ```
    ///
    /// <details><summary>Contract</summary>
    ///
    /// <code style="display: block; tab-size: 4; white-space: pre-wrap">// In the words of [contracts](crate::contracts):
    /// ensures { result ≡ [value_of](crate::contracts::ent_storage::entity_map#value_of) self.now.world.entities handle id }
    /// </code>
    ///
    /// </details>
    #[must_use]
    #[inline]
    pub fn get(&self, handle: Handle, id: ComponentId) -> Option<i64> {
        self.world.get(handle, id)
    }

    /// Returns `true` if the entity is alive. It takes constant time. It returns `false` for a
    /// handle that is only reserved, for which [`Entities::contains`](crate::Entities::contains)
    /// returns `true`.
    ///
    /// ```
    /// use forgeni::World;
    ///
    /// let mut world = World::new();
    /// let oak = world.spawn(&[])?;
    /// world.despawn(oak)?;
    /// let lime = world.spawn(&[])?;
    /// // The lime has the slot of the oak, but another handle.
    /// assert!(world.contains(lime) && !world.contains(oak));
    /// # Ok::<(), Box<dyn std::error::Error>>(())
    /// ```
    ///
    /// <details><summary>Contract</summary>
    ///
    /// <code style="display: block; tab-size: 4; white-space: pre-wrap">// In the words of [contracts](crate::contracts):
    /// ensures { result ≡ [lives_in](crate::contracts::ent_world::world#lives_in) self.now.world handle }
    /// </code>
    ///
    /// </details>
    #[must_use]
    #[inline]
    pub fn contains(&self, handle: Handle) -> bool {
        self.world.contains(handle)
    }

    /// Returns the entity's components and their values, in ascending order of number, if it is
    /// alive.
    ///
    /// ```
    /// use forgeni::{ComponentId, World};
    ///
    /// let mut world = World::new();
    /// let cart = world.spawn(&[(ComponentId(7), 2), (ComponentId(3), 1)])?;
    /// let items: Vec<_> = world.items(cart).unwrap().collect();
    /// assert_eq!(items, [(ComponentId(3), 1), (ComponentId(7), 2)]);
    /// # Ok::<(), forgeni::AllocError>(())
    /// ```
    ///
    /// <details><summary>Contract</summary>
    ///
    /// <code style="display: block; tab-size: 4; white-space: pre-wrap">// In the words of [contracts](crate::contracts):
    /// ensures { result ≡ [option_map](crate::contracts::logic#option_map) [map.entries](crate::contracts::logic#FinMap.entries) ([components_of](crate::contracts::ent_storage::entity_map#components_of) self.now.world.entities handle) }
    /// </code>
    ///
    /// </details>
    #[must_use]
    #[inline]
    pub fn items(&self, handle: Handle) -> Option<Items<'_>> {
        self.world.items(handle)
    }

    /// Returns the birth of the entity, if it is alive: when it came to life, and by which system.
    ///
    /// ```
    /// use forgeni::World;
    ///
    /// let mut world = World::new();
    /// let (spawned, queues) = world.phase(3, |_open, systems| systems[2].spawn(&[]))?;
    /// world.apply(queues)?;
    /// // Frame 0, system 2, its first spawn.
    /// assert_eq!(world.birth(spawned?).map(|it| it.to_string()), Some("0.2.0".into()));
    /// # Ok::<(), Box<dyn std::error::Error>>(())
    /// ```
    ///
    /// <details><summary>Contract</summary>
    ///
    /// <code style="display: block; tab-size: 4; white-space: pre-wrap">// In the words of [contracts](crate::contracts):
    /// ensures { result ≡ [birth_of](crate::contracts::ent_storage::entity_map#birth_of) self.now.world.entities handle }
    /// </code>
    ///
    /// </details>
    #[must_use]
    #[inline]
    pub fn birth(&self, handle: Handle) -> Option<Birth> {
        self.world.birth(handle)
    }

    /// Returns the handles of all entities, ordered by birth and then by handle. It takes the time
    /// of a sort.
    ///
    /// ```
    /// use forgeni::World;
    ///
    /// let mut world = World::new();
    /// let (cart, horse) = (world.spawn(&[])?, world.spawn(&[])?);
    /// assert_eq!(world.by_birth()?, [cart, horse]);
    /// # Ok::<(), Box<dyn std::error::Error>>(())
    /// ```
    ///
    /// # Errors
    ///
    /// `OutOfMemory`: there isn't enough memory for the list. It is never returned if there are no
    /// entities.
    ///
    /// <details><summary>Contract</summary>
    ///
    /// <code style="display: block; tab-size: 4; white-space: pre-wrap">// In the words of [contracts](crate::contracts):
    /// ensures ok { [IfOk](crate::contracts::logic#IfOk) result (λ handles. [ListsAll](crate::contracts::ent_storage::birth_order#ListsAll) self.now.world.entities handles.items) }
    /// ensures memory { [OnErr](crate::contracts::logic#OnErr) result (self.now.world.entities ≢ [map.empty](crate::contracts::logic#FinMap.empty)) }
    /// </code>
    ///
    /// </details>
    #[inline]
    pub fn by_birth(&self) -> Result<Vec<Handle>, OutOfMemory> {
        self.world.by_birth()
    }
}

/// # Counts
impl World {
    /// Returns the number of living entities.
    ///
    /// ```
    /// use forgeni::World;
    ///
    /// let mut world = World::new();
    /// let (spawned, queues) = world.phase(1, |_open, systems| systems[0].spawn_many(10, &[]))?;
    /// assert_eq!((spawned?.len(), world.len()), (10, 0));
    /// world.apply(queues)?;
    /// assert_eq!(world.len(), 10);
    /// # Ok::<(), Box<dyn std::error::Error>>(())
    /// ```
    ///
    /// <details><summary>Contract</summary>
    ///
    /// <code style="display: block; tab-size: 4; white-space: pre-wrap">// In the words of [contracts](crate::contracts):
    /// ensures { result ≡ [map.len](crate::contracts::logic#FinMap.len) self.now.world.entities }
    /// </code>
    ///
    /// </details>
    #[must_use]
    #[inline]
    pub fn len(&self) -> usize {
        self.world.len()
    }

    /// Returns `true` if no entity is alive.
    ///
    /// ```
    /// use forgeni::World;
    ///
    /// let mut world = World::new();
    /// let oak = world.spawn(&[])?;
    /// world.despawn(oak)?;
    /// assert!(world.is_empty());
    /// # Ok::<(), Box<dyn std::error::Error>>(())
    /// ```
    ///
    /// <details><summary>Contract</summary>
    ///
    /// <code style="display: block; tab-size: 4; white-space: pre-wrap">// In the words of [contracts](crate::contracts):
    /// ensures { [IsTrue](crate::contracts::logic#IsTrue) result ↔ (self.now.world.entities ≡ [map.empty](crate::contracts::logic#FinMap.empty)) }
    /// </code>
    ///
    /// </details>
    #[must_use]
    #[inline]
    pub fn is_empty(&self) -> bool {
        self.world.is_empty()
    }

    /// Returns how many times the world was flushed, which is the `frame` in the births of what
    /// comes to life next. It stays at 2^64 - 1.
    ///
    /// ```
    /// use forgeni::World;
    ///
    /// let mut world = World::new();
    /// for _ in 0..3 {
    ///     let ((), queues) = world.phase(1, |_open, _systems| ())?;
    ///     world.apply(queues)?;
    /// }
    /// assert_eq!(world.frame(), 3);
    /// # Ok::<(), Box<dyn std::error::Error>>(())
    /// ```
    ///
    /// <details><summary>Contract</summary>
    ///
    /// <code style="display: block; tab-size: 4; white-space: pre-wrap">// In the words of [contracts](crate::contracts):
    /// ensures { result ≡ self.now.world.phase }
    /// </code>
    ///
    /// </details>
    #[must_use]
    #[inline]
    pub fn frame(&self) -> u64 {
        self.world.phase()
    }

    /// Returns `true` if any handle was requested since the last flush. That is the case between
    /// [`Phase::close`](crate::phases::Phase::close) and [`apply`](World::apply), if a system has
    /// spawned.
    ///
    /// ```
    /// use forgeni::World;
    ///
    /// let mut world = World::new();
    /// let (spawned, queues) = world.phase(1, |_open, systems| systems[0].spawn(&[]))?;
    /// assert!(spawned.is_ok() && world.needs_flush());
    /// world.apply(queues)?;
    /// assert!(!world.needs_flush());
    /// # Ok::<(), Box<dyn std::error::Error>>(())
    /// ```
    ///
    /// <details><summary>Contract</summary>
    ///
    /// <code style="display: block; tab-size: 4; white-space: pre-wrap">// In the words of [contracts](crate::contracts):
    /// ensures { [IsTrue](crate::contracts::logic#IsTrue) result ↔ (0 \< self.now.world.allocator.asked) }
    /// </code>
    ///
    /// </details>
    #[must_use]
    #[inline]
    pub fn needs_flush(&self) -> bool {
        self.world.needs_flush()
    }

    /// Returns the number of retired slots, which give no more handles. It takes constant time.
    ///
    /// ```
    /// use forgeni::{Limits, World};
    ///
    /// let mut world = World::with_limits(Limits::new(100, 2).unwrap());
    /// for _ in 0..2 {
    ///     let oak = world.spawn(&[])?;
    ///     world.despawn(oak)?;
    /// }
    /// // Both generations of slot 0 are used up.
    /// assert_eq!(world.retired(), 1);
    /// # Ok::<(), Box<dyn std::error::Error>>(())
    /// ```
    ///
    /// <details><summary>Contract</summary>
    ///
    /// <code style="display: block; tab-size: 4; white-space: pre-wrap">// In the words of [contracts](crate::contracts):
    /// ensures { result ≡ [retired](crate::contracts::ent_alloc::sequential#retired) self.now.world.allocator }
    /// </code>
    ///
    /// </details>
    #[must_use]
    #[inline]
    pub fn retired(&self) -> u32 {
        self.world.retired()
    }
}

impl World {
    /// Why nothing was spawned, when there isn't enough memory for the components.
    #[cold]
    fn no_bundle(&self) -> AllocError
        // ensures needs_flush { result ≡ AllocError.NeedsFlush ↔ (0 < self.now.world.allocator.asked) }
        // ensures memory { result ≡ AllocError.Memory ↔ (self.now.world.allocator.asked ≡ 0) }
    {
        if self.world.needs_flush() {
            AllocError::NeedsFlush
        } else {
            AllocError::Memory
        }
    }
}
