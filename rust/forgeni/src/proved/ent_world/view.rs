// Made of crates/ent_world/src/view.rt by rust/erase. It isn't edited by hand.

use alloc::vec::Vec;
use crate::worlds::rows::place_of;
use crate::allocator::Entities;
use crate::handles::{Birth, ComponentId, Handle, OutOfMemory};
use crate::components::Rows;

/// What a system can read of a world while others reserve: the world as it was when it was opened.
///
/// ```
/// use forgeni::{run_frame, ComponentId, OutOfMemory, StdThreads, SystemCommands, View, World};
///
/// const HEAT: ComponentId = ComponentId(0);
///
/// fn warn(view: &View<'_>, commands: &mut SystemCommands<'_>) -> Result<(), OutOfMemory> {
///     let hot = view.with(HEAT)?;
///     let hot = hot.iter().filter(|it| view.get(**it, HEAT) > Some(90));
///     hot.map(|it| commands.despawn(*it)).collect()
/// }
///
/// let mut world = World::new();
/// world.spawn(&[(HEAT, 95)])?;
/// world.spawn(&[(HEAT, 20)])?;
/// run_frame(&StdThreads, &mut world, &[warn], 1)?;
/// assert_eq!(world.len(), 1);
/// # Ok::<(), Box<dyn std::error::Error>>(())
/// ```
pub struct View<'a> {
    entities: &'a Entities,
    storage: &'a Rows,
    phase: u64,
}

impl<'a> View<'a> {
    /// A view of the entities in the storage, whose places the opened allocator has as rows.
    #[inline]
    pub(super) fn new(entities: &'a Entities, storage: &'a Rows, phase: u64) -> Self
        // requires { AreRows entities.now.rows storage.now.places storage.now.entities }
        // ensures { result ≡ record { phase = phase; entities = storage.now.entities } }
    {
        View {
            entities,
            storage,
            phase,
        }
    }

    /// Returns `true` if the entity is alive.
    ///
    /// ```
    /// use forgeni::World;
    ///
    /// let mut world = World::new();
    /// let (oak, lime) = (world.spawn(&[])?, world.spawn(&[])?);
    /// world.despawn(lime)?;
    /// let (open, _systems) = world.open(1)?;
    /// assert!(open.view().contains(oak) && !open.view().contains(lime));
    /// # Ok::<(), Box<dyn std::error::Error>>(())
    /// ```
    ///
    /// <details><summary>Contract</summary>
    ///
    /// <code style="display: block; tab-size: 4; white-space: pre-wrap">// In the words of [contracts](crate::contracts):
    /// ensures { result ≡ [map.contains_key](crate::contracts::logic#FinMap.contains_key) self.now.entities handle }
    /// </code>
    ///
    /// </details>
    #[inline]
    pub fn contains(&self, handle: Handle) -> bool {
        place_of(self.entities, handle).is_some()
    }

    /// Returns the value of the entity's component, if the entity is alive and has it.
    ///
    /// ```
    /// use forgeni::{ComponentId, World};
    ///
    /// const AGE: ComponentId = ComponentId(0);
    /// const SIZE: ComponentId = ComponentId(1);
    ///
    /// let mut world = World::new();
    /// let oak = world.spawn(&[(AGE, 80)])?;
    /// let (open, _systems) = world.open(1)?;
    /// assert_eq!((open.view().get(oak, AGE), open.view().get(oak, SIZE)), (Some(80), None));
    /// # Ok::<(), Box<dyn std::error::Error>>(())
    /// ```
    ///
    /// <details><summary>Contract</summary>
    ///
    /// <code style="display: block; tab-size: 4; white-space: pre-wrap">// In the words of [contracts](crate::contracts):
    /// ensures { result ≡ [value_of](crate::contracts::ent_storage::entity_map#value_of) self.now.entities handle id }
    /// </code>
    ///
    /// </details>
    #[inline]
    pub fn get(&self, handle: Handle, id: ComponentId) -> Option<i64> {
        let place = place_of(self.entities, handle)?;
        self.storage.get_at(place, handle, id)
    }

    /// Returns the birth of the entity, if it is alive: when it came to life, and by which system.
    ///
    /// ```
    /// use forgeni::World;
    ///
    /// let mut world = World::new();
    /// let (spawned, queues) = world.phase(2, |_open, systems| systems[1].spawn(&[]))?;
    /// world.apply(queues)?;
    /// let (open, _systems) = world.open(1)?;
    /// // The first one that system 1 spawned in frame 0.
    /// let birth = open.view().birth(spawned?);
    /// assert_eq!(birth.map(|it| (it.frame, it.system, it.ordinal)), Some((0, 1, 0)));
    /// # Ok::<(), Box<dyn std::error::Error>>(())
    /// ```
    ///
    /// <details><summary>Contract</summary>
    ///
    /// <code style="display: block; tab-size: 4; white-space: pre-wrap">// In the words of [contracts](crate::contracts):
    /// ensures { result ≡ [birth_of](crate::contracts::ent_storage::entity_map#birth_of) self.now.entities handle }
    /// </code>
    ///
    /// </details>
    #[inline]
    pub fn birth(&self, handle: Handle) -> Option<Birth> {
        let place = place_of(self.entities, handle)?;
        Some(self.storage.birth_at(place, handle))
    }

    /// Returns the handles of the entities that have the component, ordered by birth and then by
    /// handle.
    ///
    /// ```
    /// use forgeni::{run_frame, ComponentId, OutOfMemory, StdThreads, SystemCommands, View, World};
    ///
    /// const AGE: ComponentId = ComponentId(0);
    ///
    /// fn count(view: &View<'_>, _: &mut SystemCommands<'_>) -> Result<(), OutOfMemory> {
    ///     assert_eq!(view.with(AGE)?.len(), 1);
    ///     Ok(())
    /// }
    ///
    /// let mut world = World::new();
    /// world.spawn(&[(AGE, 80)])?;
    /// world.spawn(&[])?;
    /// run_frame(&StdThreads, &mut world, &[count], 1)?;
    /// # Ok::<(), Box<dyn std::error::Error>>(())
    /// ```
    ///
    /// # Errors
    ///
    /// `Memory`: there isn't enough memory for the list. It is never returned if no entity has the
    /// component.
    ///
    /// <details><summary>Contract</summary>
    ///
    /// <code style="display: block; tab-size: 4; white-space: pre-wrap">// In the words of [contracts](crate::contracts):
    /// ensures ok { [IfOk](crate::contracts::logic#IfOk) result (λ handles. [ListsWith](crate::contracts::ent_storage::birth_order#ListsWith) id self.now.entities handles.items) }
    /// ensures memory { [OnErr](crate::contracts::logic#OnErr) result
    /// &#9;((handle : [HandleValue](crate::contracts::ent_handle::handle#Handle)) × [IsSome](crate::contracts::logic#IsSome) ([value_of](crate::contracts::ent_storage::entity_map#value_of) self.now.entities handle id)) }
    /// </code>
    ///
    /// </details>
    #[inline]
    pub fn with(&self, id: ComponentId) -> Result<Vec<Handle>, OutOfMemory> {
        self.storage.with(id)
    }

    /// Returns the handles of all entities, ordered by birth and then by handle. It takes the time
    /// of a sort.
    ///
    /// ```
    /// use forgeni::World;
    ///
    /// let mut world = World::new();
    /// let (oak, lime) = (world.spawn(&[])?, world.spawn(&[])?);
    /// world.despawn(oak)?;
    /// let elm = world.spawn(&[])?;
    /// let (open, _systems) = world.open(1)?;
    /// // The elm has the slot of the oak, but was born last.
    /// assert_eq!(open.view().by_birth()?, [lime, elm]);
    /// # Ok::<(), Box<dyn std::error::Error>>(())
    /// ```
    ///
    /// # Errors
    ///
    /// `Memory`: there isn't enough memory for the list. It is never returned if there are no
    /// entities.
    ///
    /// <details><summary>Contract</summary>
    ///
    /// <code style="display: block; tab-size: 4; white-space: pre-wrap">// In the words of [contracts](crate::contracts):
    /// ensures ok { [IfOk](crate::contracts::logic#IfOk) result (λ handles. [ListsAll](crate::contracts::ent_storage::birth_order#ListsAll) self.now.entities handles.items) }
    /// ensures memory { [OnErr](crate::contracts::logic#OnErr) result (self.now.entities ≢ [map.empty](crate::contracts::logic#FinMap.empty)) }
    /// </code>
    ///
    /// </details>
    #[inline]
    pub fn by_birth(&self) -> Result<Vec<Handle>, OutOfMemory> {
        self.storage.by_birth()
    }

    /// Returns the handle of the entity with that birth, if there is one. If several entities have
    /// the birth, it returns the least of their handles.
    ///
    /// It doesn't allocate, and takes time for each entity.
    ///
    /// ```
    /// use forgeni::{Birth, World};
    ///
    /// // A name that is the same on each machine, whatever the handle is.
    /// let birth = Birth { frame: 0, system: 3, ordinal: 0 };
    /// let mut world = World::new();
    /// let oak = world.spawn_with_birth(birth, &[])?;
    /// let (open, _systems) = world.open(1)?;
    /// assert_eq!(open.view().of_birth(birth), Some(oak));
    /// # Ok::<(), Box<dyn std::error::Error>>(())
    /// ```
    ///
    /// <details><summary>Contract</summary>
    ///
    /// <code style="display: block; tab-size: 4; white-space: pre-wrap">// In the words of [contracts](crate::contracts):
    /// ensures found { [IfSome](crate::contracts::logic#IfSome) result (λ handle.
    /// &#9;[birth_of](crate::contracts::ent_storage::entity_map#birth_of) self.now.entities handle ≡ [Some](crate::contracts::logic#Some) birth) }
    /// ensures least { [IfSome](crate::contracts::logic#IfSome) result (λ handle. (other : [HandleValue](crate::contracts::ent_handle::handle#Handle))
    /// &#9;→ [birth_of](crate::contracts::ent_storage::entity_map#birth_of) self.now.entities other ≡ [Some](crate::contracts::logic#Some) birth
    /// &#9;→ [handle_cmp](crate::contracts::ent_handle::handle#handle_cmp) handle other ≢ Greater) }
    /// ensures none { [IfNone](crate::contracts::logic#IfNone) result ((handle : [HandleValue](crate::contracts::ent_handle::handle#Handle))
    /// &#9;→ [birth_of](crate::contracts::ent_storage::entity_map#birth_of) self.now.entities handle ≢ [Some](crate::contracts::logic#Some) birth) }
    /// </code>
    ///
    /// </details>
    #[inline]
    pub fn of_birth(&self, birth: Birth) -> Option<Handle> {
        self.storage.of_birth(birth)
    }

    /// Returns how many times the world was flushed before it was opened.
    ///
    /// ```
    /// use forgeni::World;
    ///
    /// let mut world = World::new();
    /// world.flush()?;
    /// world.flush()?;
    /// let (open, _systems) = world.open(1)?;
    /// assert_eq!(open.view().phase(), 2);
    /// # Ok::<(), Box<dyn std::error::Error>>(())
    /// ```
    ///
    /// <details><summary>Contract</summary>
    ///
    /// <code style="display: block; tab-size: 4; white-space: pre-wrap">// In the words of [contracts](crate::contracts):
    /// ensures { result ≡ self.now.phase }
    /// </code>
    ///
    /// </details>
    #[inline]
    pub fn phase(&self) -> u64 {
        self.phase
    }
}
