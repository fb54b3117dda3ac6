// Made of crates/ent_total/src/open_world.rt by rust/erase. It isn't edited by hand.

//! A world in a phase.

use alloc::vec::Vec;
use crate::phases::ending::{closed_world, lost_world, parts_of};
use crate::phases::phase::Phase;
use crate::phases::queues::Queues;
use crate::phases::world::World;
use crate::allocator::{Entities, Phased, Refused, Reserved, Source};
use crate::handles::Handle;
use crate::commands::IssuedCommands;
use crate::reserving::{SharedReserver, SharedSource};
use crate::worlds::View;

/// The source of a phase of a world. Its reservers reserve from the shared allocator of the world,
/// and each issues commands too. They take effect when the phase is closed, and their queues are
/// applied.
///
/// The order of the reservers at the close is the order in which their queues take effect, and
/// numbers the systems in births and faults. What a lost one has issued is gone, and what it has
/// reserved comes to life without components.
///
/// The world can be read, as it was when it was opened.
///
/// ```
/// use forgeni::World;
///
/// let mut world = World::new();
/// let oak = world.spawn(&[])?;
/// let (open, mut systems) = world.open(2)?;
/// std::thread::scope(|scope| {
///     for commands in &mut systems {
///         let view = open.view();
///         scope.spawn(move || {
///             if view.contains(oak) { commands.despawn(oak) } else { Ok(()) }
///         });
///     }
/// });
/// let (mut world, queues) = open.close(systems)?;
/// assert_eq!((world.apply(queues)?.faults.len(), world.len()), (1, 0));
/// # Ok::<(), Box<dyn std::error::Error>>(())
/// ```
///
/// The phase also ends without a system whose thread has panicked:
///
/// ```
/// use forgeni::World;
///
/// let (open, mut systems) = World::new().open(2)?;
/// systems[0].spawn(&[])?;
/// drop(systems.pop());
/// let (mut world, queues) = open.close_lost(systems)?;
/// assert_eq!(world.apply(queues)?.born.len(), 1);
/// # Ok::<(), Box<dyn std::error::Error>>(())
/// ```
pub struct OpenWorld {
    pub(super) world: crate::worlds::OpenWorld,
    pub(super) of_world: u64,
    pub(super) spawned: u32,
    /// Lists without elements, which have room for what all callers bring back.
    pub(super) returned: Vec<SharedReserver>,
    pub(super) queues: Vec<IssuedCommands>,
}

impl Source for OpenWorld {
    // A right to reserve, and the commands that were issued.
    type Reserver = (SharedReserver, IssuedCommands);

    #[inline]
    fn was_alive(&self, handle: Handle) -> bool {
        self.shared().was_alive(handle)
    }

    #[inline]
    fn had_row(&self, handle: Handle) -> Option<u32> {
        self.shared().had_row(handle)
    }

    #[inline]
    fn may_serve(&self, caller: &(SharedReserver, IssuedCommands), n: u32) -> bool {
        self.shared().may_serve(&caller.0, n)
    }

    #[inline(always)]
    fn serve_one(&self, caller: &mut (SharedReserver, IssuedCommands)) -> Result<Handle, Refused> {
        self.shared().serve_one(&mut caller.0)
    }

    #[inline(always)]
    fn serve_many(
        &self,
        caller: &mut (SharedReserver, IssuedCommands),
        n: u32,
    ) -> Result<Reserved<'_>, Refused> {
        self.shared().serve_many(&mut caller.0, n)
    }
}

/// It ends with the world and the queues, and takes its callers back in any order, which is that of
/// their queues.
impl Phased for OpenWorld {
    type Closed = (World, Queues);

    #[inline]
    fn callers(&self) -> usize {
        self.shared().callers()
    }

    #[inline]
    fn as_opened(&self) -> &Entities {
        self.shared().as_opened()
    }

    #[inline]
    fn may_take(&self, _callers: &[(SharedReserver, IssuedCommands)]) -> bool {
        true
    }

    #[inline]
    fn end_with_all(self, callers: Vec<(SharedReserver, IssuedCommands)>) -> (World, Queues)
        // requires own { All (λ c. IsOf self.world.shared c.0) callers.items }
        // requires all { length callers.items ≡ self.world.shared.count }
        // ensures { EndsWith IsClosed self callers.items result }
    {
        let (world, reservers, rest) = parts_of(self, callers);
        rest.with(closed_world(world, reservers))
    }

    #[inline]
    fn end_with_some(self, callers: Vec<(SharedReserver, IssuedCommands)>) -> (World, Queues)
        // requires own { All (λ c. IsOf self.world.shared c.0) callers.items }
        // requires few { length callers.items ≤ self.world.shared.count }
        // ensures { EndsWith IsClosedLost self callers.items result }
    {
        let (world, reservers, rest) = parts_of(self, callers);
        rest.with(lost_world(world, reservers))
    }
}

impl OpenWorld {
    /// The allocator from which its callers reserve.
    #[inline]
    pub(super) fn shared(&self) -> &SharedSource
        // ensures { result.now ≡ self.now.world.shared }
    {
        self.world.shared()
    }

    /// The world as it was when it was opened.
    #[inline]
    pub(super) fn view(&self) -> View<'_>
        // ensures { result ≡ view_of self.now }
    {
        self.world.view()
    }
}

/// # Looking at the world
impl Phase<OpenWorld> {
    /// Returns a view of the world, like the one that a system of a frame gets.
    ///
    /// ```
    /// use forgeni::{ComponentId, World};
    ///
    /// const AGE: ComponentId = ComponentId(0);
    ///
    /// let mut world = World::new();
    /// world.spawn(&[])?;
    /// let oak = world.spawn(&[(AGE, 80)])?;
    /// let (open, _systems) = world.open(1)?;
    /// assert_eq!(open.view().with(AGE)?, [oak]);
    /// # Ok::<(), Box<dyn std::error::Error>>(())
    /// ```
    ///
    /// <details><summary>Contract</summary>
    ///
    /// <code style="display: block; tab-size: 4; white-space: pre-wrap">// In the words of [contracts](crate::contracts):
    /// ensures { result ≡ [view_of](crate::contracts::ent_total::issuing#view_of) self.now.source }
    /// </code>
    ///
    /// </details>
    #[must_use]
    #[inline]
    pub fn view(&self) -> View<'_> {
        self.server().view()
    }
}
