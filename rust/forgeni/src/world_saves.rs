//! Worlds: snapshots, saves and phases. The page of a type has its `impl` blocks in the order of
//! the modules, and these come after the everyday calls of a world.

use crate::numbers::next_number;
use crate::phase::opened;
use crate::phases::{clone_world, clone_world_from, open, open_in, read_world, read_world_within};
use crate::{Deals, EndedWorld, HandedBack, InWorld, OpenWorld, OutOfMemory};
use crate::{Phase, Reserver, ShareError, World, WorldImageFault};
use alloc::vec::Vec;

/// # Snapshots
impl World {
    /// Returns another world in the same state: the same entities are alive, with the same births
    /// and components, the same handles are reserved, and the same calls return the same results.
    /// From then on the two are independent.
    ///
    /// Neither accepts queues from the other's phases: [`SyncError::OtherWorld`].
    ///
    /// ```
    /// use forgeni::World;
    ///
    /// let mut world = World::new();
    /// let cart = world.spawn(&[])?;
    /// let mut clone = world.try_clone()?;
    /// clone.despawn(cart)?;
    /// assert!(world.contains(cart) && !clone.contains(cart));
    /// # Ok::<(), Box<dyn std::error::Error>>(())
    /// ```
    ///
    /// # Errors
    ///
    /// [`OutOfMemory`], but not if no entity was ever alive.
    ///
    /// [`SyncError::OtherWorld`]: crate::SyncError::OtherWorld
    pub fn try_clone(&self) -> Result<Self, OutOfMemory> {
        clone_world(self, next_number())
    }

    /// Copies the state of another world into this one, like [`try_clone`](Self::try_clone). What
    /// this one had before is gone, and the queues of its earlier phases are refused.
    ///
    /// It uses the room that this one has, and never gives it back. So a world that another one is
    /// cloned into again and again takes memory only as that one grows. With it, a game that
    /// predicts goes back to a frame that the server has confirmed:
    ///
    /// ```
    /// use forgeni::World;
    ///
    /// let mut world = World::new();
    /// let cart = world.spawn(&[])?;
    /// let mut confirmed = World::new();
    /// confirmed.try_clone_from(&world)?;
    /// world.despawn(cart)?;
    /// world.try_clone_from(&confirmed)?;
    /// assert!(world.contains(cart));
    /// # Ok::<(), Box<dyn std::error::Error>>(())
    /// ```
    ///
    /// Handles that were given since the clone was made will be given again. Keep none of them.
    ///
    /// # Errors
    ///
    /// [`OutOfMemory`]. Nothing has changed then. It isn't returned if no entity of the source was
    /// ever alive.
    pub fn try_clone_from(&mut self, source: &Self) -> Result<(), OutOfMemory> {
        clone_world_from(self, source, next_number())
    }
}

/// # Saves
impl World {
    /// Reads the world whose image is exactly these bytes.
    ///
    /// The bytes may come from anywhere. An image that [`write_image`](Self::write_image) wrote is
    /// read as the same world, which gives no handle that was given before. It refuses the queues
    /// of phases that were opened before: [`SyncError::OtherWorld`]. Bytes that aren't the image of
    /// a world are refused. The call takes at most eight bytes of memory for each byte, plus 16
    /// KiB. It takes none before it has compared the number of slots with the length of the
    /// allocator's part.
    ///
    /// A forged image can make the next [`flush`](Self::flush) take all memory, since it can say
    /// that each of 2^32 - 1 slots is reserved. For untrusted bytes, use
    /// [`read_image_within`](Self::read_image_within).
    ///
    /// ```
    /// use forgeni::{World, WorldImageFault};
    ///
    /// let mut image = Vec::new();
    /// World::new().write_image(&mut image)?;
    /// assert!(World::read_image(&image)?.is_empty());
    /// image[0] = 0;
    /// assert_eq!(World::read_image(&image).err(), Some(WorldImageFault::Magic));
    /// # Ok::<(), Box<dyn std::error::Error>>(())
    /// ```
    ///
    /// # Errors
    ///
    /// Each error except [`Memory`](WorldImageFault::Memory) means that these bytes aren't the
    /// image of any world, and names the first fault in them.
    ///
    /// [`SyncError::OtherWorld`]: crate::SyncError::OtherWorld
    pub fn read_image(bytes: &[u8]) -> Result<Self, WorldImageFault> {
        read_world(bytes, next_number())
    }

    /// Reads the world whose image is exactly these bytes, if it has at most `most` slots after its
    /// next [`flush`](Self::flush).
    ///
    /// The image of a world can say that 4,294,967,295 handles are reserved. `read_image` reads it,
    /// and the next flush brings them to life. So this is the call for untrusted bytes: it takes no
    /// more memory than `read_image`, and the next flush no more than `most` slots and `most`
    /// entities do.
    ///
    /// ```
    /// use forgeni::{World, WorldImageFault};
    ///
    /// let (mut world, mut image) = (World::new(), Vec::new());
    /// for _ in 0..10 {
    ///     world.spawn(&[])?;
    /// }
    /// world.write_image(&mut image)?;
    /// assert_eq!(World::read_image_within(&image, 10)?.len(), 10);
    /// let refused = World::read_image_within(&image, 9).err();
    /// assert_eq!(refused, Some(WorldImageFault::Bound { slots: 10 }));
    /// # Ok::<(), Box<dyn std::error::Error>>(())
    /// ```
    ///
    /// # Errors
    ///
    /// Those of [`read_image`](Self::read_image), and then [`Bound`](WorldImageFault::Bound) if
    /// there would be more slots.
    pub fn read_image_within(bytes: &[u8], most: u32) -> Result<Self, WorldImageFault> {
        read_world_within(bytes, next_number(), most)
    }
}

/// # Opening it
impl World {
    /// Opens the world for `count` systems, 1 to 1,024, each with a [`Reserver`] that also issues
    /// its commands. They can go to other threads. [`Phase::close`] gives the world back, with the
    /// queues of the systems.
    ///
    /// ```
    /// use forgeni::{ComponentId, World};
    ///
    /// let (open, mut systems) = World::new().open(2)?;
    /// let cart = systems[0].spawn(&[(ComponentId(0), 5)])?;
    /// systems[1].insert(cart, &[(ComponentId(1), 6)])?;
    /// let (mut world, queues) = open.close(systems)?;
    /// world.apply(queues)?;
    /// assert_eq!(world.get(cart, ComponentId(1)), Some(6));
    /// # Ok::<(), Box<dyn std::error::Error>>(())
    /// ```
    ///
    /// A world that is open can't be changed:
    ///
    /// ```compile_fail
    /// let mut world = forgeni::World::new();
    /// let (open, systems) = world.open(1).unwrap();
    /// world.spawn(&[]);
    /// ```
    ///
    /// # Errors
    ///
    /// [`HandedBack`] has the world as it was, and the first of these errors that applies:
    /// [`ShareError::NeedsFlush`], [`ShareError::Count`], [`ShareError::Memory`].
    ///
    /// # Aborts
    ///
    /// Rust's `Arc` ends the process if memory runs out. So the call first allocates and frees as
    /// much memory, and the process ends only if another thread takes it in between.
    pub fn open(
        self,
        count: usize,
    ) -> Result<(Phase<OpenWorld>, Vec<Reserver<OpenWorld>>), HandedBack<World, ShareError>> {
        opened(open(self, count), |(world, _queues)| world)
    }

    /// Opens the world in blocks of these sizes: each caller gets a reserver of its own block, so
    /// its handles don't depend on other callers or on threads. A block is smaller if the world has
    /// no more handles. [`Phase::close`] ends the phase with [`EndedWorld`], which gives the world
    /// back.
    ///
    /// In [`Blocks`](crate::Blocks) a request for more than is left of a block is refused.
    /// [`Overflow`](crate::Overflow) shares the handles behind the blocks: a reserver whose block
    /// is used up goes on to them, so it is refused only if the world has no more.
    /// [`EndedWorld::requested_past`] counts the handles that were requested there: if it is 0, no
    /// handle depends on a thread.
    ///
    /// Callers can be systems: [`fill_in_blocks`](crate::fill_in_blocks) runs them in `Blocks`.
    /// Then [`apply`](Self::apply) takes their queues.
    ///
    /// ```
    /// use forgeni::{Blocks, World};
    ///
    /// let (phase, mut reservers) = World::new().open_in::<Blocks>(&[64, 64])?;
    /// let one = reservers[1].reserve()?;
    /// assert_eq!(one.index(), 64);
    /// let mut world = phase.close(reservers)?.into_world()?;
    /// world.flush()?;
    /// assert!(world.contains(one));
    /// // What was left of the blocks is given next, in the same order.
    /// assert_eq!(world.spawn(&[])?.index(), 0);
    /// # Ok::<(), Box<dyn std::error::Error + Send + Sync>>(())
    /// ```
    ///
    /// With callers that go on past their blocks:
    ///
    /// ```
    /// use forgeni::{Overflow, World};
    ///
    /// let (phase, mut reservers) = World::new().open_in::<Overflow>(&[2, 2])?;
    /// let wave = reservers[0].reserve_many(2)?;
    /// let past = reservers[0].reserve()?;
    /// assert_eq!((wave[1].index(), past.index()), (1, 4));
    /// let ended = phase.close(reservers)?;
    /// assert_eq!(ended.requested_past(), 1);
    /// let mut world = ended.into_world()?;
    /// world.flush()?;
    /// assert!(world.len() == 3 && world.contains(past));
    /// # Ok::<(), Box<dyn std::error::Error + Send + Sync>>(())
    /// ```
    ///
    /// # Errors
    ///
    /// [`HandedBack`] has the world as it was, and the first of these errors that applies:
    /// [`ShareError::NeedsFlush`], [`ShareError::Count`] for more than 1,023 blocks of an
    /// [`Overflow`](crate::Overflow), [`ShareError::Memory`].
    ///
    /// # Aborts
    ///
    /// The same as for [`open`](Self::open).
    pub fn open_in<S: Deals>(
        self,
        sizes: &[u32],
    ) -> Result<(Phase<InWorld<S>>, Vec<Reserver<InWorld<S>>>), HandedBack<World, ShareError>> {
        opened(open_in(self, sizes), EndedWorld::cancel)
    }
}
