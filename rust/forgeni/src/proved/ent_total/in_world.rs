// Made of crates/ent_total/src/in_world.rt by rust/erase. It isn't edited by hand.

//! A world in a phase in blocks.
use alloc::vec::Vec;
use crate::kit::vec::FallibleVec;
use crate::phases::opening::{Opening, begin};
use crate::phases::phase::Phase;
use crate::phases::share_error::ShareError;
use crate::phases::world::World;
use crate::allocator::{Entities, Phased, Refused, Reserved, Source};
use crate::in_blocks::{Deals, Ended, InBlocks};
use crate::handles::{HandedBack, Handle, OutOfMemory};
use crate::worlds::{Dealt, View, WorldRest};

/// The source of a world's phase: it serves as `S` does, and has the rest of the world.
///
/// ```
/// use forgeni::{Blocks, World};
///
/// let (phase, mut reservers) = World::new().open_in::<Blocks>(&[10; 4])?;
/// std::thread::scope(|scope| {
///     for mine in &mut reservers {
///         scope.spawn(|| mine.reserve_many(10));
///     }
/// });
/// let mut world = phase.close(reservers)?.into_world()?;
/// world.flush()?;
/// assert_eq!(world.len(), 40);
/// # Ok::<(), Box<dyn std::error::Error + Send + Sync>>(())
/// ```
pub struct InWorld<S: Deals> {
    pub(super) dealt: Dealt<S>,
    pub(super) of_world: u64,
    pub(super) spawned: u32,
}

impl<S: Deals> Source for InWorld<S> {
    type Reserver = S::Reserver;

    #[inline]
    fn was_alive(&self, handle: Handle) -> bool {
        self.dealt.dealer().was_alive(handle)
    }

    #[inline]
    fn had_row(&self, handle: Handle) -> Option<u32> {
        self.dealt.dealer().had_row(handle)
    }

    #[inline]
    fn may_serve(&self, reserver: &S::Reserver, n: u32) -> bool {
        self.dealt.dealer().may_serve(reserver, n)
    }

    #[inline(always)]
    fn serve_one(&self, reserver: &mut S::Reserver) -> Result<Handle, Refused> {
        self.dealt.dealer().serve_one(reserver)
    }

    #[inline(always)]
    fn serve_many(&self, reserver: &mut S::Reserver, n: u32) -> Result<Reserved<'_>, Refused> {
        self.dealt.dealer().serve_many(reserver, n)
    }
}

impl<S: Deals> Phased for InWorld<S> {
    type Closed = EndedWorld;

    #[inline]
    fn callers(&self) -> usize {
        self.dealt.dealer().callers()
    }

    #[inline]
    fn as_opened(&self) -> &Entities {
        self.dealt.dealer().as_opened()
    }

    #[inline]
    fn may_take(&self, reservers: &[S::Reserver]) -> bool {
        self.dealt.dealer().may_take(reservers)
    }

    #[inline]
    fn end_with_all(self, reservers: Vec<S::Reserver>) -> EndedWorld
        // requires own { All (S.serves self.source) reservers.items }
        // requires takes { S.takes self.source reservers.items }
        // requires all { length reservers.items ≡ S.count self.source }
        // ensures { IsEndOf self result (S.closes self.source reservers.items) }
    {
        let InWorld {
            dealt,
            of_world,
            spawned,
        } = self;
        let (source, rest) = dealt.into_parts();
        EndedWorld {
            ended: source.end_with_all(reservers),
            rest,
            of_world,
            spawned,
        }
    }

    #[inline]
    fn end_with_some(self, reservers: Vec<S::Reserver>) -> EndedWorld
        // requires own { All (S.serves self.source) reservers.items }
        // requires takes { S.takes self.source reservers.items }
        // requires few { length reservers.items ≤ S.count self.source }
        // ensures { IsEndOf self result (S.closes_lost self.source reservers.items) }
    {
        let InWorld {
            dealt,
            of_world,
            spawned,
        } = self;
        let (source, rest) = dealt.into_parts();
        EndedWorld {
            ended: source.end_with_some(reservers),
            rest,
            of_world,
            spawned,
        }
    }
}

/// # Looking at the world
impl<S: Deals> Phase<InWorld<S>> {
    /// Returns a view of the world, like the one that a system of a frame gets.
    ///
    /// ```
    /// use forgeni::{Blocks, ComponentId, World};
    ///
    /// const AGE: ComponentId = ComponentId(0);
    ///
    /// let mut world = World::new();
    /// let oak = world.spawn(&[(AGE, 80)])?;
    /// let (phase, _reservers) = world.open_in::<Blocks>(&[10])?;
    /// assert_eq!(phase.view().get(oak, AGE), Some(80));
    /// # Ok::<(), Box<dyn std::error::Error>>(())
    /// ```
    ///
    /// <details><summary>Contract</summary>
    ///
    /// <code style="display: block; tab-size: 4; white-space: pre-wrap">// In the words of [contracts](crate::contracts):
    /// ensures { result ≡ [view_in](crate::contracts::ent_total::in_world#view_in) self.now.source }
    /// </code>
    ///
    /// </details>
    #[must_use]
    #[inline]
    pub fn view(&self) -> View<'_> {
        self.server().view()
    }
}

impl<S: Deals> InWorld<S> {
    /// The world as it was when the phase was opened.
    #[inline]
    pub(super) fn view(&self) -> View<'_>
        // ensures { result ≡ view_in self.now }
    {
        self.dealt.view()
    }
}

impl<S: Deals> InBlocks for InWorld<S> {
    #[inline]
    fn size_of(reserver: &S::Reserver) -> u32 {
        S::size_of(reserver)
    }

    #[inline]
    fn used_of(reserver: &S::Reserver) -> u32 {
        S::used_of(reserver)
    }

    #[inline]
    fn wanted_of(reserver: &S::Reserver) -> u32 {
        S::wanted_of(reserver)
    }
}

/// Deals the front of the world's pool in blocks of these sizes, one after the other: a block is
/// smaller where the pool ends. The reservers are in the order of the sizes.
///
/// # Errors
///
/// [`HandedBack`] has the world as it was, and the first of these errors that applies:
/// [`ShareError::NeedsFlush`], [`ShareError::Count`] if the source has no form for so many blocks,
/// [`ShareError::Memory`].
///
/// <details><summary>Contract</summary>
///
/// <code style="display: block; tab-size: 4; white-space: pre-wrap">// In the words of [contracts](crate::contracts):
/// ensures world { [IfOk](crate::contracts::logic#IfOk) result (λ o.
/// &#9;[world_with](crate::contracts::ent_world::in_blocks#world_with) (S.start o.source.source) o.source.rest ≡ world.world) }
/// ensures same { [IfOk](crate::contracts::logic#IfOk) result (λ o.
/// &#9;(o.source.of_world ≡ world.number) × (o.source.spawned ≡ world.spawned)) }
/// ensures dealt { [IfOk](crate::contracts::logic#IfOk) result (λ o. [HasDealt](crate::contracts::ent_total::in_blocks#HasDealt) S.blocks S.block S.takes S.fresh
/// &#9;([length](crate::contracts::logic#length) world.world.allocator.pool) sizes.now o.source.source o.returned) }
/// ensures refused { [IsUnopened](crate::contracts::ent_total::opening#IsUnopened) world.world.allocator.asked (¬ (S.may_have ([length](crate::contracts::logic#length) sizes.now)))
/// &#9;(λ why. [IsErrAnd](crate::contracts::logic#IsErrAnd) result (λ h. h.error ≡ why)) }
/// ensures handed_back { [IfErr](crate::contracts::logic#IfErr) result (λ h. h.value ≡ world) }
/// </code>
///
/// </details>
#[inline]
pub fn open_in<S: Deals>(
    world: World,
    sizes: &[u32],
) -> Result<Opening<InWorld<S>>, HandedBack<World, ShareError>> {
    if world.needs_flush() {
        return Err(HandedBack::new(world, ShareError::NeedsFlush));
    }
    if !S::fits(sizes.len()) {
        return Err(HandedBack::new(world, ShareError::Count));
    }
    let Ok(reservers) = Vec::with_capacity_fallibly(sizes.len()) else {
        return Err(HandedBack::new(world, ShareError::Memory));
    };
    let World {
        world,
        number: of_world,
        spawned,
    } = world;
    let (dealt, callers) = match world.deal_blocks(sizes) {
        Ok(made) => made,
        Err(back) => {
            let (world, _) = back.into_parts();
            let world = World {
                world,
                number: of_world,
                spawned,
            };
            return Err(HandedBack::new(world, ShareError::Memory));
        }
    };
    let source = InWorld {
        dealt,
        of_world,
        spawned,
    };
    match begin(source, callers, reservers) {
        Ok(opening) => Ok(opening),
        Err((source, callers)) => {
            let world = source.end_with_all(callers).cancel();
            Err(HandedBack::new(world, ShareError::Memory))
        }
    }
}

/// A world whose phase in blocks has ended, in which what was used is not yet reserved.
///
/// ```
/// use forgeni::{Overflow, World};
///
/// let (phase, mut reservers) = World::new().open_in::<Overflow>(&[10])?;
/// reservers[0].reserve_many(10)?;
/// let ended = phase.close(reservers)?;
/// // Nothing was requested past the block, so no handle depends on a thread.
/// assert_eq!(ended.requested_past(), 0);
/// let mut world = ended.into_world()?;
/// world.flush()?;
/// assert_eq!(world.len(), 10);
/// # Ok::<(), Box<dyn std::error::Error + Send + Sync>>(())
/// ```
#[must_use]
pub struct EndedWorld {
    ended: Ended,
    rest: WorldRest,
    of_world: u64,
    spawned: u32,
}

/// # Getting the world
impl EndedWorld {
    /// Returns the world, in which what was used is reserved: a flush or a sync point brings it to
    /// life. What is left of the blocks is given next, in the same order.
    ///
    /// ```
    /// use forgeni::{Blocks, World};
    ///
    /// let (phase, mut reservers) = World::new().open_in::<Blocks>(&[10, 10])?;
    /// let one = reservers[1].reserve()?;
    /// let mut world = phase.close(reservers)?.into_world()?;
    /// world.flush()?;
    /// assert!(world.contains(one) && world.len() == 1);
    /// # Ok::<(), Box<dyn std::error::Error + Send + Sync>>(())
    /// ```
    ///
    /// # Errors
    ///
    /// [`HandedBack`] has this value, if an allocation fails, and for no other reason. The call can
    /// be tried again.
    ///
    /// <details><summary>Contract</summary>
    ///
    /// <code style="display: block; tab-size: 4; white-space: pre-wrap">// In the words of [contracts](crate::contracts):
    /// ensures after { [IfOk](crate::contracts::logic#IfOk) result (λ w. w.world
    /// &#9;≡ [world_after](crate::contracts::ent_world::in_blocks#world_after) ([world_with](crate::contracts::ent_world::in_blocks#world_with) self.ended.phase.start self.rest) self.ended.phase.blocks) }
    /// ensures world { [IfOk](crate::contracts::logic#IfOk) result (λ w. [IsWorld](crate::contracts::ent_world::world#IsWorld) w.world
    /// &#9;× [TakesAnew](crate::contracts::ent_blocks::ending#TakesAnew) self.ended.phase.start w.world.allocator) }
    /// ensures same { [IfOk](crate::contracts::logic#IfOk) result (λ w.
    /// &#9;(w.number ≡ self.of_world) × (w.spawned ≡ self.spawned)) }
    /// ensures ended { [IfErr](crate::contracts::logic#IfErr) result (λ h. (h.value.ended ≡ self.ended)
    /// &#9;× (h.value.of_world ≡ self.of_world) × (h.value.spawned ≡ self.spawned)) }
    /// ensures rest { [IfErr](crate::contracts::logic#IfErr) result (λ h. (h.value.rest.phase ≡ self.rest.phase)
    /// &#9;× (h.value.rest.store.entities ≡ self.rest.store.entities)) }
    /// </code>
    ///
    /// </details>
    #[inline]
    pub fn into_world(self) -> Result<World, HandedBack<Self, OutOfMemory>> {
        let EndedWorld {
            ended,
            rest,
            of_world,
            spawned,
        } = self;
        match rest.settle(ended) {
            Ok(world) => Ok(World {
                world,
                number: of_world,
                spawned,
            }),
            Err(back) => {
                let ((rest, ended), error) = back.into_parts();
                let world = EndedWorld {
                    ended,
                    rest,
                    of_world,
                    spawned,
                };
                Err(HandedBack::new(world, error))
            }
        }
    }

    /// Returns the world as it was when the phase was opened: nothing is reserved.
    ///
    /// ```
    /// use forgeni::{Blocks, World};
    ///
    /// let (phase, mut reservers) = World::new().open_in::<Blocks>(&[10])?;
    /// let first = reservers[0].reserve()?;
    /// let mut world = phase.close(reservers)?.cancel();
    /// // The handle is given again, so it must not be used any more.
    /// assert_eq!(world.spawn(&[])?, first);
    /// # Ok::<(), Box<dyn std::error::Error + Send + Sync>>(())
    /// ```
    ///
    /// <details><summary>Contract</summary>
    ///
    /// <code style="display: block; tab-size: 4; white-space: pre-wrap">// In the words of [contracts](crate::contracts):
    /// ensures world { result.world ≡ [world_with](crate::contracts::ent_world::in_blocks#world_with) self.ended.phase.start self.rest }
    /// ensures same { (result.number ≡ self.of_world) × (result.spawned ≡ self.spawned) }
    /// </code>
    ///
    /// </details>
    #[inline]
    pub fn cancel(self) -> World {
        World {
            world: self.rest.with(self.ended.cancel()),
            number: self.of_world,
            spawned: self.spawned,
        }
    }
}

/// # What went past the blocks
impl EndedWorld {
    /// Returns the number of handles that were requested past a block, as
    /// [`Ended::requested_past`](crate::in_blocks::Ended::requested_past) does.
    ///
    /// ```
    /// use forgeni::{Overflow, World};
    ///
    /// let (phase, mut reservers) = World::new().open_in::<Overflow>(&[10, 10])?;
    /// reservers[0].reserve_many(10)?;
    /// reservers[0].reserve_many(5)?;
    /// assert_eq!(phase.close(reservers)?.requested_past(), 5);
    /// # Ok::<(), Box<dyn std::error::Error + Send + Sync>>(())
    /// ```
    ///
    /// <details><summary>Contract</summary>
    ///
    /// <code style="display: block; tab-size: 4; white-space: pre-wrap">// In the words of [contracts](crate::contracts):
    /// ensures { result ≡ self.now.ended.requested }
    /// </code>
    ///
    /// </details>
    #[inline]
    pub fn requested_past(&self) -> u64 {
        self.ended.requested_past()
    }
}
