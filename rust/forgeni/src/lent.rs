//! What a phase lends: its reservers.

use crate::{ComponentId, Handle, OpenWorld, OtherPhase, OutOfMemory, Phased, Refused};
use crate::{ReserveError, Reserver, SharedSource};
use alloc::vec::Vec;
use core::fmt;
use core::ops::Deref;

/// A [`Reserver`] that is lent, by a [`phase`](crate::Entities::phase) of an allocator, by a
/// [`phase`](crate::World::phase) of a world, or by a pool of reservers. It has the same calls, at
/// no extra cost.
///
/// The borrower can neither keep nor replace what is lent. So the phase has all of it at its end,
/// even if a `Lent` is dropped or forgotten.
///
/// ```
/// use forgeni::{Entities, Handle, Lent, ReserveError};
///
/// fn wave(reserver: &mut Lent<'_>) -> Result<Vec<Handle>, ReserveError> {
///     reserver.reserve_many(10)
/// }
///
/// let mut entities = Entities::new();
/// entities.phase(4, |_shared, reservers| {
///     std::thread::scope(|scope| {
///         for reserver in reservers {
///             scope.spawn(|| wave(reserver));
///         }
///     });
/// })?;
/// assert_eq!(entities.reserved(), 40);
/// # Ok::<(), Box<dyn std::error::Error>>(())
/// ```
///
/// Those of a world issue commands too:
///
/// ```
/// use forgeni::{ComponentId, Handle, Lent, OpenWorld, ReserveError, World};
///
/// fn launch(commands: &mut Lent<'_, OpenWorld>) -> Result<Handle, ReserveError> {
///     commands.spawn(&[(ComponentId(0), 100)])
/// }
///
/// let mut world = World::new();
/// let (drone, queues) = world.phase(1, |_open, systems| launch(&mut systems[0]))?;
/// world.apply(queues)?;
/// assert!(world.contains(drone?));
/// # Ok::<(), Box<dyn std::error::Error>>(())
/// ```
pub struct Lent<'a, S: Phased = SharedSource>(&'a mut Reserver<S>);

impl<'a, S: Phased> Lent<'a, S> {
    pub(crate) fn of(lent: &'a mut Reserver<S>) -> Self {
        Self(lent)
    }

    /// The same, for a shorter time.
    #[cfg(feature = "std")]
    pub(crate) fn again(&mut self) -> Lent<'_, S> {
        Lent(self.0)
    }
}

/// What can be read from it.
impl<S: Phased> Deref for Lent<'_, S> {
    type Target = Reserver<S>;

    #[inline]
    fn deref(&self) -> &Reserver<S> {
        self.0
    }
}

impl<S: Phased> fmt::Debug for Lent<'_, S>
where
    Reserver<S>: fmt::Debug,
{
    fn fmt(&self, out: &mut fmt::Formatter<'_>) -> fmt::Result {
        self.0.fmt(out)
    }
}

/// What is lent has these calls that change it.
macro_rules! lends {
    (
        [$($S:ident: $Bound:path)?] $Of:ty;
        $($(#[$example:meta])* $call:ident($($name:ident: $type:ty),*) -> $returns:ty;)*
    ) => {
        impl $(<$S: $Bound>)? Lent<'_, $Of> {$(
            #[doc = concat!("The same as [`Reserver::", stringify!($call), "`].")]
            ///
            $(#[$example])*
            ///
            /// # Errors
            ///
            #[doc = concat!("Those of [`Reserver::", stringify!($call), "`].")]
            #[inline]
            pub fn $call(&mut self, $($name: $type),*) -> $returns {
                self.0.$call($($name),*)
            }
        )*}
    };
}

lends! {
    [S: Phased] S;
    /// ```
    /// use forgeni::Entities;
    ///
    /// let mut entities = Entities::new();
    /// let first = entities.phase(1, |_shared, reservers| reservers[0].reserve())??;
    /// entities.flush(&mut Vec::new())?;
    /// assert!(entities.is_alive(first));
    /// # Ok::<(), Box<dyn std::error::Error>>(())
    /// ```
    reserve() -> Result<Handle, Refused>;
    /// ```
    /// use forgeni::Entities;
    ///
    /// let mut entities = Entities::new();
    /// let wave = entities.phase(1, |_shared, reservers| reservers[0].reserve_many(10))??;
    /// assert_eq!((wave.len(), entities.reserved()), (10, 10));
    /// # Ok::<(), Box<dyn std::error::Error>>(())
    /// ```
    reserve_many(n: u32) -> Result<Vec<Handle>, ReserveError>;
    /// ```
    /// use forgeni::Entities;
    ///
    /// let (mut entities, mut bullets) = (Entities::new(), Vec::with_capacity(100));
    /// entities.phase(1, |_shared, reservers| {
    ///     (0..10).try_for_each(|_| reservers[0].reserve_into(&mut bullets, 10))
    /// })??;
    /// assert_eq!(bullets.len(), 100);
    /// # Ok::<(), Box<dyn std::error::Error>>(())
    /// ```
    reserve_into(handles: &mut Vec<Handle>, n: u32) -> Result<(), ReserveError>;
}

lends! {
    [] OpenWorld;
    /// ```
    /// use forgeni::{ComponentId, World};
    ///
    /// const AGE: ComponentId = ComponentId(0);
    ///
    /// let mut world = World::new();
    /// let (oak, queues) = world.phase(1, |_open, systems| systems[0].spawn(&[(AGE, 80)]))?;
    /// world.apply(queues)?;
    /// assert_eq!(world.get(oak?, AGE), Some(80));
    /// # Ok::<(), Box<dyn std::error::Error>>(())
    /// ```
    spawn(components: &[(ComponentId, i64)]) -> Result<Handle, ReserveError>;
    /// ```
    /// use forgeni::World;
    ///
    /// let mut world = World::new();
    /// let (sparks, queues) = world.phase(1, |_open, systems| systems[0].spawn_many(10, &[]))?;
    /// world.apply(queues)?;
    /// assert_eq!((sparks?.len(), world.len()), (10, 10));
    /// # Ok::<(), Box<dyn std::error::Error>>(())
    /// ```
    spawn_many(n: u32, components: &[(ComponentId, i64)]) -> Result<Vec<Handle>, ReserveError>;
    /// ```
    /// use forgeni::{ComponentId, World};
    ///
    /// const AGE: ComponentId = ComponentId(0);
    ///
    /// let mut world = World::new();
    /// let oak = world.spawn(&[(AGE, 80)])?;
    /// let (done, queues) = world.phase(1, |_open, systems| systems[0].insert(oak, &[(AGE, 81)]))?;
    /// done?;
    /// world.apply(queues)?;
    /// assert_eq!(world.get(oak, AGE), Some(81));
    /// # Ok::<(), Box<dyn std::error::Error>>(())
    /// ```
    insert(handle: Handle, components: &[(ComponentId, i64)]) -> Result<(), OutOfMemory>;
    /// ```
    /// use forgeni::{ComponentId, World};
    ///
    /// const LIT: ComponentId = ComponentId(0);
    ///
    /// let mut world = World::new();
    /// let lamp = world.spawn(&[(LIT, 1)])?;
    /// let (done, queues) = world.phase(1, |_open, systems| systems[0].remove(lamp, LIT))?;
    /// done?;
    /// world.apply(queues)?;
    /// assert_eq!(world.get(lamp, LIT), None);
    /// # Ok::<(), Box<dyn std::error::Error>>(())
    /// ```
    remove(handle: Handle, id: ComponentId) -> Result<(), OutOfMemory>;
    /// ```
    /// use forgeni::World;
    ///
    /// let mut world = World::new();
    /// let oak = world.spawn(&[])?;
    /// let (done, queues) = world.phase(1, |_open, systems| systems[0].despawn(oak))?;
    /// done?;
    /// world.apply(queues)?;
    /// assert!(world.is_empty());
    /// # Ok::<(), Box<dyn std::error::Error>>(())
    /// ```
    despawn(handle: Handle) -> Result<(), OutOfMemory>;
}

impl Lent<'_> {
    /// The same as [`Reserver::meet`].
    ///
    /// ```
    /// use forgeni::{Entities, Refused};
    ///
    /// let mut entities = Entities::new();
    /// entities.phase(2, |_shared, reservers| {
    ///     let [one, other] = reservers else { return Ok(None) };
    ///     let first = other.reserve()?;
    ///     // From here on `one` reserves after that.
    ///     let _same_phase = one.meet(other);
    ///     Ok::<_, Refused>(Some((first, one.reserve()?)))
    /// })??;
    /// assert_eq!(entities.reserved(), 2);
    /// # Ok::<(), Box<dyn std::error::Error>>(())
    /// ```
    ///
    /// # Errors
    ///
    /// [`OtherPhase`] if they are not of one phase. Nothing has changed then.
    #[inline]
    pub fn meet(&mut self, other: &mut Lent<'_>) -> Result<(), OtherPhase> {
        self.0.meet(other.0)
    }
}
