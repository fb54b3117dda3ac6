//! Births and deaths in order. Hand-written: it lists what the program says, and decides nothing.

use crate::follows::Follows;
use crate::handle::Handle;
use alloc::collections::VecDeque;

/// The birth or the death of an entity.
///
/// ```
/// use forgeni::{Change, Entities, History};
///
/// let (mut entities, mut history) = (Entities::new(), History::new());
/// let ship = entities.alloc()?;
/// history.born(&[ship]);
/// entities.free(ship)?;
/// history.died(ship);
/// assert!(history.since(0).unwrap().eq([Change::Born(ship), Change::Died(ship)]));
/// # Ok::<(), Box<dyn std::error::Error>>(())
/// ```
#[derive(Clone, Copy, Debug, PartialEq, Eq, Hash)]
pub enum Change {
    /// The handle is alive from here on.
    Born(Handle),
    /// The handle isn't alive any more.
    Died(Handle),
}

/// Births and deaths in order, each with its tick, for code that mirrors the living entities: a
/// renderer, or a physics engine.
///
/// The program reports what is born, from the list that a flush filled. For deaths, a `History`
/// [`Follows`] the entities, as a map does: [despawn](Follows::despawn) through a tuple that
/// includes it. Ticks are the program's own, like those of [`Tracked`](crate::Tracked).
///
/// ```
/// use forgeni::{Change, Entities, Follows, HandleMap, History};
///
/// let (mut entities, mut history) = (Entities::new(), History::new());
/// let mut places = HandleMap::new();
/// let (mut mirror, mut unseen) = (Vec::new(), 0);
/// for tick in 0..3 {
///     history.begin(tick);
///     let ship = entities.alloc()?;
///     history.born(&[ship]);
///     places.insert(ship, [0.0, 0.0])?;
///     if tick == 1 {
///         (&mut places, &mut history).despawn(&mut entities, ship)?;
///     }
///     match history.since(unseen) {
///         Some(changes) => changes.for_each(|change| match change {
///             Change::Born(one) => mirror.push(one),
///             Change::Died(one) => mirror.retain(|it| *it != one),
///         }),
///         None => mirror = entities.iter().collect(),
///     }
///     unseen = tick + 1;
///     history.forget_before(unseen);
/// }
/// assert!(mirror.iter().eq(&[places.keys().next().unwrap(), places.keys().last().unwrap()]));
/// # Ok::<(), Box<dyn std::error::Error + Send + Sync>>(())
/// ```
///
/// No call fails: if memory runs out, or there is more than the limit, the list loses its first
/// changes, and [`since`](Self::since) says so.
#[derive(Clone, Debug)]
pub struct History {
    changes: VecDeque<(u64, Change)>,
    limit: usize,
    tick: u64,
    /// The last tick with a change that may be missing.
    lost: Option<u64>,
}

impl History {
    /// Creates a history without changes and without a limit, at tick 0. It doesn't allocate.
    ///
    /// ```
    /// use forgeni::History;
    ///
    /// let history = History::new();
    /// assert!(history.is_empty() && history.tick() == 0);
    /// ```
    #[must_use]
    pub const fn new() -> Self {
        Self::with_limit(usize::MAX)
    }

    /// Creates a history that keeps at most that many changes, the latest ones. It doesn't
    /// allocate.
    ///
    /// ```
    /// use forgeni::{Handle, History};
    ///
    /// let ship = Handle::new(0, 1).unwrap();
    /// let mut history = History::with_limit(2);
    /// for tick in 1..=3 {
    ///     history.begin(tick);
    ///     history.born(&[ship]);
    /// }
    /// assert_eq!(history.len(), 2);
    /// // The change of tick 1 is lost, so only those that came later are listed.
    /// assert!(history.since(1).is_none());
    /// assert_eq!(history.since(2).unwrap().count(), 2);
    /// ```
    #[must_use]
    pub const fn with_limit(limit: usize) -> Self {
        Self {
            changes: VecDeque::new(),
            limit,
            tick: 0,
            lost: None,
        }
    }

    /// Sets the tick of the changes that follow. Ticks don't go back: one that is less than the
    /// current tick changes nothing.
    ///
    /// ```
    /// use forgeni::History;
    ///
    /// let mut history = History::new();
    /// history.begin(7);
    /// history.begin(3);
    /// assert_eq!(history.tick(), 7);
    /// ```
    pub fn begin(&mut self, tick: u64) {
        self.tick = self.tick.max(tick);
    }

    /// Returns the current tick.
    ///
    /// ```
    /// use forgeni::History;
    ///
    /// let mut history = History::new();
    /// history.begin(7);
    /// // What a renderer asks for in its next frame.
    /// assert!(history.since(history.tick() + 1).is_some_and(|changes| changes.len() == 0));
    /// ```
    #[must_use]
    pub fn tick(&self) -> u64 {
        self.tick
    }

    /// Lists births: what [`Entities::flush`](crate::Entities::flush) or
    /// [`alloc_many`](crate::Entities::alloc_many) brought to life.
    ///
    /// ```
    /// use forgeni::{Entities, History};
    ///
    /// let (mut entities, mut history, mut born) = (Entities::new(), History::new(), Vec::new());
    /// entities.request_many(3)?;
    /// entities.flush(&mut born)?;
    /// history.born(&born);
    /// assert_eq!(history.len(), 3);
    /// # Ok::<(), Box<dyn std::error::Error>>(())
    /// ```
    pub fn born(&mut self, handles: &[Handle]) {
        handles.iter().for_each(|one| self.push(Change::Born(*one)));
    }

    /// Lists a death. [`forget`](Follows::forget) does the same.
    ///
    /// ```
    /// use forgeni::{Change, Handle, History};
    ///
    /// let ship = Handle::new(0, 1).unwrap();
    /// let mut history = History::new();
    /// history.died(ship);
    /// assert!(history.since(0).unwrap().eq([Change::Died(ship)]));
    /// ```
    pub fn died(&mut self, handle: Handle) {
        self.push(Change::Died(handle));
    }

    fn push(&mut self, change: Change) {
        while self.changes.len() >= self.limit || self.changes.try_reserve(1).is_err() {
            let Some((tick, _)) = self.changes.pop_front() else {
                self.lost = Some(self.tick);
                return;
            };
            self.lost = self.lost.max(Some(tick));
        }
        self.changes.push_back((self.tick, change));
    }

    /// Returns an iterator over the changes of this tick and later ones, in order.
    ///
    /// Returns `None` if the list may lack some of them. Then mirror all [living
    /// entities](crate::Entities::iter) again.
    ///
    /// ```
    /// use forgeni::{Handle, History};
    ///
    /// let [ship, drone] = [Handle::new(0, 1).unwrap(), Handle::new(1, 1).unwrap()];
    /// let mut history = History::new();
    /// history.born(&[ship]);
    /// history.begin(1);
    /// history.born(&[drone]);
    /// assert_eq!(history.since(0).unwrap().len(), 2);
    /// assert_eq!(history.since(1).unwrap().len(), 1);
    /// ```
    #[must_use]
    pub fn since(
        &self,
        tick: u64,
    ) -> Option<impl DoubleEndedIterator<Item = Change> + ExactSizeIterator + Clone> {
        let first = self.changes.partition_point(|(at, _)| *at < tick);
        let changes = self.changes.range(first..).map(|(_, change)| *change);
        (Some(tick) > self.lost).then_some(changes)
    }

    /// Drops the changes before this tick, which are no longer needed. The room stays.
    ///
    /// ```
    /// use forgeni::{Handle, History};
    ///
    /// let mut history = History::new();
    /// history.born(&[Handle::new(0, 1).unwrap()]);
    /// history.forget_before(1);
    /// assert!(history.is_empty() && history.since(0).is_none());
    /// ```
    pub fn forget_before(&mut self, tick: u64) {
        let end = self.changes.partition_point(|(at, _)| *at < tick);
        self.changes.drain(..end);
        self.lost = self.lost.max(tick.checked_sub(1));
    }

    /// Starts again at this tick, for a program that went back to a snapshot or loaded a save, so
    /// that the living entities aren't those that were listed. Ticks still go up: for this tick and
    /// those before it, [`since`](Self::since) returns `None`.
    ///
    /// ```
    /// use forgeni::{Entities, History};
    ///
    /// let (mut entities, mut history) = (Entities::new(), History::new());
    /// let before = entities.try_clone()?;
    /// history.born(&[entities.alloc()?]);
    /// entities.try_clone_from(&before)?;
    /// history.restart(1);
    /// assert!(history.since(0).is_none() && history.since(2).is_some());
    /// # Ok::<(), Box<dyn std::error::Error>>(())
    /// ```
    pub fn restart(&mut self, tick: u64) {
        self.begin(tick);
        self.changes.clear();
        self.lost = Some(self.tick);
    }

    /// Returns the number of changes.
    ///
    /// ```
    /// use forgeni::{Entities, History};
    ///
    /// let mut history = History::new();
    /// history.born(&Entities::new().alloc_many(5)?);
    /// assert_eq!(history.len(), 5);
    /// # Ok::<(), forgeni::AllocError>(())
    /// ```
    #[must_use]
    pub fn len(&self) -> usize {
        self.changes.len()
    }

    /// Returns `true` if it has no changes.
    ///
    /// ```
    /// use forgeni::{Entities, History};
    ///
    /// let mut history = History::new();
    /// history.born(&Entities::new().alloc_many(5)?);
    /// history.forget_before(1);
    /// assert!(history.is_empty());
    /// # Ok::<(), forgeni::AllocError>(())
    /// ```
    #[must_use]
    pub fn is_empty(&self) -> bool {
        self.changes.is_empty()
    }
}

impl Default for History {
    fn default() -> Self {
        Self::new()
    }
}

/// Lists the death of what it forgets.
impl Follows for History {
    fn forget(&mut self, handle: Handle) {
        self.died(handle);
    }
}
