// Made of crates/ent_log/src/sync_point.rt by rust/erase. It isn't edited by hand.

use alloc::vec::Vec;
use crate::logs::begin_error::BeginError;
use crate::logs::entry::Entry;
use crate::logs::handing::hand_on;
use crate::logs::log::Log;
use crate::logs::rest::Rest;
use crate::allocator::Entities;
use crate::handles::{Handle, OutOfMemory};
use core::mem;

/// A sync point of logs: the entries that are still to be passed on.
///
/// [`begin`](Self::begin) brings to life what is reserved, and [`apply`](Self::apply) passes on the
/// entries. It doesn't own the allocator, so the allocator isn't lost if a caller returns early.
/// The entries that are left are dropped then.
///
/// ```
/// use forgeni::{Entities, Entry, FreeError, Handle, HandleMap, Log, SyncPoint};
///
/// enum Command {
///     Name(Handle, String),
///     Despawn(Handle),
/// }
///
/// let mut entities = Entities::new();
/// let mut names = HandleMap::new();
/// let old = entities.alloc()?;
///
/// // Two systems, on one thread or on two: each has a log of its own.
/// let mut logs = vec![Log::new(), Log::new()];
/// entities.phase(2, |_, reservers| {
///     for (reserver, log) in reservers.iter_mut().zip(&mut logs) {
///         let cart = log.spawn(reserver)?;
///         log.push(Command::Name(cart, format!("cart {}", reserver.number())))?;
///     }
///     logs[1].push(Command::Despawn(old))?;
///     Ok::<(), forgeni::ReserveError>(())
/// })??;
///
/// let (mut born, mut refused) = (Vec::new(), 0);
/// let mut sync = SyncPoint::begin(&mut entities, &mut logs, &mut born)?;
/// sync.apply(&mut entities, |entities, entry| match entry {
///     Entry::Spawn(cart) => {
///         assert!(entities.is_alive(cart));
///         Ok(())
///     }
///     Entry::Refused(_) => {
///         refused += 1;
///         Ok(())
///     }
///     Entry::Command(Command::Name(cart, name)) => {
///         names.insert(cart, name).expect("memory");
///         Ok(())
///     }
///     Entry::Command(Command::Despawn(gone)) => match entities.free(gone) {
///         Ok(_) => Ok(()),
///         // The command comes back, and with it all that are behind it.
///         Err(error) => Err((entry, error)),
///     },
/// })?;
/// assert_eq!((born.len(), refused, entities.len()), (2, 0, 2));
/// assert_eq!(names[born[1]], "cart 1");
/// # Ok::<(), Box<dyn std::error::Error>>(())
/// ```
#[must_use]
pub struct SyncPoint<C> {
    /// The entry that a closure handed back.
    front: Option<Entry<C>>,
    rest: Rest<C>,
}

/// # Beginning
impl<C> SyncPoint<C> {
    /// Brings to life all that is reserved, and appends it to `out`, as
    /// [`flush`](Entities::flush) does. The sync point has the entries of these logs, one log after
    /// the other, and the list of logs is empty then. What a log reserved that isn't among them
    /// comes to life too.
    ///
    /// It tests each spawn of the logs: its handle has to be reserved in this allocator. So when
    /// the first entry is passed on, each of these handles is alive.
    ///
    /// ```
    /// use forgeni::{Entities, Log, SyncPoint};
    ///
    /// let mut entities = Entities::new();
    /// let mut logs: Vec<Log<()>> = vec![Log::new(), Log::new()];
    /// let cart = entities.phase(2, |_, reservers| logs[1].spawn(&mut reservers[1]))??;
    /// let mut born = Vec::new();
    /// let _sync = SyncPoint::begin(&mut entities, &mut logs, &mut born)?;
    /// assert_eq!((born, logs.len()), (vec![cart], 0));
    /// assert!(entities.is_alive(cart));
    /// # Ok::<(), Box<dyn std::error::Error>>(())
    /// ```
    ///
    /// # Errors
    ///
    /// The list has its logs, and nothing has changed.
    ///
    /// - [`BeginError::NotReserved`] if the handle of a spawn isn't reserved.
    /// - [`BeginError::Memory`] if there isn't enough memory for what is born.
    ///
    /// <details><summary>Contract</summary>
    ///
    /// <code style="display: block; tab-size: 4; white-space: pre-wrap">// In the words of [contracts](crate::contracts):
    /// ensures entries { [IfOk](crate::contracts::logic#IfOk) result (λ point. point ≡ [entries_of](crate::contracts::ent_log::logs#entries_of) logs.old.items) }
    /// ensures emptied { [OnOk](crate::contracts::logic#OnOk) result (logs.new.items ≡ \[\]) }
    /// ensures flushed { [OnOk](crate::contracts::logic#OnOk) result
    /// &#9;(entities.new.allocator ≡ [after_flush](crate::contracts::ent_alloc::sequential#after_flush) entities.old.allocator) }
    /// ensures rows { entities.new.rows ≡ entities.old.rows }
    /// ensures born { [OnOk](crate::contracts::logic#OnOk) result
    /// &#9;(out.new.items ≡ out.old.items ++ [born](crate::contracts::ent_alloc::sequential#born) entities.old.allocator) }
    /// ensures alive { [OnOk](crate::contracts::logic#OnOk) result
    /// &#9;([All](crate::contracts::logic#All) ([IsLive](crate::contracts::ent_alloc::sound#IsLive) entities.new.allocator) ([spawned_in](crate::contracts::ent_log::logs#spawned_in) ([entries_of](crate::contracts::ent_log::logs#entries_of) logs.old.items))) }
    /// &#32;
    /// // Each handle of a spawn is reserved, or the error says which is the first that isn\'t.
    /// ensures reserved { [OnOk](crate::contracts::logic#OnOk) result ([first_unreserved](crate::contracts::ent_log::logs#first_unreserved) entities.old.allocator
    /// &#9;([spawned_in](crate::contracts::ent_log::logs#spawned_in) ([entries_of](crate::contracts::ent_log::logs#entries_of) logs.old.items)) ≡ [None](crate::contracts::logic#None)) }
    /// ensures not_reserved { [IfErr](crate::contracts::logic#IfErr) result (λ error. [unreserved_of](crate::contracts::ent_log::beginning#unreserved_of) error
    /// &#9;≡ [first_unreserved](crate::contracts::ent_log::logs#first_unreserved) entities.old.allocator ([spawned_in](crate::contracts::ent_log::logs#spawned_in) ([entries_of](crate::contracts::ent_log::logs#entries_of) logs.old.items))) }
    /// ensures memory { [IfErr](crate::contracts::logic#IfErr) result (λ error. error ≡ NoMemory
    /// &#9;→ (0 \< [made_at_flush](crate::contracts::ent_alloc::sequential#made_at_flush) entities.old.allocator)
    /// &#9;⊎ ([vec_capacity](crate::contracts::logic#vec_capacity) out.old \< [vec_len](crate::contracts::logic#vec_len) out.old + [length](crate::contracts::logic#length) entities.old.allocator.taken)) }
    /// ensures kept { [OnErr](crate::contracts::logic#OnErr) result (logs.new.items ≡ logs.old.items) }
    /// ensures err { [OnErr](crate::contracts::logic#OnErr) result (entities.new ≡ entities.old) }
    /// ensures unchanged { [OnErr](crate::contracts::logic#OnErr) result (out.new.items ≡ out.old.items) }
    /// </code>
    ///
    /// </details>
    #[inline]
    pub fn begin(
        entities: &mut Entities,
        logs: &mut Vec<Log<C>>,
        out: &mut Vec<Handle>,
    ) -> Result<Self, BeginError> {
        if let Some(handle) = unreserved(entities, logs) {
            return Err(BeginError::NotReserved { handle });
        }
        match SyncPoint::begin_reserved(entities, logs, out) {
            Ok(point) => Ok(point),
            Err(OutOfMemory) => Err(BeginError::Memory),
        }
    }
}

/// # Entries
impl<C> SyncPoint<C> {
    /// Calls `run` with each entry in turn, and with the allocator, so that a command can free
    /// entities.
    ///
    /// `run` hands an entry back with its error. That entry is then the first one that is left, and
    /// the next call begins with it. [`take_next`](Self::take_next) removes it instead.
    ///
    /// ```
    /// use forgeni::{Entities, Entry, HandleMap, Log, SyncPoint};
    ///
    /// let (mut entities, mut names) = (Entities::new(), HandleMap::new());
    /// let cart = entities.alloc()?;
    /// let mut log = Log::new();
    /// log.push((cart, String::from("cart")))?;
    /// let mut sync = SyncPoint::begin(&mut entities, &mut vec![log], &mut Vec::new())?;
    /// sync.apply(&mut entities, |_entities, entry| match entry {
    ///     Entry::Command((one, name)) => match names.insert(one, name) {
    ///         Ok(_) => Ok(()),
    ///         // The name is back, and the entry is whole again.
    ///         Err(refused) => {
    ///             let (name, error) = refused.into_parts();
    ///             Err((Entry::Command((one, name)), error))
    ///         }
    ///     },
    ///     _spawned_or_refused => Ok(()),
    /// })?;
    /// assert_eq!(names[cart], "cart");
    /// # Ok::<(), Box<dyn std::error::Error>>(())
    /// ```
    ///
    /// # Errors
    ///
    /// That of `run`. It was called with the entries before that one, and not with those after it,
    /// which are left.
    ///
    /// # Panics
    ///
    /// A panic in `run` is propagated. The entry on which it panicked is lost, and those after it
    /// are left.
    ///
    /// <details><summary>Contract</summary>
    ///
    /// <code style="display: block; tab-size: 4; white-space: pre-wrap">// In the words of [contracts](crate::contracts):
    /// requires { F.IsAlwaysCallable run }
    /// ensures all { [OnOk](crate::contracts::logic#OnOk) result
    /// &#9;([TakesAll](crate::contracts::ent_log::handing_on#TakesAll) F.step run entities.old self.old entities.new) }
    /// ensures done { [OnOk](crate::contracts::logic#OnOk) result (self.new ≡ \[\]) }
    /// ensures fails { [IfErr](crate::contracts::logic#IfErr) result (λ error.
    /// &#9;[FailsAt](crate::contracts::ent_log::handing_on#FailsAt) F.step run entities.old self.old error self.new entities.new) }
    /// </code>
    ///
    /// </details>
    #[inline]
    pub fn apply<E, F: FnMut(&mut Entities, Entry<C>) -> Result<(), (Entry<C>, E)>>(
        &mut self,
        entities: &mut Entities,
        run: F,
    ) -> Result<(), E> {
        hand_on(&mut self.front, &mut self.rest, entities, run)
    }

    /// Removes the next entry, and returns it: the one that a closure handed back, or the first
    /// that it wasn't called with. `None` if none is left.
    ///
    /// ```
    /// use forgeni::{Entities, Entry, Log, SyncPoint};
    ///
    /// let mut entities = Entities::new();
    /// let mut log = Log::new();
    /// for command in ["walk", "fly", "swim"] {
    ///     log.push(command)?;
    /// }
    /// let mut sync = SyncPoint::begin(&mut entities, &mut vec![log], &mut Vec::new())?;
    /// let mut done = Vec::new();
    /// let mut run = |_: &mut Entities, entry| match entry {
    ///     Entry::Command("fly") => Err((entry, "nobody can fly")),
    ///     entry => Ok(done.push(entry)),
    /// };
    /// while sync.apply(&mut entities, &mut run).is_err() {
    ///     assert_eq!(sync.take_next(), Some(Entry::Command("fly")));
    /// }
    /// assert_eq!(done.len(), 2);
    /// # Ok::<(), Box<dyn std::error::Error>>(())
    /// ```
    ///
    /// <details><summary>Contract</summary>
    ///
    /// <code style="display: block; tab-size: 4; white-space: pre-wrap">// In the words of [contracts](crate::contracts):
    /// ensures first { [IfSome](crate::contracts::logic#IfSome) result (λ entry. self.old ≡ entry ∷ self.new) }
    /// ensures none { [IfNone](crate::contracts::logic#IfNone) result (self.old ≡ \[\]) }
    /// ensures done { [IfNone](crate::contracts::logic#IfNone) result (self.new ≡ \[\]) }
    /// </code>
    ///
    /// </details>
    #[inline]
    pub fn take_next(&mut self) -> Option<Entry<C>> {
        match self.front.take() {
            Some(entry) => Some(entry),
            None => self.rest.take_next(),
        }
    }
}

impl<C> SyncPoint<C> {
    /// As [`begin`](Self::begin), for logs all of whose spawns are reserved in the allocator. It
    /// tests none of them.
    ///
    /// # Errors
    ///
    /// [`OutOfMemory`] if there isn't enough memory for what is born. Nothing has changed.
    #[inline]
    pub(crate) fn begin_reserved(
        entities: &mut Entities,
        logs: &mut Vec<Log<C>>,
        out: &mut Vec<Handle>,
    ) -> Result<Self, OutOfMemory>
        // requires reserved { first_unreserved entities.old.allocator
        //     (spawned_in (entries_of logs.old.items)) ≡ None }
        // ensures entries { IfOk result (λ point. point ≡ entries_of logs.old.items) }
        // ensures emptied { OnOk result (logs.new.items ≡ []) }
        // ensures flushed { OnOk result
        //     (entities.new.allocator ≡ after_flush entities.old.allocator) }
        // ensures rows { entities.new.rows ≡ entities.old.rows }
        // ensures born { OnOk result
        //     (out.new.items ≡ out.old.items ++ born entities.old.allocator) }
        // ensures alive { OnOk result
        //     (All (IsLive entities.new.allocator) (spawned_in (entries_of logs.old.items))) }
        // ensures memory { OnErr result ((0 < made_at_flush entities.old.allocator)
        //     ⊎ (vec_capacity out.old < vec_len out.old + length entities.old.allocator.taken)) }
        // ensures kept { OnErr result (logs.new.items ≡ logs.old.items) }
        // ensures err { OnErr result (entities.new ≡ entities.old) }
        // ensures unchanged { OnErr result (out.new.items ≡ out.old.items) }
    {
        entities.flush(out)?;
        Ok(SyncPoint {
            front: None,
            rest: Rest::of(mem::replace(logs, Vec::new())),
        })
    }
}

/// The first handle of a spawn of these logs that isn't reserved.
#[inline]
fn unreserved<C>(entities: &Entities, logs: &[Log<C>]) -> Option<Handle>
    // ensures { result
    //     ≡ first_unreserved entities.now.allocator (spawned_in (entries_of logs.now)) }
{
    let mut rest = logs;
    while let Some((log, behind)) = rest.split_first() {
        if let Some(handle) = log.unreserved(entities) {
            return Some(handle);
        }
        rest = behind;
    }
    None
}
