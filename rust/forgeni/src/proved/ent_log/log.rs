// Made of crates/ent_log/src/log.rt by rust/erase. It isn't edited by hand.

use alloc::vec::Vec;
use crate::kit::vec::FallibleVec;
use crate::logs::entry::Entry;
use crate::logs::reserves::Reserves;
use crate::allocator::{Entities, ReserveError, Source, State};
use crate::handles::{Handle, OutOfMemory};
use core::fmt;
use alloc::vec::IntoIter;

/// The spawns and commands of one system, in the order of issue. `C` is the caller's type of
/// commands.
///
/// A [`SyncPoint`](crate::logs::SyncPoint) brings to life what was spawned, and passes on the entries. A
/// log can go to another thread. If a worker runs several systems, each has a log.
///
/// ```
/// use forgeni::{Entities, Log};
///
/// let mut entities = Entities::new();
/// let mut logs = vec![Log::new(), Log::new()];
/// entities.phase(2, |_, reservers| {
///     std::thread::scope(|scope| {
///         for (log, reserver) in logs.iter_mut().zip(reservers) {
///             scope.spawn(|| {
///                 let cart = log.spawn(reserver)?;
///                 log.push((cart, "cart"))?;
///                 Ok::<(), forgeni::ReserveError>(())
///             });
///         }
///     });
/// })?;
/// assert!(logs.iter().all(|log| log.len() == 2 && log.refused() == 0));
/// # Ok::<(), Box<dyn std::error::Error>>(())
/// ```
#[must_use]
pub struct Log<C> {
    entries: Vec<Entry<C>>,
}

/// # Making one
impl<C> Log<C> {
    /// Creates a log without entries. It doesn't allocate.
    ///
    /// ```
    /// use forgeni::Log;
    ///
    /// // One for each system.
    /// let mut logs: Vec<Log<String>> = (0..8).map(|_| Log::new()).collect();
    /// logs[3].push("despawn".into())?;
    /// assert_eq!(logs.iter().map(|log| log.len()).sum::<usize>(), 1);
    /// # Ok::<(), Box<dyn std::error::Error>>(())
    /// ```
    ///
    /// <details><summary>Contract</summary>
    ///
    /// <code style="display: block; tab-size: 4; white-space: pre-wrap">// In the words of [contracts](crate::contracts):
    /// ensures { result ≡ \[\] }
    /// </code>
    ///
    /// </details>
    #[must_use]
    #[inline]
    pub fn new() -> Self {
        Log {
            entries: Vec::new(),
        }
    }
}

/// # Filling it
impl<C> Log<C> {
    /// Reserves a handle at once, and adds its entry, or that of the refusal. Room for the entry is
    /// allocated first, so each reservation has one.
    ///
    /// ```
    /// use forgeni::{Entities, Entry, Log};
    ///
    /// let (shared, mut reservers) = Entities::new().share(1)?;
    /// let mut log: Log<()> = Log::new();
    /// let cart = log.spawn(&mut reservers[0])?;
    /// assert_eq!(log.entries(), [Entry::Spawn(cart)]);
    /// assert_eq!(log.refused(), 0);
    /// # drop(shared);
    /// # Ok::<(), Box<dyn std::error::Error + Send + Sync>>(())
    /// ```
    ///
    /// # Errors
    ///
    /// - [`ReserveError::Memory`] if there is no room for the entry. The log is as it was, and
    ///   nothing was reserved.
    /// - [`ReserveError::Space`] and [`ReserveError::Quota`] as the reservation returns them. The
    ///   log has an entry for the [refusal](Entry::Refused), which the sync point passes on in its
    ///   turn. [`ReserveError::or_memory`] lets the system go on.
    ///
    /// <details><summary>Contract</summary>
    ///
    /// <code style="display: block; tab-size: 4; white-space: pre-wrap">// In the words of [contracts](crate::contracts):
    /// ensures ok { [IfOk](crate::contracts::logic#IfOk) result (λ handle. self.new ≡ self.old ++ Spawn handle ∷ \[\]) }
    /// ensures refused { [IfErr](crate::contracts::logic#IfErr) result (λ error. self.new ≡ self.old ++ [refused_by](crate::contracts::ent_log::spawning#refused_by) error) }
    /// &#32;
    /// // Anything but Memory is the result of one reservation.
    /// ensures replies { (reply : [Result](crate::contracts::logic#Result) [HandleValue](crate::contracts::ent_handle::handle#Handle) Refusal) → result ≡ [returned](crate::contracts::ent_log::spawning#returned) reply
    /// &#9;→ S.may_reserve source.old reply source.new }
    /// ensures memory { [IsErrOf](crate::contracts::logic#IsErrOf) result ReserveError.Memory → source.new ≡ source.old }
    /// </code>
    ///
    /// </details>
    #[inline]
    pub fn spawn<S: Reserves>(&mut self, source: &mut S) -> Result<Handle, ReserveError> {
        self.entries.reserve_fallibly(1)?;
        match source.reserve_one() {
            Ok(handle) => {
                self.entries.push_reserved(Entry::Spawn(handle));
                Ok(handle)
            }
            Err(why) => {
                self.entries.push_reserved(Entry::Refused(why));
                Err(ReserveError::from(why))
            }
        }
    }

    /// Reserves a handle at once, of a source that serves this reserver, and adds its entry, or
    /// that of the refusal. Room for the entry is allocated first, so each reservation has one.
    ///
    /// # Errors
    ///
    /// - [`ReserveError::Memory`] if there is no room for the entry. The log is as it was, and
    ///   nothing was reserved.
    /// - [`ReserveError::Space`] and [`ReserveError::Quota`] as the source returns them. The log
    ///   has an entry for the [refusal](Entry::Refused), which the sync point passes on in its
    ///   turn.
    #[inline]
    pub(crate) fn spawn_from<S: Source>(
        &mut self,
        source: &S,
        reserver: &mut S::Reserver,
    ) -> Result<Handle, ReserveError>
        // requires { S.serves source.now reserver.old }
        // ensures stays { S.serves source.now reserver.new }
        // ensures ok { IfOk result (λ handle. self.new ≡ self.old ++ Spawn handle ∷ []) }
        // ensures refused { IfErr result (λ error. self.new ≡ self.old ++ refused_by error) }

        // Anything but Memory is the result of one reservation.
        // ensures replies { (reply : Result HandleValue Refusal) → result ≡ returned reply
        //     → S.may_reply source.now reserver.old reserver.new 1 (listed_alone reply) }
        // ensures memory { IsErrOf result ReserveError.Memory → reserver.new ≡ reserver.old }
    {
        self.entries.reserve_fallibly(1)?;
        match source.serve_one(reserver) {
            Ok(handle) => {
                self.entries.push_reserved(Entry::Spawn(handle));
                Ok(handle)
            }
            Err(why) => {
                self.entries.push_reserved(Entry::Refused(why));
                Err(ReserveError::from(why))
            }
        }
    }

    /// Adds a command, which the sync point passes on in its turn.
    ///
    /// ```
    /// use forgeni::{Handle, Log};
    ///
    /// enum Command {
    ///     Heal(Handle, u32),
    ///     Despawn(Handle),
    /// }
    ///
    /// let oak = "0v1".parse()?;
    /// let mut log = Log::new();
    /// log.push(Command::Heal(oak, 20))?;
    /// log.push(Command::Despawn(oak))?;
    /// assert_eq!(log.len(), 2);
    /// # Ok::<(), Box<dyn std::error::Error>>(())
    /// ```
    ///
    /// # Errors
    ///
    /// [`OutOfMemory`] if there is no room for it. The log is as it was, and the command is
    /// dropped.
    ///
    /// <details><summary>Contract</summary>
    ///
    /// <code style="display: block; tab-size: 4; white-space: pre-wrap">// In the words of [contracts](crate::contracts):
    /// ensures ok { [OnOk](crate::contracts::logic#OnOk) result (self.new ≡ self.old ++ Command command ∷ \[\]) }
    /// ensures err { [OnErr](crate::contracts::logic#OnErr) result (self.new ≡ self.old) }
    /// </code>
    ///
    /// </details>
    #[inline]
    pub fn push(&mut self, command: C) -> Result<(), OutOfMemory> {
        self.entries.reserve_fallibly(1)?;
        self.entries.push_reserved(Entry::Command(command));
        Ok(())
    }

    /// Drops all entries, and keeps their room. So adding as many entries again doesn't allocate.
    ///
    /// ```
    /// use forgeni::Log;
    ///
    /// let mut log = Log::new();
    /// for frame in 0..3 {
    ///     // From the second frame on it doesn't allocate.
    ///     log.clear();
    ///     log.push(frame)?;
    /// }
    /// assert_eq!(log.len(), 1);
    /// # Ok::<(), Box<dyn std::error::Error>>(())
    /// ```
    ///
    /// <details><summary>Contract</summary>
    ///
    /// <code style="display: block; tab-size: 4; white-space: pre-wrap">// In the words of [contracts](crate::contracts):
    /// ensures { self.new ≡ \[\] }
    /// </code>
    ///
    /// </details>
    #[inline]
    pub fn clear(&mut self) {
        self.entries.clear();
    }
}

/// # What it has
impl<C> Log<C> {
    /// Returns the entries, in the order of issue.
    ///
    /// ```
    /// use forgeni::{Entry, Log};
    ///
    /// let mut log = Log::new();
    /// log.push("aim")?;
    /// log.push("fire")?;
    /// let said = log.entries().iter().filter_map(|it| match it {
    ///     Entry::Command(word) => Some(*word),
    ///     _ => None,
    /// });
    /// assert_eq!(said.collect::<Vec<_>>(), ["aim", "fire"]);
    /// # Ok::<(), Box<dyn std::error::Error>>(())
    /// ```
    ///
    /// <details><summary>Contract</summary>
    ///
    /// <code style="display: block; tab-size: 4; white-space: pre-wrap">// In the words of [contracts](crate::contracts):
    /// ensures { result.now ≡ self.now }
    /// </code>
    ///
    /// </details>
    #[must_use]
    #[inline]
    pub fn entries(&self) -> &[Entry<C>] {
        &self.entries
    }

    /// Returns the number of entries.
    ///
    /// ```
    /// use forgeni::Log;
    ///
    /// let mut log = Log::new();
    /// log.push('a')?;
    /// log.push('b')?;
    /// assert_eq!(log.len(), 2);
    /// # Ok::<(), Box<dyn std::error::Error>>(())
    /// ```
    ///
    /// <details><summary>Contract</summary>
    ///
    /// <code style="display: block; tab-size: 4; white-space: pre-wrap">// In the words of [contracts](crate::contracts):
    /// ensures { result ≡ [length](crate::contracts::logic#length) self.now }
    /// </code>
    ///
    /// </details>
    #[must_use]
    #[inline]
    pub fn len(&self) -> usize {
        self.entries.len()
    }

    /// Returns `true` if there are no entries.
    ///
    /// ```
    /// use forgeni::Log;
    ///
    /// // A frame in which nothing happened needs no sync point.
    /// let logs = [Log::<String>::new(), Log::new()];
    /// assert!(logs.iter().all(|log| log.is_empty()));
    /// ```
    ///
    /// <details><summary>Contract</summary>
    ///
    /// <code style="display: block; tab-size: 4; white-space: pre-wrap">// In the words of [contracts](crate::contracts):
    /// ensures { [IsTrue](crate::contracts::logic#IsTrue) result ↔ (self.now ≡ \[\]) }
    /// </code>
    ///
    /// </details>
    #[must_use]
    #[inline]
    pub fn is_empty(&self) -> bool {
        self.entries.is_empty()
    }

    /// Returns the number of its spawns that were refused.
    ///
    /// ```
    /// use forgeni::{Entities, Limits, Log};
    ///
    /// let entities = Entities::with_limits(Limits::new(2, 1).unwrap());
    /// let (_shared, mut reservers) = entities.share(1)?;
    /// let mut log: Log<()> = Log::new();
    /// for _ in 0..5 {
    ///     let _handle = log.spawn(&mut reservers[0]);
    /// }
    /// assert_eq!((log.len(), log.refused()), (5, 3));
    /// # Ok::<(), Box<dyn std::error::Error>>(())
    /// ```
    ///
    /// <details><summary>Contract</summary>
    ///
    /// <code style="display: block; tab-size: 4; white-space: pre-wrap">// In the words of [contracts](crate::contracts):
    /// ensures { result ≡ [length](crate::contracts::logic#length) ([refused_in](crate::contracts::ent_log::logs#refused_in) self.now) }
    /// </code>
    ///
    /// </details>
    #[must_use]
    #[inline]
    pub fn refused(&self) -> usize {
        let mut refused = 0;
        let mut rest = self.entries.as_slice();
        while let Some((entry, behind)) = rest.split_first() {
            if let Entry::Refused(_) = entry {
                refused += 1;
            }
            rest = behind;
        }
        refused
    }
}

impl<C> Log<C> {
    /// The entries, to be removed one by one.
    #[inline]
    pub(super) fn into_entries(self) -> IntoIter<Entry<C>>
        // ensures { into_iter_items result ≡ self }
    {
        self.entries.into_iter()
    }

    /// The first handle of a spawn that isn't reserved.
    #[inline]
    pub(super) fn unreserved(&self, entities: &Entities) -> Option<Handle>
        // ensures { result ≡ first_unreserved entities.now.allocator (spawned_in self.now) }
    {
        let mut rest = self.entries.as_slice();
        while let Some((entry, behind)) = rest.split_first() {
            if let Entry::Spawn(handle) = entry {
                if entities.state(*handle) != State::Reserved {
                    return Some(*handle);
                }
            }
            rest = behind;
        }
        None
    }
}

/// Its entries.
impl<C: fmt::Debug> fmt::Debug for Log<C> {
    #[inline]
    fn fmt(&self, f: &mut fmt::Formatter<'_>) -> fmt::Result {
        let entries = self.entries();
        write!(f, "{entries:?}")
    }
}
