// Made of crates/ent_log/src/entry.rt by rust/erase. It isn't edited by hand.

use crate::allocator::Refused;
use crate::handles::Handle;

/// What a [`Log`](crate::logs::Log) keeps of one call, for the sync point to pass on.
///
/// ```
/// use forgeni::{Entities, Entry, Limits, Log};
///
/// let mut entities = Entities::with_limits(Limits::new(1, 1).unwrap());
/// let mut logs = vec![Log::new()];
/// entities.phase(1, |_, reservers| {
///     logs[0].spawn(&mut reservers[0])?;
///     let _refused = logs[0].spawn(&mut reservers[0]);
///     logs[0].push("fire")?;
///     Ok::<(), forgeni::ReserveError>(())
/// })??;
/// let [Entry::Spawn(_), Entry::Refused(_), Entry::Command("fire")] = logs[0].entries() else {
///     return Err("other entries".into());
/// };
/// # Ok::<(), Box<dyn std::error::Error>>(())
/// ```
#[derive(Clone, Copy, Debug, PartialEq, Eq, Hash)]
pub enum Entry<C> {
    /// A handle that a spawn returned. It is alive when the sync point passes on its first entry.
    Spawn(Handle),
    /// Why a spawn returned no handle. Nothing comes to life for it.
    Refused(Refused),
    /// A command of the caller.
    Command(C),
}
