// Made of crates/ent_log/src/rest.rt by rust/erase. It isn't edited by hand.

use alloc::vec::Vec;
use crate::logs::entry::Entry;
use crate::logs::log::Log;
use alloc::vec::IntoIter;

/// The entries of logs that are left: those of one log, and then all logs behind it.
pub(super) struct Rest<C> {
    entries: IntoIter<Entry<C>>,
    logs: IntoIter<Log<C>>,
}

impl<C> Rest<C> {
    /// All entries of these logs.
    #[inline]
    pub(super) fn of(logs: Vec<Log<C>>) -> Self
        // ensures { result ≡ entries_of logs.items }
    {
        Rest {
            entries: Vec::new().into_iter(),
            logs: logs.into_iter(),
        }
    }

    /// Takes the first entry out.
    #[inline]
    pub(super) fn take_next(&mut self) -> Option<Entry<C>>
        // ensures first { IfSome result (λ entry. self.old ≡ entry ∷ self.new) }
        // ensures none { IfNone result (self.old ≡ []) }
        // ensures done { IfNone result (self.new ≡ []) }
    {
        first_of(&mut self.entries, &mut self.logs)
    }
}

/// Takes the first entry out of these entries, or of the first of these logs that has one.
#[inline]
fn first_of<C>(
    entries: &mut IntoIter<Entry<C>>,
    logs: &mut IntoIter<Log<C>>,
) -> Option<Entry<C>>
    // ensures first { IfSome result (λ entry.
    //     into_iter_items entries.old ++ entries_of (into_iter_items logs.old)
    //     ≡ entry ∷ (into_iter_items entries.new ++ entries_of (into_iter_items logs.new))) }
    // ensures none { IfNone result
    //     (into_iter_items entries.old ++ entries_of (into_iter_items logs.old) ≡ []) }
    // ensures done { IfNone result
    //     (into_iter_items entries.new ++ entries_of (into_iter_items logs.new) ≡ []) }
{
    let mut next = entries.next();
    while next.is_none() && open_next(entries, logs) {
        next = entries.next();
    }
    next
}

/// Goes on to the entries of the first of these logs, if there is one.
// It is apart: then a loop over entries keeps in registers only what it needs at each of them.
#[cold]
#[inline(never)]
fn open_next<C>(
    entries: &mut IntoIter<Entry<C>>,
    logs: &mut IntoIter<Log<C>>,
) -> bool
    // ensures opened { IsTrue result
    //     → into_iter_items logs.old ≡ into_iter_items entries.new ∷ into_iter_items logs.new }
    // ensures none { result ≡ false → into_iter_items logs.old ≡ [] }
    // ensures none_left { result ≡ false → into_iter_items logs.new ≡ [] }
    // ensures same { result ≡ false → into_iter_items entries.new ≡ into_iter_items entries.old }
{
    match logs.next() {
        Some(log) => {
            *entries = log.into_entries();
            true
        }
        None => false,
    }
}
