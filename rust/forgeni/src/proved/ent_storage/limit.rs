// Made of crates/ent_storage/src/limit.rt by rust/erase. It isn't edited by hand.

use crate::handles::Handle;

/// For how many slots a map may have values, from slot 0 on.
///
/// It is kept as the first handle, in the order of handles, that the map refuses.
pub(super) struct Limit {
    end: Handle,
}

impl Limit {
    /// The limit of that many slots. The greatest number is no limit: there are no more slots.
    #[inline]
    pub(super) const fn of(slots: u32) -> Self
        // ensures { result ≡ slots }
    {
        let end = match Handle::new(slots, 1) {
            Some(first) => first,
            None => Handle::from_parts(u32::MAX - 1, (1 << 31) - 1),
        };
        Limit { end }
    }

    /// How many slots it is.
    #[inline]
    pub(super) const fn slots(&self) -> u32
        // ensures { result ≡ self.now }
    {
        if self.end.generation() == 1 {
            self.end.index()
        } else {
            u32::MAX
        }
    }

    /// Whether the map takes no value for the handle.
    #[inline]
    pub(super) fn refuses(&self, handle: Handle) -> bool
        // ensures { IsTrue result ↔ IsBeyond self.now handle }
    {
        // The second comparison implies the first one. But that one costs less, and for most
        // handles it is the only one made.
        handle.index() >= self.end.index() && handle >= self.end
    }
}
