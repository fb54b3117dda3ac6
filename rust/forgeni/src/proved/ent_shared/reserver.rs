// Made of crates/ent_shared/src/reserver.rt by rust/erase. It isn't edited by hand.

use crate::reserving::holders::RecordsToken;
use crate::reserving::record::Record;
use crate::allocator::QUOTA;

/// One caller's right to reserve from a shared allocator, and what is left of its quota.
///
/// `share` makes them, and `SharedSource::close` takes them back.
/// A caller that reserves in a thread of its own takes one with it.
///
/// ```
/// use forgeni::{SharedReserver, SharedSource, Source};
///
/// /// Code for the reservers of the shared cursor alone.
/// fn shares<S: Source<Reserver = SharedReserver>>() {}
///
/// shares::<SharedSource>();
/// ```
pub struct SharedReserver {
    pub(super) token: RecordsToken<Record>,
    pub(super) number: usize,
    pub(super) left: u64,
    pub(super) floor: i64,
}

impl SharedReserver {
    #[inline]
    pub(super) fn new(token: RecordsToken<Record>, number: usize, floor: i64) -> Self
        // requires { IsHolding token.views number quota floor }
        // ensures { result ≡ record { word = token.table_id; own = own_of token.views } }
    {
        SharedReserver {
            token,
            number,
            left: QUOTA,
            floor,
        }
    }

    /// Returns its number: its position in the list that `share` returned, counted from 0.
    #[inline]
    pub(crate) fn number(&self) -> usize
        // ensures { result ≡ self.now.own.number }
    {
        self.number
    }

    /// Returns the number of handles that it can still request in this phase: [`QUOTA`] minus those
    /// that it has requested, served or not.
    #[inline]
    pub(crate) fn left(&self) -> u64
        // ensures left { result ≡ self.now.own.left }
        // ensures quota { result + requested_by self.now.own ≡ quota }
    {
        self.left
    }
}
