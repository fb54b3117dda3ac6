// Made of crates/ent_shared/src/source.rt by rust/erase. It isn't edited by hand.

use alloc::vec::Vec;
use crate::reserving::reserver::SharedReserver;
use crate::reserving::shared::SharedSource;
use crate::allocator::{Entities, Phased, Refused, Reserved, Source};
use crate::handles::Handle;

/// A reservation is one atomic step of the cursor that all reservers share.
impl Source for SharedSource {
    type Reserver = SharedReserver;

    #[inline]
    fn was_alive(&self, handle: Handle) -> bool {
        self.is_alive(handle)
    }

    #[inline]
    fn had_row(&self, handle: Handle) -> Option<u32> {
        self.row(handle)
    }

    #[inline]
    fn may_serve(&self, reserver: &SharedReserver, n: u32) -> bool {
        let n = u64::from(n);
        n <= reserver.left() && n <= self.pool()
    }

    #[inline(always)]
    fn serve_one(&self, reserver: &mut SharedReserver) -> Result<Handle, Refused> {
        self.reserve(reserver)
    }

    #[inline(always)]
    fn serve_many(&self, reserver: &mut SharedReserver, n: u32) -> Result<Reserved<'_>, Refused> {
        self.reserve_many(reserver, n)
    }
}

/// It ends with the allocator, and takes its reservers back in any order.
impl Phased for SharedSource {
    type Closed = Entities;

    #[inline]
    fn callers(&self) -> usize {
        self.count()
    }

    #[inline]
    fn as_opened(&self) -> &Entities {
        self.opened()
    }

    #[inline]
    fn may_take(&self, _reservers: &[SharedReserver]) -> bool {
        true
    }

    #[inline]
    fn end_with_all(self, reservers: Vec<SharedReserver>) -> Entities
        // requires own { All (IsOf self) reservers.items }
        // requires all { length reservers.items ≡ self.count }
        // ensures { EndsWithAll self reservers.items result.allocator
        //     × (result.rows ≡ self.rows) × HasRowsOfLiving result }
    {
        self.close(reservers)
    }

    #[inline]
    fn end_with_some(self, reservers: Vec<SharedReserver>) -> Entities
        // requires { All (IsOf self) reservers.items }
        // ensures { EndsWithSome self reservers.items result.allocator
        //     × (result.rows ≡ self.rows) × HasRowsOfLiving result }
    {
        self.close_lost(reservers)
    }
}
