// Made of crates/ent_total/src/logging.rt by rust/erase. It isn't edited by hand.

//! A reserver reserves for logs of any commands.

use crate::phases::reserver::Reserver;
use crate::allocator::{Phased, Refused};
use crate::handles::Handle;
use crate::logs::Reserves;

/// It [reserves](Reserver::reserve) the handle.
impl<S: Phased> Reserves for Reserver<S> {
    #[inline]
    fn reserve_one(&mut self) -> Result<Handle, Refused> {
        self.reserve()
    }
}
