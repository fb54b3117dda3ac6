// Made of crates/ent_storage/src/handle_map/generation.rt by rust/erase. It isn't edited by hand.

use crate::handles::Handle;
use core::num::NonZeroU32;

/// A generation that a handle may have. It is not 0, so a slot needs no room to say that it is
/// vacant.
#[derive(Clone, Copy)]
pub(crate) struct Generation {
    number: NonZeroU32,
}

impl Generation {
    /// The generation of a handle.
    #[inline]
    pub(super) fn of(handle: Handle) -> Self
        // ensures { result ≡ handle.generation }
    {
        let Some(number) = NonZeroU32::new(handle.generation()) else {
            unreachable!()
        };
        Generation { number }
    }

    /// Its number.
    #[inline]
    pub(super) fn number(&self) -> u32
        // ensures { result ≡ self.now }
    {
        self.number.get()
    }

    /// The handle that has it in the slot of an index.
    #[inline]
    pub(super) fn handle(&self, index: u32) -> Handle
        // requires { index < 2 ^ 32 - 1 }
        // ensures { result ≡ record { index = index; generation = self.now } }
    {
        Handle::from_parts(index, self.number.get())
    }
}
