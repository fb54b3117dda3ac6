// Made of crates/ent_world/src/rows.rt by rust/erase. It isn't edited by hand.

//! The rows of a world's entities. The allocator keeps with each living handle the entity's place
//! in the storage, so that a look-up is one look at the handle's slot.

use crate::allocator::Entities;
use crate::handles::Handle;

/// The place that is kept with a handle.
#[inline]
pub(super) fn place_of(entities: &Entities, handle: Handle) -> Option<usize>
    // ensures { result ≡ map.get entities.now.rows handle }
{
    let row = entities.row(handle)?;
    Some(row as usize)
}

/// Keeps the next places with the handles, from this one on.
#[inline]
pub(super) fn set_rows(entities: &mut Entities, first: u32, handles: &[Handle])
    // requires living { All (λ h. set.contains entities.old.allocator.live h ≡ true) handles.now }
    // requires fits { first + length handles.now < 2 ^ 32 }
    // ensures rows { entities.new.rows ≡ with_rows entities.old.rows first handles.now }
    // ensures allocator { entities.new.allocator ≡ entities.old.allocator }
{
    let mut row = first;
    for handle in handles {
        entities.set_row(*handle, row);
        row += 1;
    }
}
