// Made of crates/ent_world/src/spawning.rt by rust/erase. It isn't edited by hand.

//! What one spawn needs: the handle that the allocator gives next, and an entity that is made whole
//! or not at all.

use crate::allocator::{AllocError, Entities};
use crate::handles::{Birth, ComponentId, Handle, OutOfMemory};
use crate::components::Rows;

/// The handle that `alloc` gives next.
#[inline(always)]
pub(super) fn next_handle(entities: &Entities) -> Result<Handle, AllocError>
    // ensures front { IfOk result (λ handle. slice_get entities.now.allocator.pool 0 ≡ Some handle) }
    // ensures new { IfOk result (λ handle. set.contains entities.now.allocator.live handle ≡ false) }
    // ensures flushed { OnOk result (entities.now.allocator.asked ≡ 0) }
    // ensures needs_flush { IsErrOf result AllocError.NeedsFlush ↔ (0 < entities.now.allocator.asked) }
    // ensures no_memory { ¬ (IsErrOf result AllocError.Memory) }
    // ensures space { IsErrOf result AllocError.Space
    //     ↔ ((entities.now.allocator.asked ≡ 0) × (entities.now.allocator.pool ≡ [])) }
{
    let top = i64::from(entities.top());
    if entities.cursor() != top {
        return Err(AllocError::NeedsFlush);
    }
    match entities.reply_one(top) {
        Ok(handle) => Ok(handle),
        Err(_) => Err(AllocError::Space),
    }
}

/// Makes an entity that is not there, with all its components, at the next place. After an `Err` it
/// is not there.
#[inline(always)]
pub(super) fn make(
    storage: &mut Rows,
    place: usize,
    handle: Handle,
    birth: Birth,
    items: &[(ComponentId, i64)],
) -> Result<(), OutOfMemory>
    // requires new { map.get storage.old.entities handle ≡ None }
    // requires next { place ≡ length storage.old.places }
    // ensures ok { OnOk result (storage.new.entities
    //     ≡ map.insert storage.old.entities handle (spawned birth items.now)) }
    // ensures placed { OnOk result (storage.new.places ≡ storage.old.places ++ handle ∷ []) }
    // ensures less { OnOk result (0 < storage.old.spare → storage.new.spare + 1 ≡ storage.old.spare) }
    // ensures no_less { OnErr result (storage.old.spare ≤ storage.new.spare) }
    // ensures memory { OnErr result ((storage.old.spare ≡ 0) ⊎ (0 < length items.now)) }
    // ensures err { OnErr result (storage.new.entities ≡ storage.old.entities) }
    // ensures unplaced { OnErr result (storage.new.places ≡ storage.old.places) }
{
    storage.reserve(1)?;
    storage.push(handle, birth);
    if storage.insert_at(place, handle, items).is_err() {
        let _ = storage.despawn_at(place, handle);
        return Err(OutOfMemory);
    }
    Ok(())
}
