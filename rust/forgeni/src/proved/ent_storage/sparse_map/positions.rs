// Made of crates/ent_storage/src/sparse_map/positions.rt by rust/erase. It isn't edited by hand.

use alloc::vec::Vec;
use crate::kit::vec::FallibleVec;
use crate::handles::Handle;
use crate::kit::alloc::AllocError;

/// The position of the entry that a slot has.
#[inline]
pub(super) fn position_of<T>(
    entries: &[(Handle, T)],
    positions: &[u32],
    index: usize,
) -> Option<usize>
    // requires { IsPositioned entries.now positions.now }
    // ensures found { IfSome result (λ k. HoldsAt (λ e. e.0.index ≡ index) entries.now k) }
    // ensures inside { IfSome result (λ k. k < length entries.now) }
    // ensures free { result ≡ None → IsFree entries.now index }
{
    let position = *positions.get(index)? as usize;
    let entry = entries.get(position)?;
    if entry.0.index() as usize == index {
        Some(position)
    } else {
        None
    }
}

/// Makes room for the position of a slot, and for an eighth more slots, so that slots that come in
/// their order make room seldom.
#[inline]
pub(super) fn make_position(positions: &mut Vec<u32>, index: usize) -> Result<(), AllocError>
    // requires in_range { index < 2 ^ 32 - 1 }
    // requires few { length positions.old.items < 2 ^ 32 }
    // ensures ok { OnOk result (index < length positions.new.items) }
    // ensures few { length positions.new.items < 2 ^ 32 }
    // ensures kept { (k p : ℕ) → slice_get positions.old.items k ≡ Some p
    //     → slice_get positions.new.items k ≡ Some p }
    // ensures grows { length positions.old.items ≤ length positions.new.items }
    // ensures within { length positions.new.items
    //     ≤ max (length positions.old.items) (index + 1 + index / 8) }
    // ensures err { OnErr result (positions.new.items ≡ positions.old.items) }
    // ensures memory { OnErr result (length positions.old.items ≤ index) }
{
    if index < positions.len() {
        return Ok(());
    }
    add_positions(positions, index)
}

/// Makes room for the position of a slot that has none.
#[inline(never)]
fn add_positions(positions: &mut Vec<u32>, index: usize) -> Result<(), AllocError>
    // requires beyond { length positions.old.items ≤ index }
    // requires in_range { index < 2 ^ 32 - 1 }
    // ensures ok { OnOk result (index < length positions.new.items) }
    // ensures few { OnOk result (length positions.new.items < 2 ^ 32) }
    // ensures kept { (k p : ℕ) → slice_get positions.old.items k ≡ Some p
    //     → slice_get positions.new.items k ≡ Some p }
    // ensures grows { length positions.old.items ≤ length positions.new.items }
    // ensures within { length positions.new.items ≤ index + 1 + index / 8 }
    // ensures err { OnErr result (positions.new.items ≡ positions.old.items) }
{
    let count = (index + 1).saturating_add(index / 8).min(u32::MAX as usize);
    positions.reserve_exact_fallibly(count - positions.len())?;
    positions.resize_fallibly(count, 0)
}
