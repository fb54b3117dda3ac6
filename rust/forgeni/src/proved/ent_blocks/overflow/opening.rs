// Made of crates/ent_blocks/src/overflow/opening.rt by rust/erase. It isn't edited by hand.

//! An allocator is dealt in blocks, and the rest of it is shared.

use alloc::vec::Vec;
use crate::kit::vec::FallibleVec;
use crate::in_blocks::opening::parts_of;
use crate::in_blocks::overflow::dealing::deal;
use crate::in_blocks::overflow::phase::Overflow;
use crate::in_blocks::overflow::reserver::OverflowReserver;
use crate::in_blocks::part::{Part, dealt};
use crate::allocator::Entities;
use crate::handles::OutOfMemory;
use crate::reserving::{SharedReserver, SharedSource, share};

/// Deals the pool's front in blocks of these sizes, one after the other, and shares the rest of it:
/// at most 1,023 blocks. A block is smaller where the pool ends.
///
/// No slot is made, and no list of handles. It takes time and memory for each block, however large
/// they are.
///
/// # Errors
///
/// [`OutOfMemory`], with the allocator as it was, if an allocation fails, and for no other reason. Some
/// memory is for the cursor, so it may run out without blocks too.
#[inline]
pub(crate) fn open_with_overflow(
    entities: Entities,
    sizes: &[u32],
) -> Result<(Overflow, Vec<OverflowReserver>), (Entities, OutOfMemory)>
    // requires flushed { entities.allocator.asked ≡ 0 }
    // requires few { length sizes.now < 1024 }
    // ensures start { IfOk result (λ made. made.0.shared.start ≡ entities.allocator) }
    // ensures rows { IfOk result (λ made. made.0.shared.rows ≡ entities.rows) }
    // ensures blocks { IfOk result (λ made. made.0.blocks
    //     ≡ blocks_from 0 (length entities.allocator.pool) sizes.now) }
    // ensures reservers { IfOk result (λ made. own_blocks made.1.items ≡ made.0.blocks) }
    // ensures own { IfOk result (λ made. All (IsCallerOf made.0) made.1.items) }
    // ensures count { IfOk result (λ made. length made.1.items ≡ length made.0.blocks) }
    // ensures many { IfOk result (λ made. length made.1.items ≡ length sizes.now) }
    // ensures among { IfOk result (λ made.
    //     IsTrue (are_among made.0.blocks (own_blocks made.1.items))) }
    // ensures nothing { IfOk result (λ made. past_history made.1.items ≡ []) }
    // ensures unused { IfOk result (λ made. All IsUnused made.1.items) }
    // ensures err { IfErr result (λ refused. refused.0 ≡ entities) }
{
    let count = sizes.len();
    let Ok(parts) = parts_of(&entities, sizes) else {
        return Err((entities, OutOfMemory));
    };
    let Ok(mut callers) = Vec::with_capacity_fallibly(count) else {
        return Err((entities, OutOfMemory));
    };
    let Ok(ends) = Vec::with_capacity_fallibly(count + 1) else {
        return Err((entities, OutOfMemory));
    };
    let Ok(returned) = Vec::with_capacity_fallibly(count + 1) else {
        return Err((entities, OutOfMemory));
    };
    let (shared, mut reservers) = share(entities, count + 1)?;
    let Some(mut dealer) = reservers.pop() else {
        unreachable!()
    };
    deal(&shared, &mut dealer, dealt(&parts));
    hand_out(&shared, &mut dealer, &parts, &mut reservers, &mut callers);
    Ok((
        Overflow::new(shared, dealer, parts, ends, returned),
        callers,
    ))
}

/// Gives each block one of the reservers, which comes after the dealer from then on.
#[inline]
fn hand_out(
    shared: &SharedSource,
    dealer: &mut SharedReserver,
    parts: &[Part],
    reservers: &mut Vec<SharedReserver>,
    callers: &mut Vec<OverflowReserver>,
)
    // requires phase { IsPhase shared.now dealer.old parts.now }
    // requires fresh { All (IsFresh shared.now) reservers.old.items }
    // requires many { length reservers.old.items ≡ length parts.now }
    // requires none { callers.old.items ≡ [] }
    // requires room { length parts.now ≤ vec_capacity callers.old }
    // ensures dealer { dealer.new ≡ dealer.old }
    // ensures blocks { own_blocks callers.new.items ≡ parts.now }
    // ensures own { All (IsCallerOf (record {
    //   shared = shared.now;
    //   dealer = dealer.old;
    //   blocks = parts.now;
    // })) callers.new.items }
    // ensures nothing { past_history callers.new.items ≡ [] }
    // ensures unused { All IsUnused callers.new.items }
{
    for part in parts {
        let Some(mut past) = reservers.pop() else {
            unreachable!()
        };
        shared.meet(&mut past, dealer);
        callers.push_reserved(OverflowReserver {
            part: part.with_used(0),
            past,
        });
    }
}
