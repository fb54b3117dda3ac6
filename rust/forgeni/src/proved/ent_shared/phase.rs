// Made of crates/ent_shared/src/phase.rt by rust/erase. It isn't edited by hand.

use alloc::vec::Vec;
use crate::kit::vec::FallibleVec;
use crate::reserving::holders::split_first;
use crate::reserving::reserver::SharedReserver;
use crate::reserving::rule::Opening;
use crate::reserving::shared::SharedSource;
use crate::reserving::word;
use crate::allocator::Entities;
use crate::handles::OutOfMemory;

/// Shares a flushed allocator among `n` reservers, 1 to 1,024, each of which may request
/// [`QUOTA`](crate::allocator::QUOTA) handles. Bevy has no such limits; they are this project's own.
///
/// # Errors
///
/// [`OutOfMemory`], with the allocator as it was.
#[inline]
pub(crate) fn share(
    entities: Entities,
    n: usize,
) -> Result<(SharedSource, Vec<SharedReserver>), (Entities, OutOfMemory)>
    // requires flushed { entities.allocator.asked ≡ 0 }
    // requires some { 0 < n }
    // requires few { n ≤ 1024 }
    // ensures shared { IfOk result (λ made.
    //     (made.0.start ≡ entities.allocator) × (made.0.count ≡ n)) }
    // ensures rows { IfOk result (λ made. made.0.rows ≡ entities.rows) }
    // What is shared is in a sound state.
    // ensures sound { IfOk result (λ made. IsSound made.0.start) }
    // ensures count { IfOk result (λ made. length made.1.items ≡ n) }
    // ensures reservers { IfOk result (λ made.
    //     records_of made.1.items ≡ opened_records entities.allocator 0 n) }
    // ensures unused { IfOk result (λ made. All (λ r. r.own.entries ≡ []) made.1.items) }
    // ensures own { IfOk result (λ made. All (IsOf made.0) made.1.items) }
    // ensures err { IfErr result (λ refused. refused.0 ≡ entities) }
{
    let mut reservers = match Vec::with_capacity_fallibly(n) {
        Ok(reservers) => reservers,
        Err(_) => return Err((entities, OutOfMemory)),
    };
    let top = i64::from(entities.top());
    let opening = Opening { entities, count: n };
    let Ok((word, mut all)) = word::open(&opening) else {
        let Opening { entities, .. } = opening;
        return Err((entities, OutOfMemory));
    };
    for number in 0..n {
        reservers.push_reserved(SharedReserver::new(split_first(&word, &mut all), number, top));
    }
    let Opening { entities, count } = opening;
    Ok((SharedSource::new(entities, word, count), reservers))
}
