// Made of crates/ent_storage/src/order.rt by rust/erase. It isn't edited by hand.

use alloc::vec::Vec;
use crate::kit::vec::CollectIn;
use crate::kit::vec::FallibleVec;
use super::living::Resident;
use crate::handles::{Birth, Handle};
use crate::kit::alloc::AllocError;

/// The handles of the residents, by birth and then by handle. Without residents it doesn't allocate.
/// It takes no time of a sort, and no memory but for the handles, if each was born before the next.
///
/// <details><summary>Contract</summary>
///
/// <code style="display: block; tab-size: 4; white-space: pre-wrap">// In the words of [contracts](crate::contracts):
/// ensures ok { [IfOk](crate::contracts::logic#IfOk) result (λ handles. [IsInOrder](crate::contracts::ent_storage::birth_order#IsInOrder)
/// &#9;([map](crate::contracts::logic#map) (λ resident. (resident.birth, resident.handle)) residents.now) handles.items) }
/// ensures memory { [OnErr](crate::contracts::logic#OnErr) result (0 \< [length](crate::contracts::logic#length) residents.now) }
/// </code>
///
/// </details>
#[inline]
pub fn handles_by_birth(residents: &[Resident]) -> Result<Vec<Handle>, AllocError> {
    if residents.is_empty() {
        return Ok(Vec::new());
    }
    if are_rising(residents) {
        return handles_of(residents);
    }
    handles_in_order(births(residents)?)
}

/// The handle of each resident.
#[inline]
fn handles_of(residents: &[Resident]) -> Result<Vec<Handle>, AllocError>
    // ensures { IfOk result (λ handles.
    //     handles.items ≡ map (λ resident. resident.handle) residents.now) }
{
    residents
        .iter()
        .map(|resident| resident.handle)
        .collect_in()
}

/// Returns `true` if each resident was born before the next one.
#[inline]
fn are_rising(residents: &[Resident]) -> bool
    // ensures { result ≡ true → IsSorted pair_cmp
    //     (map (λ resident. (resident.birth, resident.handle)) residents.now) }
{
    if residents.is_empty() {
        return true;
    }
    let mut last = packed(residents[0].birth);
    for i in 1..residents.len() {
        let birth = packed(residents[i].birth);
        if birth <= last {
            return false;
        }
        last = birth;
    }
    true
}

/// The birth and the handle of each resident.
#[inline]
fn births(residents: &[Resident]) -> Result<Vec<(Birth, Handle)>, AllocError>
    // ensures { IfOk result (λ births.
    //     births.items ≡ map (λ resident. (resident.birth, resident.handle)) residents.now) }
{
    residents
        .iter()
        .map(|resident| (resident.birth, resident.handle))
        .collect_in()
}

/// The handles, by birth and then by handle. Without entities it doesn't allocate.
///
/// <details><summary>Contract</summary>
///
/// <code style="display: block; tab-size: 4; white-space: pre-wrap">// In the words of [contracts](crate::contracts):
/// ensures ok { [IfOk](crate::contracts::logic#IfOk) result (λ handles. [IsInOrder](crate::contracts::ent_storage::birth_order#IsInOrder) births.items handles.items) }
/// ensures memory { [OnErr](crate::contracts::logic#OnErr) result (0 \< [length](crate::contracts::logic#length) births.items) }
/// </code>
///
/// </details>
#[inline]
pub fn handles_in_order(
    mut births: Vec<(Birth, Handle)>,
) -> Result<Vec<Handle>, AllocError> {
    if births.is_empty() {
        return Ok(Vec::new());
    }
    if rise(&births) {
        return handles(&births);
    }
    sort_births(&mut births);
    births.sort_unstable();
    handles(&births)
}

/// Returns `true` if each birth comes before the next one.
#[inline]
fn rise(births: &[(Birth, Handle)]) -> bool
    // ensures { result ≡ true → IsSorted pair_cmp births.now }
{
    if births.is_empty() {
        return true;
    }
    let mut last = packed(births[0].0);
    for i in 1..births.len() {
        let birth = packed(births[i].0);
        if birth <= last {
            return false;
        }
        last = birth;
    }
    true
}

/// Sorts by birth alone. What is left for the sort that follows are entities of one birth, so it
/// mostly makes one pass. This one takes its memory, and is quicker: the slots of one system rise,
/// even if other systems reserved between them, and it merges what rises already.
///
/// Without memory for its buffer it changes nothing.
#[inline]
fn sort_births(births: &mut Vec<(Birth, Handle)>)
    // ensures { IsPermutation births.old.items births.new.items }
{
    let _ = births.sort_by_key_fallibly(|pair| packed(pair.0));
}

/// One number that has the order of the births: it is compared at once.
#[inline]
fn packed(birth: Birth) -> u128
    // ensures number { result ≡ packed_birth birth }
    // ensures system { birth.system < 2 ^ 32 }
    // ensures ordinal { birth.ordinal < 2 ^ 32 }
{
    ((birth.frame as u128) << 64) + ((birth.system as u128) << 32) + birth.ordinal as u128
}

#[inline]
fn handles(births: &[(Birth, Handle)]) -> Result<Vec<Handle>, AllocError>
    // ensures ok { IfOk result (λ handles. handles.items ≡ map (λ pair. pair.1) births.now) }
{
    births.iter().map(|pair| pair.1).collect_in()
}

/// The least handle of a resident with that birth, if there is one.
///
/// <details><summary>Contract</summary>
///
/// <code style="display: block; tab-size: 4; white-space: pre-wrap">// In the words of [contracts](crate::contracts):
/// ensures { [IsLeastOf](crate::contracts::ent_storage::birth_order#IsLeastOf) birth ([map](crate::contracts::logic#map) (λ resident. (resident.birth, resident.handle)) residents.now)
/// &#9;result }
/// </code>
///
/// </details>
#[inline]
pub fn least_of_birth(residents: &[Resident], birth: Birth) -> Option<Handle> {
    let mut least = None;
    for resident in residents {
        if resident.birth == birth {
            least = Some(lesser(least, resident.handle));
        }
    }
    least
}

/// The lesser of the two handles, or the one if there is no other.
#[inline]
fn lesser(other: Option<Handle>, handle: Handle) -> Handle
    // ensures one { (result ≡ handle) ⊎ (other ≡ Some result) }
    // ensures handle { handle_cmp result handle ≢ Greater }
    // ensures other { IfSome other (λ h. handle_cmp result h ≢ Greater) }
{
    match other {
        Some(least) if least < handle => least,
        _ => handle,
    }
}
