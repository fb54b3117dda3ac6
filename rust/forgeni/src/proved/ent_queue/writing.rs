// Made of crates/ent_queue/src/writing.rt by rust/erase. It isn't edited by hand.

//! Commands at the end of packed bytes, and their parts. There is room for all that is written.

use alloc::vec::Vec;
use crate::kit::vec::FallibleVec;
use crate::commands::kind::{DESPAWN, REFUSED, REMOVE, SPAWN_MANY};
use crate::allocator::Reserved;
use crate::handles::{ComponentId, Handle};
use crate::reserving::Refused;

#[inline]
pub(super) fn write_u8(bytes: &mut Vec<u8>, number: u8)
    // requires { vec_len bytes.old < vec_capacity bytes.old }
    // ensures items { bytes.new.items ≡ bytes.old.items ++ number ∷ [] }
    // ensures len { vec_len bytes.new ≡ vec_len bytes.old + 1 }
    // ensures capacity { vec_capacity bytes.old ≤ vec_capacity bytes.new }
{
    bytes.push_reserved(number);
}

#[inline]
pub(super) fn write_u16(bytes: &mut Vec<u8>, number: u16)
    // requires { vec_len bytes.old + 2 ≤ vec_capacity bytes.old }
    // ensures items { bytes.new.items ≡ bytes.old.items ++ bytes_2 number }
    // ensures len { vec_len bytes.new ≡ vec_len bytes.old + 2 }
    // ensures capacity { vec_capacity bytes.old ≤ vec_capacity bytes.new }
{
    let _ = bytes.extend_from_slice_fallibly(&number.to_le_bytes());
}

#[inline]
pub(super) fn write_u32(bytes: &mut Vec<u8>, number: u32)
    // requires { vec_len bytes.old + 4 ≤ vec_capacity bytes.old }
    // ensures items { bytes.new.items ≡ bytes.old.items ++ bytes_4 number }
    // ensures len { vec_len bytes.new ≡ vec_len bytes.old + 4 }
    // ensures capacity { vec_capacity bytes.old ≤ vec_capacity bytes.new }
{
    let _ = bytes.extend_from_slice_fallibly(&number.to_le_bytes());
}

#[inline]
pub(super) fn write_u64(bytes: &mut Vec<u8>, number: u64)
    // requires { vec_len bytes.old + 8 ≤ vec_capacity bytes.old }
    // ensures items { bytes.new.items ≡ bytes.old.items ++ bytes_8 number }
    // ensures len { vec_len bytes.new ≡ vec_len bytes.old + 8 }
    // ensures capacity { vec_capacity bytes.old ≤ vec_capacity bytes.new }
{
    let _ = bytes.extend_from_slice_fallibly(&number.to_le_bytes());
}

/// A byte and the number after it, both at once.
#[inline]
fn write_u8_u64(bytes: &mut Vec<u8>, first: u8, number: u64)
    // requires { vec_len bytes.old + 9 ≤ vec_capacity bytes.old }
    // ensures items { bytes.new.items ≡ bytes.old.items ++ first ∷ bytes_8 number }
    // ensures len { vec_len bytes.new ≡ vec_len bytes.old + 9 }
    // ensures capacity { vec_capacity bytes.old ≤ vec_capacity bytes.new }
{
    let n = number.to_le_bytes();
    let _ = bytes.extend_from_slice_fallibly(&[first, n[0], n[1], n[2], n[3], n[4], n[5], n[6], n[7]]);
}

#[inline]
pub(super) fn write_handle(bytes: &mut Vec<u8>, handle: Handle)
    // requires { vec_len bytes.old + 8 ≤ vec_capacity bytes.old }
    // ensures is { IsHandle handle }
    // ensures items { bytes.new.items ≡ bytes.old.items ++ handle_bytes handle }
    // ensures len { vec_len bytes.new ≡ vec_len bytes.old + 8 }
    // ensures capacity { vec_capacity bytes.old ≤ vec_capacity bytes.new }
{
    write_u64(bytes, handle.to_bits());
}

#[inline]
fn write_item(bytes: &mut Vec<u8>, item: (ComponentId, i64))
    // requires { vec_len bytes.old + 9 ≤ vec_capacity bytes.old }
    // ensures items { bytes.new.items ≡ bytes.old.items ++ item_bytes item }
    // ensures len { vec_len bytes.new ≡ vec_len bytes.old + 9 }
    // ensures capacity { vec_capacity bytes.old ≤ vec_capacity bytes.new }
{
    let (id, value) = item;
    write_u8_u64(bytes, id.0, value.cast_unsigned());
}

#[inline]
pub(super) fn write_bundle(bytes: &mut Vec<u8>, items: &[(ComponentId, i64)])
    // requires room { vec_len bytes.old + (2 + 9 * length items.now) ≤ vec_capacity bytes.old }
    // requires is { IsBundle items.now }
    // ensures items { bytes.new.items ≡ bytes.old.items ++ bundle_bytes items.now }
    // ensures len { vec_len bytes.new ≡ vec_len bytes.old + (2 + 9 * length items.now) }
    // ensures capacity { vec_capacity bytes.old ≤ vec_capacity bytes.new }
{
    write_u16(bytes, items.len() as u16);
    for item in items {
        write_item(bytes, *item);
    }
}

/// A handle and a bundle, after the byte for their kind.
#[inline]
pub(super) fn write_with_bundle(
    bytes: &mut Vec<u8>,
    kind: u8,
    handle: Handle,
    items: &[(ComponentId, i64)],
)
    // requires room { vec_len bytes.old + (11 + 9 * length items.now) ≤ vec_capacity bytes.old }
    // requires is { IsBundle items.now }
    // ensures handle { IsHandle handle }
    // ensures items { bytes.new.items
    //     ≡ bytes.old.items ++ kind ∷ (handle_bytes handle ++ bundle_bytes items.now) }
{
    write_u8_u64(bytes, kind, handle.to_bits());
    write_bundle(bytes, items);
}

/// For each handle the byte for the kind, the handle, and then the same bytes.
#[inline]
pub(super) fn write_each(bytes: &mut Vec<u8>, kind: u8, handles: &[Handle], rest: &[u8])
    // requires { vec_len bytes.old + length handles.now * (9 + length rest.now)
    //     ≤ vec_capacity bytes.old }
    // ensures each { All IsHandle handles.now }
    // ensures items { bytes.new.items ≡ bytes.old.items
    //     ++ flat_map (λ handle. kind ∷ (handle_bytes handle ++ rest.now)) handles.now }
{
    for handle in handles {
        write_u8_u64(bytes, kind, handle.to_bits());
        let _ = bytes.extend_from_slice_fallibly(rest);
    }
}

#[inline]
pub(super) fn write_remove(bytes: &mut Vec<u8>, handle: Handle, id: ComponentId)
    // requires { vec_len bytes.old + 10 ≤ vec_capacity bytes.old }
    // ensures handle { IsHandle handle }
    // ensures id { id.0 < 2 ^ 8 }
    // ensures items { bytes.new.items ≡ bytes.old.items ++ command_bytes (Remove handle id) }
{
    write_u8_u64(bytes, REMOVE, handle.to_bits());
    write_u8(bytes, id.0);
}

#[inline]
pub(super) fn write_despawn(bytes: &mut Vec<u8>, handle: Handle)
    // requires { vec_len bytes.old + 9 ≤ vec_capacity bytes.old }
    // ensures handle { IsHandle handle }
    // ensures items { bytes.new.items ≡ bytes.old.items ++ command_bytes (Despawn handle) }
{
    write_u8_u64(bytes, DESPAWN, handle.to_bits());
}

#[inline]
pub(super) fn write_refused(bytes: &mut Vec<u8>, wanted: u32, why: Refused)
    // requires { vec_len bytes.old + 14 ≤ vec_capacity bytes.old }
    // ensures wanted { wanted < 2 ^ 32 }
    // ensures why { HasRange why }
    // ensures items { bytes.new.items ≡ bytes.old.items ++ command_bytes (RefusedCommand wanted why) }
{
    write_u8(bytes, REFUSED);
    write_u32(bytes, wanted);
    match why {
        Refused::Space { left, .. } => {
            write_u8(bytes, 1);
            write_u64(bytes, u64::from(left));
        }
        Refused::Quota { left } => {
            write_u8(bytes, 2);
            write_u64(bytes, left);
        }
    }
}

/// The handles of a reservation, which also go to the end of `handles`, and before them their
/// number.
#[inline]
pub(super) fn write_many(
    bytes: &mut Vec<u8>,
    handles: &mut Vec<Handle>,
    n: u32,
    given: Reserved<'_>,
)
    // requires length { length given ≡ n }
    // requires room { vec_len bytes.old + (5 + 8 * n) ≤ vec_capacity bytes.old }
    // requires spare { vec_len handles.old + n ≤ vec_capacity handles.old }
    // ensures number { n < 2 ^ 32 }
    // ensures handles { handles.new.items ≡ handles.old.items ++ given.entry }
    // ensures each { All IsHandle given.entry }
    // ensures items { bytes.new.items
    //     ≡ bytes.old.items ++ 1 ∷ (bytes_4 n ++ flat_map handle_bytes given.entry) }
    // ensures len { vec_len bytes.new ≡ vec_len bytes.old + (5 + 8 * n) }
    // ensures capacity { vec_capacity bytes.old ≤ vec_capacity bytes.new }
{
    write_u8(bytes, SPAWN_MANY);
    write_u32(bytes, n);
    for handle in given {
        handles.push_reserved(handle);
        write_handle(bytes, handle);
    }
}
