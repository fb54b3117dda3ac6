// Made of crates/ent_queue/src/reading.rt by rust/erase. It isn't edited by hand.

//! Numbers, handles and lists at the front of packed bytes, each with the bytes after it.

use crate::handles::Handle;

#[inline]
pub(super) fn read_u8(bytes: &[u8]) -> (u8, &[u8])
    // requires { 1 ≤ length bytes.now }
    // ensures value { result.0 ≡ slice_index bytes.now 0 }
    // ensures rest { result.1.now ≡ drop 1 bytes.now }
{
    (bytes[0], &bytes[1..])
}

#[inline]
pub(super) fn read_u16(bytes: &[u8]) -> (u16, &[u8])
    // requires { 2 ≤ length bytes.now }
    // ensures value { result.0 ≡ number_2 bytes.now }
    // ensures rest { result.1.now ≡ drop 2 bytes.now }
{
    let (number, rest) = bytes.split_first_chunk().unwrap();
    (u16::from_le_bytes(*number), rest)
}

#[inline]
pub(super) fn read_u32(bytes: &[u8]) -> (u32, &[u8])
    // requires { 4 ≤ length bytes.now }
    // ensures value { result.0 ≡ number_4 bytes.now }
    // ensures rest { result.1.now ≡ drop 4 bytes.now }
{
    let (number, rest) = bytes.split_first_chunk().unwrap();
    (u32::from_le_bytes(*number), rest)
}

#[inline]
pub(super) fn read_u64(bytes: &[u8]) -> (u64, &[u8])
    // requires { 8 ≤ length bytes.now }
    // ensures value { result.0 ≡ number_8 bytes.now }
    // ensures rest { result.1.now ≡ drop 8 bytes.now }
{
    let (number, rest) = bytes.split_first_chunk().unwrap();
    (u64::from_le_bytes(*number), rest)
}

#[inline]
pub(super) fn read_handle(bytes: &[u8]) -> (Handle, &[u8])
    // requires long { 8 ≤ length bytes.now }
    // requires is { IsHandle (unpacked_handle bytes.now) }
    // ensures value { result.0 ≡ unpacked_handle bytes.now }
    // ensures rest { result.1.now ≡ drop 8 bytes.now }
{
    let (bits, rest) = read_u64(bytes);
    (handle_of_bits(bits), rest)
}

/// The handle of these bits, which are a handle's.
#[inline]
pub(super) fn handle_of_bits(bits: u64) -> Handle
    // requires { IsHandle (handle_of_bits bits) }
    // ensures { result ≡ handle_of_bits bits }
{
    Handle::from_parts((bits & 0xffff_ffff) as u32, (bits >> 32) as u32)
}
