// Made of crates/ent_queue/src/entries.rt by rust/erase. It isn't edited by hand.

use crate::commands::bundle_ref::BundleRef;
use crate::commands::entry::Entry;
use crate::commands::handles_ref::HandlesRef;
use crate::commands::kind::{DESPAWN, INSERT, REMOVE, SPAWN, SPAWN_MANY};
use crate::commands::reading::{read_handle, read_u8, read_u32, read_u64};
use crate::handles::ComponentId;
use crate::reserving::Refused;

/// Yields the commands of a queue, in the order of issue.
pub struct Entries<'a> {
    left: usize,
    bytes: &'a [u8],
}

impl<'a> Entries<'a> {
    /// That many commands, of which these are the bytes.
    #[inline]
    pub(super) fn new(left: usize, bytes: &'a [u8]) -> Self
        // requires { ArePacked left bytes.now }
        // ensures { result ≡ unpacked_commands left bytes.now }
    {
        Entries { left, bytes }
    }
}

impl<'a> Iterator for Entries<'a> {
    type Item = Entry<'a>;

    #[inline]
    fn next(&mut self) -> Option<Entry<'a>> {
        if self.left == 0 {
            return None;
        }
        let (entry, rest) = read_entry(self.bytes);
        self.left -= 1;
        self.bytes = rest;
        Some(entry)
    }

    #[inline]
    fn size_hint(&self) -> (usize, Option<usize>)
        // ensures lower { IsWithinCount result.0 (item_count (λ commands. commands) self.now) }
        // ensures upper { IfSome result.1 (UpTo (item_count (λ commands. commands) self.now)) }
        // ensures exact { result ≡ (length self.now, Some (length self.now)) }
    {
        (self.left, Some(self.left))
    }
}

impl ExactSizeIterator for Entries<'_> {
    #[inline]
    fn len(&self) -> usize {
        self.left
    }
}

/// The command at the front of the bytes, and the bytes after it.
#[inline(always)]
fn read_entry(bytes: &[u8]) -> (Entry<'_>, &[u8])
    // requires { (c : Command) × (rest : List ℕ) × BeginsWith c bytes.now rest }
    // ensures entry { command_of result.0 ≡ unpacked_command bytes.now }
    // ensures rest { result.1.now ≡ after_first bytes.now }
{
    let (kind, parts) = read_u8(bytes);
    match kind {
        SPAWN => {
            let (handle, parts) = read_handle(parts);
            let (bundle, rest) = BundleRef::read(parts);
            (Entry::Spawn(handle, bundle), rest)
        }
        SPAWN_MANY => {
            let (count, parts) = read_u32(parts);
            let (handles, parts) = HandlesRef::read(parts, count);
            let (bundle, rest) = BundleRef::read(parts);
            (Entry::SpawnMany(handles, bundle), rest)
        }
        INSERT => {
            let (handle, parts) = read_handle(parts);
            let (bundle, rest) = BundleRef::read(parts);
            (Entry::Insert(handle, bundle), rest)
        }
        REMOVE => {
            let (handle, parts) = read_handle(parts);
            let (id, rest) = read_u8(parts);
            (Entry::Remove(handle, ComponentId(id)), rest)
        }
        DESPAWN => {
            let (handle, rest) = read_handle(parts);
            (Entry::Despawn(handle), rest)
        }
        _ => {
            let (wanted, parts) = read_u32(parts);
            let (why, rest) = read_reason(wanted, parts);
            (Entry::Refused { wanted, why }, rest)
        }
    }
}

/// Why that many handles were refused, and the bytes after it.
#[inline]
fn read_reason(wanted: u32, bytes: &[u8]) -> (Refused, &[u8])
    // requires long { 9 ≤ length bytes.now }
    // requires is { IsRefusal wanted (unpacked_refusal wanted bytes.now) }
    // ensures why { result.0 ≡ unpacked_refusal wanted bytes.now }
    // ensures rest { result.1.now ≡ drop 8 (drop 1 bytes.now) }
{
    let (kind, bytes) = read_u8(bytes);
    let (left, rest) = read_u64(bytes);
    if kind == 1 {
        let left = left as u32;
        (Refused::Space { wanted, left }, rest)
    } else {
        (Refused::Quota { left }, rest)
    }
}
