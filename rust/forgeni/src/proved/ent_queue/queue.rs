// Made of crates/ent_queue/src/queue.rt by rust/erase. It isn't edited by hand.

use alloc::vec::Vec;
use crate::kit::vec::FallibleVec;
use crate::commands::entries::Entries;
use crate::commands::kind::{INSERT, SPAWN};
use crate::commands::writing::{
    write_bundle, write_despawn, write_each, write_many, write_refused, write_remove,
    write_with_bundle,
};
use crate::allocator::{ReserveError, Source};
use crate::handles::{ComponentId, Handle, OutOfMemory};

/// How many bytes a refusal has.
const REFUSAL: usize = 14;

/// Commands in the order of issue, packed as bytes.
///
/// Only [`SystemCommands`](crate::commands::SystemCommands) makes one.
///
/// ```
/// use forgeni::{run_frame, IssuedCommands, OutOfMemory, Source, SystemCommands, View, World};
/// use forgeni::StdThreads;
///
/// type Commands<'a, S> = SystemCommands<'a, IssuedCommands, S>;
///
/// fn rain<S: Source>(_: &View<'_>, commands: &mut Commands<'_, S>) -> Result<(), OutOfMemory> {
///     commands.spawn_with(&[]).map_or_else(|refused| refused.or_memory(), |_| Ok(()))
/// }
///
/// let mut world = World::new();
/// run_frame(&StdThreads, &mut world, &[rain; 3], 2)?;
/// assert_eq!(world.len(), 3);
/// # Ok::<(), Box<dyn std::error::Error>>(())
/// ```
#[derive(Debug)]
pub struct IssuedCommands {
    bytes: Vec<u8>,
    count: usize,
}

impl IssuedCommands {
    #[inline]
    pub(super) fn new() -> Self
        // ensures { result ≡ [] }
    {
        IssuedCommands {
            bytes: Vec::new(),
            count: 0,
        }
    }

    /// Returns the number of commands.
    ///
    /// <details><summary>Contract</summary>
    ///
    /// <code style="display: block; tab-size: 4; white-space: pre-wrap">// In the words of [contracts](crate::contracts):
    /// ensures { result ≡ [length](crate::contracts::logic#length) self.now }
    /// </code>
    ///
    /// </details>
    #[inline]
    pub fn len(&self) -> usize {
        self.entries().len()
    }

    /// Returns `true` if there are no commands.
    ///
    /// <details><summary>Contract</summary>
    ///
    /// <code style="display: block; tab-size: 4; white-space: pre-wrap">// In the words of [contracts](crate::contracts):
    /// ensures { [IsTrue](crate::contracts::logic#IsTrue) result ↔ (self.now ≡ \[\]) }
    /// </code>
    ///
    /// </details>
    #[inline]
    pub fn is_empty(&self) -> bool {
        self.count == 0
    }

    /// The commands, in the order of issue. They are read in place.
    #[inline]
    pub(crate) fn entries(&self) -> Entries<'_>
        // ensures entries { result ≡ self.now }

        // Each command is in its ranges. A refusal for lack of slots says twice how many handles
        // were wanted, and the two numbers are equal.
        // ensures each { All IsCommand self.now }
    {
        Entries::new(self.count, &self.bytes)
    }

    /// The bytes of all commands, one after the other.
    ///
    /// Each begins with a byte for its kind. All numbers are little endian, a handle has its bits
    /// in 8 bytes and a value 8 bytes in two's complement. A bundle is its count in 2 bytes, and
    /// for each item its component's number in 1 byte and its value.
    ///
    /// | First byte | Rest |
    /// |---|---|
    /// | 0, a spawn | handle, bundle |
    /// | 1, a spawn of many | count in 4 bytes, the handles, bundle |
    /// | 2, an insertion | handle, bundle |
    /// | 3, a removal | handle, component in 1 byte |
    /// | 4, a despawn | handle |
    /// | 5, a refusal | wanted in 4 bytes; 1 for `Space`, 2 for `Quota`; what was left in 8 bytes |
    #[inline]
    pub(crate) fn bytes(&self) -> &[u8]
        // ensures { result.now ≡ queue_bytes self.now }
    {
        &self.bytes
    }

    /// Grows first, for the spawn and for a refusal alike, and then reserves.
    #[inline]
    pub(super) fn spawn<S: Source>(
        &mut self,
        source: &S,
        reserver: &mut S::Reserver,
        items: &[(ComponentId, i64)],
    ) -> Result<Handle, ReserveError>
        // requires of { S.serves source.now reserver.old }
        // requires is { IsBundle items.now }
        // ensures stays { S.serves source.now reserver.new }
        // ensures ok { IfOk result (λ handle. self.new ≡ self.old ++ Spawn handle items.now ∷ []) }
        // ensures refused { IfErr result (λ fault. self.new ≡ self.old ++ refused_by 1 fault) }
        // ensures memory { IsErrOf result ReserveError.Memory → reserver.new ≡ reserver.old }
        // ensures replies { (reply : Result HandleValue Refusal) → result ≡ queued reply
        //     → S.may_reply source.now reserver.old reserver.new 1 (listed_alone reply) }
    {
        let own = 11 + 9 * items.len();
        self.bytes.reserve_fallibly(own.max(REFUSAL))?;
        match source.serve_one(reserver) {
            Ok(handle) => {
                write_with_bundle(&mut self.bytes, SPAWN, handle, items);
                self.count += 1;
                Ok(handle)
            }
            Err(why) => {
                write_refused(&mut self.bytes, 1, why);
                self.count += 1;
                Err(ReserveError::from(why))
            }
        }
    }

    /// Grows first, for the spawn, for a refusal and for the list alike, and then reserves.
    #[inline]
    pub(super) fn spawn_many<S: Source>(
        &mut self,
        source: &S,
        reserver: &mut S::Reserver,
        n: u32,
        items: &[(ComponentId, i64)],
    ) -> Result<Vec<Handle>, ReserveError>
        // requires of { S.serves source.now reserver.old }
        // requires is { IsBundle items.now }
        // ensures stays { S.serves source.now reserver.new }
        // ensures ok { IfOk result
        //     (λ handles. self.new ≡ self.old ++ SpawnMany handles.items items.now ∷ []) }
        // ensures length { IfOk result (λ handles. length handles.items ≡ n) }
        // ensures refused { IfErr result (λ fault. self.new ≡ self.old ++ refused_by n fault) }
        // ensures memory { IsErrOf result ReserveError.Memory → reserver.new ≡ reserver.old }
        // ensures replies { (reply : Result (List HandleValue) Refusal)
        //     → as_list result ≡ queued reply
        //     → S.may_reply source.now reserver.old reserver.new n reply }
    {
        let mut handles = Vec::with_capacity_fallibly(n as usize)?;
        let own = 7 + 8 * n as usize + 9 * items.len();
        self.bytes.reserve_fallibly(own.max(REFUSAL))?;
        match source.serve_many(reserver, n) {
            Ok(given) => {
                write_many(&mut self.bytes, &mut handles, n, given);
                write_bundle(&mut self.bytes, items);
                self.count += 1;
                Ok(handles)
            }
            Err(why) => {
                write_refused(&mut self.bytes, n, why);
                self.count += 1;
                Err(ReserveError::from(why))
            }
        }
    }

    #[inline]
    pub(super) fn insert(
        &mut self,
        handle: Handle,
        items: &[(ComponentId, i64)],
    ) -> Result<(), OutOfMemory>
        // requires { IsBundle items.now }
        // ensures ok { OnOk result (self.new ≡ self.old ++ Insert handle items.now ∷ []) }
        // ensures err { OnErr result (self.new ≡ self.old) }
    {
        self.bytes.reserve_fallibly(11 + 9 * items.len())?;
        write_with_bundle(&mut self.bytes, INSERT, handle, items);
        self.count += 1;
        Ok(())
    }

    /// An insertion for each handle. The bundle is packed once, and room for all is made first.
    #[inline]
    pub(super) fn insert_each(
        &mut self,
        handles: &[Handle],
        items: &[(ComponentId, i64)],
    ) -> Result<(), OutOfMemory>
        // requires { IsBundle items.now }
        // ensures ok { OnOk result (self.new
        //     ≡ self.old ++ map (λ handle. Insert handle items.now) handles.now) }
        // ensures err { OnErr result (self.new ≡ self.old) }
    {
        let mut bundle = Vec::with_capacity_fallibly(2 + 9 * items.len())?;
        write_bundle(&mut bundle, items);
        let Some(room) = handles.len().checked_mul(11 + 9 * items.len()) else {
            return Err(OutOfMemory);
        };
        self.bytes.reserve_fallibly(room)?;
        write_each(&mut self.bytes, INSERT, handles, &bundle);
        self.count += handles.len();
        Ok(())
    }

    #[inline]
    pub(super) fn remove(&mut self, handle: Handle, id: ComponentId) -> Result<(), OutOfMemory>
        // ensures ok { OnOk result (self.new ≡ self.old ++ Remove handle id ∷ []) }
        // ensures err { OnErr result (self.new ≡ self.old) }
    {
        self.bytes.reserve_fallibly(10)?;
        write_remove(&mut self.bytes, handle, id);
        self.count += 1;
        Ok(())
    }

    #[inline]
    pub(super) fn despawn(&mut self, handle: Handle) -> Result<(), OutOfMemory>
        // ensures ok { OnOk result (self.new ≡ self.old ++ Despawn handle ∷ []) }
        // ensures err { OnErr result (self.new ≡ self.old) }
    {
        self.bytes.reserve_fallibly(9)?;
        write_despawn(&mut self.bytes, handle);
        self.count += 1;
        Ok(())
    }
}
