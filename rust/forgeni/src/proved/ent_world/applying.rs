// Made of crates/ent_world/src/applying.rt by rust/erase. It isn't edited by hand.

//! The commands of a sync point take effect, one by one. Each changes the world whole or not at
//! all.

use alloc::vec::Vec;
use crate::kit::vec::FallibleVec;
use crate::worlds::fault::{Fault, FaultKind};
use crate::worlds::rows::place_of;
use crate::worlds::stop::{At, Stop};
use crate::worlds::world::World;
use crate::handles::{ComponentId, Handle, OutOfMemory};
use crate::commands::{BundleRef, IssuedCommands, Entry, HandlesRef};
use crate::reserving::Refused;

/// What commands are applied with, beside the world.
pub(super) struct Applying {
    /// The components of the bundle that was read last. All commands share their room.
    pub(super) items: Vec<(ComponentId, i64)>,
    /// The faults so far.
    pub(super) faults: Vec<Fault>,
}

impl Applying {
    #[inline]
    pub(super) fn new() -> Self
        // ensures { result.faults.items ≡ [] }
    {
        Applying {
            items: Vec::new(),
            faults: Vec::new(),
        }
    }

    /// Reads the components of a bundle, instead of what was read before. A bundle of one
    /// component, the most frequent one, needs no list.
    #[inline(always)]
    fn read(&mut self, bundle: &BundleRef<'_>) -> Result<(), OutOfMemory>
        // ensures faults { self.new.faults.items ≡ self.old.faults.items }
        // ensures ok { OnOk result (IsRead bundle.now self.new.items.items) }
        // ensures memory { OnErr result (1 < length bundle.now) }
    {
        match bundle.len() {
            1 => Ok(()),
            _ => self.read_list(bundle),
        }
    }

    /// Reads the components of a bundle into the list. After an `Err` it is empty.
    #[inline]
    fn read_list(&mut self, bundle: &BundleRef<'_>) -> Result<(), OutOfMemory>
        // ensures faults { self.new.faults.items ≡ self.old.faults.items }
        // ensures ok { OnOk result (self.new.items.items ≡ bundle.now) }
        // ensures memory { OnErr result (0 < length bundle.now) }
    {
        self.items.clear();
        self.items.reserve_fallibly(bundle.len())?;
        for item in bundle.iter() {
            self.items.push_reserved(item);
        }
        Ok(())
    }

    /// Lists one fault more.
    #[inline]
    fn add_fault(&mut self, at: At, kind: FaultKind) -> Result<(), OutOfMemory>
        // ensures items { self.new.items.items ≡ self.old.items.items }
        // ensures ok { OnOk result (self.new.faults.items ≡ self.old.faults.items
        //     ++ record { system = at.system; command = at.command; kind = kind } ∷ []) }
        // ensures err { OnErr result (self.new.faults.items ≡ self.old.faults.items) }
    {
        self.faults.push_fallibly(Fault {
            system: at.system,
            command: at.command,
            kind,
        })?;
        Ok(())
    }
}

impl World {
    /// Applies all commands of the queues.
    #[inline]
    pub(super) fn apply_all(
        &mut self,
        queues: &[IssuedCommands],
        applying: &mut Applying,
    ) -> Result<(), Stop>
        // requires { self.old.allocator.asked ≡ 0 }
        // ensures flushed { self.new.allocator.asked ≡ 0 }
        // ensures ok { OnOk result (applied self.new applying.new.faults.items
        //     ≡ after_queues 0 queues.now (applied self.old applying.old.faults.items)) }
        // ensures err { IfErr result (λ stop. applied self.new applying.new.faults.items
        //     ≡ after_queues 0 (cut stop.at.system stop.at.command stop.done queues.now)
        //     (applied self.old applying.old.faults.items)) }
        // ensures stop { IfErr result (λ stop.
        //     IsStop stop.at.system stop.at.command stop.done queues.now) }
        // ensures memory { IfErr result (λ stop.
        //     TakesMemoryAt self.new stop.at.system stop.at.command stop.done queues.now) }
    {
        self.apply_queues(Stop::before(0), queues, applying)
    }

    /// Applies what is left of the queues from a stop on, one queue after the other.
    #[inline]
    pub(super) fn apply_queues(
        &mut self,
        from: Stop,
        queues: &[IssuedCommands],
        applying: &mut Applying,
    ) -> Result<(), Stop>
        // requires flushed { self.old.allocator.asked ≡ 0 }
        // requires from { from.done ≡ 0 ⊎ IsStop from.at.system from.at.command from.done queues.now }
        // ensures flushed { self.new.allocator.asked ≡ 0 }
        // ensures ok { OnOk result (applied self.new applying.new.faults.items
        //     ≡ after_left from.at.system from.at.command from.done queues.now
        //     (applied self.old applying.old.faults.items)) }
        // ensures err { IfErr result (λ stop. applied self.new applying.new.faults.items
        //     ≡ after_left from.at.system from.at.command from.done
        //     (cut stop.at.system stop.at.command stop.done queues.now)
        //     (applied self.old applying.old.faults.items)) }
        // ensures stop { IfErr result (λ stop.
        //     IsStop stop.at.system stop.at.command stop.done queues.now) }
        // ensures later { IfErr result (λ stop. IsLater from.at.system from.at.command from.done
        //     stop.at.system stop.at.command stop.done) }
        // ensures memory { IfErr result (λ stop.
        //     TakesMemoryAt self.new stop.at.system stop.at.command stop.done queues.now) }
    {
        for (system, queue) in queues.iter().enumerate() {
            if system < from.at.system {
                continue;
            }
            self.apply_queue(from.in_queue(system), queue, applying)?;
        }
        Ok(())
    }

    /// Applies what is left of a queue from a stop in it on, in the order of issue.
    #[inline(always)]
    fn apply_queue(
        &mut self,
        from: Stop,
        queue: &IssuedCommands,
        applying: &mut Applying,
    ) -> Result<(), Stop>
        // requires flushed { self.old.allocator.asked ≡ 0 }
        // requires from { from.done ≡ 0 ⊎ from.done < stops (drop from.at.command queue.now) }
        // ensures flushed { self.new.allocator.asked ≡ 0 }
        // ensures ok { OnOk result (applied self.new applying.new.faults.items
        //     ≡ after_commands from.at.system from.at.command
        //     (left_commands from.at.command from.done queue.now)
        //     (applied self.old applying.old.faults.items)) }
        // ensures err { IfErr result (λ stop. applied self.new applying.new.faults.items
        //     ≡ after_commands from.at.system from.at.command (left_commands from.at.command from.done
        //     (cut_commands stop.at.command stop.done queue.now))
        //     (applied self.old applying.old.faults.items)) }
        // ensures at { IfErr result (λ stop. stop.at.system ≡ from.at.system) }
        // ensures stop { IfErr result (λ stop.
        //     stop.done < stops (drop stop.at.command queue.now)) }
        // ensures later { IfErr result (λ stop.
        //     IsLaterIn from.at.command from.done stop.at.command stop.done) }
        // ensures memory { IfErr result (λ stop.
        //     TakesMemoryIn self.new stop.at.command stop.done queue.now) }
    {
        let mut entries = queue.entries();
        for command in 0..queue.len() {
            let Some(entry) = entries.next() else {
                unreachable!()
            };
            if command < from.at.command {
                continue;
            }
            self.apply_command(from.at_command(command), entry, applying)?;
        }
        Ok(())
    }

    /// Applies what is left of one command.
    #[inline(always)]
    fn apply_command(
        &mut self,
        from: Stop,
        entry: Entry<'_>,
        applying: &mut Applying,
    ) -> Result<(), Stop>
        // requires flushed { self.old.allocator.asked ≡ 0 }
        // requires from { from.done < stops (command_of entry ∷ []) }
        // ensures flushed { self.new.allocator.asked ≡ 0 }
        // ensures ok { OnOk result (applied self.new applying.new.faults.items
        //     ≡ after_commands from.at.system from.at.command
        //     (last_part from.done (command_of entry.entry ∷ []))
        //     (applied self.old applying.old.faults.items)) }
        // ensures err { IfErr result (λ stop. applied self.new applying.new.faults.items
        //     ≡ after_commands from.at.system from.at.command
        //     (last_part from.done (first_part stop.done (command_of entry.entry ∷ [])))
        //     (applied self.old applying.old.faults.items)) }
        // ensures at { IfErr result (λ stop. stop.at ≡ from.at) }
        // ensures later { IfErr result (λ stop. from.done ≤ stop.done) }
        // ensures stop { IfErr result (λ stop. stop.done < stops (command_of entry.entry ∷ [])) }
        // ensures memory { IfErr result (λ stop.
        //     command_takes_memory self.new stop.done (command_of entry.entry) ≡ true) }
    {
        let at = from.at;
        match entry {
            Entry::Spawn(handle, bundle) | Entry::Insert(handle, bundle) => {
                self.insert_bundle(at, handle, bundle, applying)
                    .map_err(|_| from)
            }
            Entry::SpawnMany(handles, bundle) => self.insert_each(from, handles, bundle, applying),
            Entry::Remove(handle, id) => self
                .remove_component(at, handle, id, applying)
                .map_err(|_| from),
            Entry::Despawn(handle) => self.despawn_entity(at, handle, applying).map_err(|_| from),
            Entry::Refused { why, .. } => applying.add_fault(at, refusal(why)).map_err(|_| from),
        }
    }

    /// Gives each of the entities the components, but for the first ones, which are done.
    #[inline(never)]
    fn insert_each(
        &mut self,
        from: Stop,
        handles: HandlesRef<'_>,
        bundle: BundleRef<'_>,
        applying: &mut Applying,
    ) -> Result<(), Stop>
        // requires flushed { self.old.allocator.asked ≡ 0 }
        // requires from { from.done < max 1 (length handles) }
        // ensures flushed { self.new.allocator.asked ≡ 0 }
        // ensures ok { OnOk result (applied self.new applying.new.faults.items
        //     ≡ on_each from.at.system from.at.command (after_insert bundle.entry)
        //     (drop from.done handles.entry)
        //     (applied self.old applying.old.faults.items)) }
        // ensures err { IfErr result (λ stop. applied self.new applying.new.faults.items
        //     ≡ on_each from.at.system from.at.command (after_insert bundle.entry)
        //     (drop from.done (take stop.done handles.entry))
        //     (applied self.old applying.old.faults.items)) }
        // ensures at { IfErr result (λ stop. stop.at ≡ from.at) }
        // ensures later { IfErr result (λ stop. from.done ≤ stop.done) }
        // ensures stop { IfErr result (λ stop. stop.done < max 1 (length handles.entry)) }
        // ensures memory { IfErr result (λ stop. one_takes_memory self.new bundle.entry
        //     (slice_get handles.entry stop.done) ≡ true) }
    {
        if handles.is_empty() {
            return Ok(());
        }
        if applying.read(&bundle).is_err() {
            return Err(from);
        }
        let mut left = handles.iter();
        for done in 0..handles.len() {
            let Some(handle) = left.next() else {
                unreachable!()
            };
            if done < from.done {
                continue;
            }
            if self
                .insert_read(from.at, handle, &bundle, applying)
                .is_err()
            {
                return Err(Stop { at: from.at, done });
            }
        }
        Ok(())
    }

    /// Gives the entity the components of the bundle, instead of those that it has under the same
    /// numbers.
    #[inline(always)]
    fn insert_bundle(
        &mut self,
        at: At,
        handle: Handle,
        bundle: BundleRef<'_>,
        applying: &mut Applying,
    ) -> Result<(), OutOfMemory>
        // requires { self.old.allocator.asked ≡ 0 }
        // ensures flushed { self.new.allocator.asked ≡ 0 }
        // ensures ok { OnOk result (applied self.new applying.new.faults.items
        //     ≡ on_entity at.system at.command (after_insert bundle.entry) handle
        //     (applied self.old applying.old.faults.items)) }
        // ensures err { OnErr result (applied self.new applying.new.faults.items
        //     ≡ applied self.old applying.old.faults.items) }
        // ensures memory { OnErr result (insert_takes_memory self.new bundle.entry handle ≡ true) }
    {
        applying.read(&bundle)?;
        self.insert_read(at, handle, &bundle, applying)
    }

    /// The same of a bundle that was read last.
    #[inline(always)]
    fn insert_read(
        &mut self,
        at: At,
        handle: Handle,
        bundle: &BundleRef<'_>,
        applying: &mut Applying,
    ) -> Result<(), OutOfMemory>
        // requires flushed { self.old.allocator.asked ≡ 0 }
        // requires read { IsRead bundle.now applying.old.items.items }
        // ensures flushed { self.new.allocator.asked ≡ 0 }
        // ensures items { applying.new.items.items ≡ applying.old.items.items }
        // ensures ok { OnOk result (applied self.new applying.new.faults.items
        //     ≡ on_entity at.system at.command (after_insert bundle.now) handle
        //     (applied self.old applying.old.faults.items)) }
        // ensures err { OnErr result (applied self.new applying.new.faults.items
        //     ≡ applied self.old applying.old.faults.items) }
        // ensures memory { OnErr result (insert_takes_memory self.new bundle.now handle ≡ true) }
    {
        if bundle.len() == 1 {
            let Some(only) = bundle.iter().next() else {
                unreachable!()
            };
            return self.insert_only(at, handle, only, applying);
        }
        self.insert_items(at, handle, applying)
    }

    /// Gives the entity one component, instead of the one that it has under the same number.
    #[inline(always)]
    fn insert_only(
        &mut self,
        at: At,
        handle: Handle,
        item: (ComponentId, i64),
        applying: &mut Applying,
    ) -> Result<(), OutOfMemory>
        // requires { self.old.allocator.asked ≡ 0 }
        // ensures flushed { self.new.allocator.asked ≡ 0 }
        // ensures items { applying.new.items.items ≡ applying.old.items.items }
        // ensures ok { OnOk result (applied self.new applying.new.faults.items
        //     ≡ on_entity at.system at.command (after_insert (item ∷ [])) handle
        //     (applied self.old applying.old.faults.items)) }
        // ensures err { OnErr result (applied self.new applying.new.faults.items
        //     ≡ applied self.old applying.old.faults.items) }
        // ensures memory { OnErr result (insert_takes_memory self.new (item ∷ []) handle ≡ true) }
    {
        let Some(place) = place_of(&self.entities, handle) else {
            return applying.add_fault(at, FaultKind::NotAlive(handle));
        };
        self.storage.insert_at(place, handle, &[item])
    }

    /// Gives the entity the components that were read last, instead of those that it has under
    /// the same numbers.
    #[inline(never)]
    fn insert_items(
        &mut self,
        at: At,
        handle: Handle,
        applying: &mut Applying,
    ) -> Result<(), OutOfMemory>
        // requires { self.old.allocator.asked ≡ 0 }
        // ensures flushed { self.new.allocator.asked ≡ 0 }
        // ensures items { applying.new.items.items ≡ applying.old.items.items }
        // ensures ok { OnOk result (applied self.new applying.new.faults.items
        //     ≡ on_entity at.system at.command (after_insert applying.old.items.items) handle
        //     (applied self.old applying.old.faults.items)) }
        // ensures err { OnErr result (applied self.new applying.new.faults.items
        //     ≡ applied self.old applying.old.faults.items) }
        // ensures memory { OnErr result
        //     (insert_takes_memory self.new applying.old.items.items handle ≡ true) }
    {
        let Some(place) = place_of(&self.entities, handle) else {
            return applying.add_fault(at, FaultKind::NotAlive(handle));
        };
        self.storage.insert_at(place, handle, &applying.items)
    }

    #[inline]
    fn remove_component(
        &mut self,
        at: At,
        handle: Handle,
        id: ComponentId,
        applying: &mut Applying,
    ) -> Result<(), OutOfMemory>
        // requires { self.old.allocator.asked ≡ 0 }
        // ensures flushed { self.new.allocator.asked ≡ 0 }
        // ensures ok { OnOk result (applied self.new applying.new.faults.items
        //     ≡ on_entity at.system at.command (after_remove id) handle
        //     (applied self.old applying.old.faults.items)) }
        // ensures err { OnErr result (applied self.new applying.new.faults.items
        //     ≡ applied self.old applying.old.faults.items) }
        // ensures memory { OnErr result (lives_in self.new handle ≡ false) }
    {
        let Some(place) = place_of(&self.entities, handle) else {
            return applying.add_fault(at, FaultKind::NotAlive(handle));
        };
        let _ = self.storage.remove_at(place, handle, id);
        Ok(())
    }

    #[inline]
    fn despawn_entity(
        &mut self,
        at: At,
        handle: Handle,
        applying: &mut Applying,
    ) -> Result<(), OutOfMemory>
        // requires { self.old.allocator.asked ≡ 0 }
        // ensures flushed { self.new.allocator.asked ≡ 0 }
        // ensures ok { OnOk result (applied self.new applying.new.faults.items
        //     ≡ on_entity at.system at.command after_despawn handle
        //     (applied self.old applying.old.faults.items)) }
        // ensures err { OnErr result (applied self.new applying.new.faults.items
        //     ≡ applied self.old applying.old.faults.items) }
        // ensures memory { OnErr result (despawn_takes_memory self.new handle ≡ true) }
    {
        if !self.contains(handle) {
            return applying.add_fault(at, FaultKind::NotAlive(handle));
        }
        if self.despawn(handle).is_err() {
            return Err(OutOfMemory);
        }
        Ok(())
    }
}

/// A refusal as a fault.
#[inline]
fn refusal(why: Refused) -> FaultKind
    // ensures { result ≡ refused why }
{
    match why {
        Refused::Space { wanted, left } => FaultKind::Space { wanted, left },
        Refused::Quota { left } => FaultKind::Quota { left },
    }
}
