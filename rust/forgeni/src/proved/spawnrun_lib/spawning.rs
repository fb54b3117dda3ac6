// Made of crates/spawnrun_lib/src/spawning.rt by rust/erase. It isn't edited by hand.

use alloc::vec::Vec;
use crate::kit::vec::FallibleVec;
use crate::spawnrun_lib::bindings::Bindings;
use crate::allocator::Source;
use crate::handles::OutOfMemory;
use crate::commands::{IssuedCommands, SystemCommands, ReserveError};
use crate::scripts::Bundle;

/// Spawns one entity, and binds the name to the list of its handle. After a refusal, which the
/// queue keeps, nothing is bound.
///
/// # Errors
///
/// `Memory`: nothing was issued.
#[inline]
pub(super) fn spawn<S: Source>(
    bundle: &Bundle,
    binds: Option<usize>,
    names: &mut Bindings,
    commands: &mut SystemCommands<'_, IssuedCommands, S>,
) -> Result<(), OutOfMemory>
    // requires { IsReady S.serves commands.old }
    // ensures extends { Extends Issues S.serves S.may_reply commands.old commands.new }
    // ensures issued { OnOk result ((view : View) → HasIssued view (Spawn bundle.now binds)
    //     (output_of commands.old) (output_of commands.new) names.old names.new) }
    // ensures err { OnErr result (output_of commands.new ≡ output_of commands.old) }
{
    match binds {
        Some(name) => spawn_named(bundle, name, names, commands),
        None => match commands.spawn(bundle) {
            Err(ReserveError::Memory) => Err(OutOfMemory),
            _ => Ok(()),
        },
    }
}

#[inline]
fn spawn_named<S: Source>(
    bundle: &Bundle,
    name: usize,
    names: &mut Bindings,
    commands: &mut SystemCommands<'_, IssuedCommands, S>,
) -> Result<(), OutOfMemory>
    // requires { IsReady S.serves commands.old }
    // ensures extends { Extends Issues S.serves S.may_reply commands.old commands.new }
    // ensures issued { OnOk result ((view : View) → HasIssued view (Spawn bundle.now (Some name))
    //     (output_of commands.old) (output_of commands.new) names.old names.new) }
    // ensures err { OnErr result (output_of commands.new ≡ output_of commands.old) }
{
    names.reach(name)?;
    let mut list = Vec::with_capacity_fallibly(1)?;
    match commands.spawn(bundle) {
        Ok(handle) => {
            list.push_reserved(handle);
            names.bind(name, list);
            Ok(())
        }
        Err(ReserveError::Memory) => Err(OutOfMemory),
        Err(_) => Ok(()),
    }
}

/// Spawns so many entities, and binds the name to their handles. After a refusal, which the queue
/// keeps, nothing is bound.
///
/// # Errors
///
/// `Memory`: nothing was issued.
#[inline]
pub(super) fn spawn_many<S: Source>(
    count: u32,
    bundle: &Bundle,
    binds: Option<usize>,
    names: &mut Bindings,
    commands: &mut SystemCommands<'_, IssuedCommands, S>,
) -> Result<(), OutOfMemory>
    // requires { IsReady S.serves commands.old }
    // ensures extends { Extends Issues S.serves S.may_reply commands.old commands.new }
    // ensures issued { OnOk result ((view : View) → HasIssued view (SpawnMany count bundle.now binds)
    //     (output_of commands.old) (output_of commands.new) names.old names.new) }
    // ensures err { OnErr result (output_of commands.new ≡ output_of commands.old) }
{
    match binds {
        Some(name) => spawn_many_named(count, bundle, name, names, commands),
        None => match commands.spawn_many(count, bundle) {
            Err(ReserveError::Memory) => Err(OutOfMemory),
            _ => Ok(()),
        },
    }
}

#[inline]
fn spawn_many_named<S: Source>(
    count: u32,
    bundle: &Bundle,
    name: usize,
    names: &mut Bindings,
    commands: &mut SystemCommands<'_, IssuedCommands, S>,
) -> Result<(), OutOfMemory>
    // requires { IsReady S.serves commands.old }
    // ensures extends { Extends Issues S.serves S.may_reply commands.old commands.new }
    // ensures issued { OnOk result ((view : View)
    //     → HasIssued view (SpawnMany count bundle.now (Some name))
    //     (output_of commands.old) (output_of commands.new) names.old names.new) }
    // ensures err { OnErr result (output_of commands.new ≡ output_of commands.old) }
{
    names.reach(name)?;
    match commands.spawn_many(count, bundle) {
        Ok(handles) => {
            names.bind(name, handles);
            Ok(())
        }
        Err(ReserveError::Memory) => Err(OutOfMemory),
        Err(_) => Ok(()),
    }
}
