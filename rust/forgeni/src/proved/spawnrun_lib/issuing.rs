// Made of crates/spawnrun_lib/src/issuing.rt by rust/erase. It isn't edited by hand.

//! What the operations of a system issue.

use crate::spawnrun_lib::bindings::Bindings;
use crate::spawnrun_lib::change::Change;
use crate::spawnrun_lib::roll::Roll;
use crate::spawnrun_lib::spawning::{spawn, spawn_many};
use crate::allocator::Source;
use crate::handles::OutOfMemory;
use crate::commands::{IssuedCommands, SystemCommands};
use crate::scripts::Operation;
use crate::worlds::View;

/// Issues the commands of all operations, one after the other.
///
/// # Errors
///
/// `Memory`, if one of the operations ran out of memory, and for no other reason. A spawn that is
/// refused is a command, and the run goes on.
#[inline]
pub(super) fn issue_all<S: Source>(
    view: &View<'_>,
    operations: &[Operation],
    commands: &mut SystemCommands<'_, IssuedCommands, S>,
) -> Result<(), OutOfMemory>
    // requires { IsReady S.serves commands.old }
    // ensures extends { Extends Issues S.serves S.may_reply commands.old commands.new }
    // ensures may { output_of commands.old ≡ []
    //     → OnOk result (MayIssue operations.now view.now (output_of commands.new)) }
    // ensures leaves { output_of commands.old ≡ []
    //     → OnErr result (MayStop operations.now view.now (output_of commands.new)) }
{
    let mut names = Bindings::new();
    let mut roll = Roll::new();
    for operation in operations {
        issue(view, operation, &mut names, &mut roll, commands)?;
    }
    Ok(())
}

/// Issues the commands of one operation, and binds its name.
#[inline]
fn issue<S: Source>(
    view: &View<'_>,
    operation: &Operation,
    names: &mut Bindings,
    roll: &mut Roll,
    commands: &mut SystemCommands<'_, IssuedCommands, S>,
) -> Result<(), OutOfMemory>
    // requires ready { IsReady S.serves commands.old }
    // requires roll { IsRollOf view.now roll.old }
    // ensures roll { IsRollOf view.now roll.new }
    // ensures extends { Extends Issues S.serves S.may_reply commands.old commands.new }
    // ensures issued { OnOk result (HasIssued view.now operation.now
    //     (output_of commands.old) (output_of commands.new) names.old names.new) }
    // ensures stopped { OnErr result (HasStopped view.now operation.now
    //     (output_of commands.old) (output_of commands.new) names.old) }
{
    match operation {
        Operation::Spawn { bundle, binds } => spawn(bundle, *binds, names, commands),
        Operation::SpawnMany {
            count,
            bundle,
            binds,
        } => spawn_many(*count, bundle, *binds, names, commands),
        Operation::Insert { bundle, target } => {
            Change::Insert(bundle).on_target(view, *target, names, roll, commands)
        }
        Operation::Remove { component, target } => {
            Change::Remove(*component).on_target(view, *target, names, roll, commands)
        }
        Operation::Despawn { target } => {
            Change::Despawn.on_target(view, *target, names, roll, commands)
        }
    }
}
