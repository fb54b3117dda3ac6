// Made of crates/spawnrun_lib/src/script_system.rt by rust/erase. It isn't edited by hand.

use alloc::vec::Vec;
use crate::kit::vec::FallibleVec;
use crate::spawnrun_lib::issuing::issue_all;
use crate::allocator::Source;
use crate::handles::OutOfMemory;
use crate::commands::{IssuedCommands, SystemCommands};
use crate::running::System;
use crate::worlds::View;

/// A system of a script, as a frame runs it. Contracts see the list of its operations.
pub struct ScriptSystem<'a> {
    system: &'a crate::scripts::System,
}

impl<'a> ScriptSystem<'a> {
    /// The system of these operations. It doesn't allocate.
    ///
    /// <details><summary>Contract</summary>
    ///
    /// <code style="display: block; tab-size: 4; white-space: pre-wrap">// In the words of [contracts](crate::contracts):
    /// ensures { result ≡ system.now }
    /// </code>
    ///
    /// </details>
    #[inline]
    pub fn new(system: &'a crate::scripts::System) -> Self {
        ScriptSystem { system }
    }
}

impl<S: Source> System<S, OutOfMemory> for ScriptSystem<'_> {
    /// # Errors
    ///
    /// `Memory`, if one of the operations ran out of memory, and for no other reason. A spawn
    /// that is refused is a command of the queue, and the run goes on.
    #[inline]
    fn run(
        &self,
        view: &View<'_>,
        commands: &mut SystemCommands<'_, IssuedCommands, S>,
    ) -> Result<(), OutOfMemory> {
        issue_all(view, self.system.operations(), commands)
    }
}

/// The systems of a script, as a frame runs them.
#[inline]
pub(super) fn runnable<'a>(
    systems: &'a [crate::scripts::System],
) -> Result<Vec<ScriptSystem<'a>>, OutOfMemory>
    // ensures { IfOk result (λ runnable. runnable.items ≡ systems.now) }
{
    let mut runnable = Vec::with_capacity_fallibly(systems.len())?;
    for system in systems {
        runnable.push_reserved(ScriptSystem::new(system));
    }
    Ok(runnable)
}
