// Made of crates/ent_world/src/stop.rt by rust/erase. It isn't edited by hand.

//! Where a sync point stops, and where it goes on.

use crate::worlds::fault::{SyncFault, Report};

/// A command, by its system and its number in the system's queue.
#[derive(Clone, Copy)]
pub(super) struct At {
    pub(super) system: usize,
    pub(super) command: usize,
}

/// A command of which that many handles are done, and with it all before it and nothing else: where
/// memory ran out, and where a sync point goes on.
#[derive(Clone, Copy)]
pub(super) struct Stop {
    pub(super) at: At,
    pub(super) done: usize,
}

impl Stop {
    /// Before the first command of a queue.
    #[inline]
    pub(super) fn before(system: usize) -> Self
        // ensures { result ≡ record { at = record { system = system; command = 0 }; done = 0 } }
    {
        Stop {
            at: At { system, command: 0 },
            done: 0,
        }
    }

    /// The fault of a sync point that stopped there, with what it has done so far.
    #[inline]
    pub(super) fn fault(self, so_far: Report) -> SyncFault
        // ensures { result ≡ SyncFault.Memory self.at.system self.at.command self.done so_far }
    {
        SyncFault::Memory {
            system: self.at.system,
            command: self.at.command,
            done: self.done,
            so_far,
        }
    }

    /// Where the queue of a system begins that is this one's or comes after it.
    #[inline]
    pub(super) fn in_queue(self, system: usize) -> Self
        // ensures system { self.at.system ≤ system → result.at.system ≡ system }
        // ensures first { system ≡ self.at.system → result ≡ self }
        // ensures later { self.at.system < system
        //     → result ≡ record { at = record { system = system; command = 0 }; done = 0 } }
    {
        if system == self.at.system {
            self
        } else {
            Stop::before(system)
        }
    }

    /// Where a command of that queue begins that is this one or comes after it.
    #[inline]
    pub(super) fn at_command(self, command: usize) -> Self
        // ensures system { result.at.system ≡ self.at.system }
        // ensures command { self.at.command ≤ command → result.at.command ≡ command }
        // ensures first { command ≡ self.at.command → result ≡ self }
        // ensures later { self.at.command < command → result.done ≡ 0 }
    {
        if command == self.at.command {
            return self;
        }
        let system = self.at.system;
        Stop {
            at: At { system, command },
            done: 0,
        }
    }
}
