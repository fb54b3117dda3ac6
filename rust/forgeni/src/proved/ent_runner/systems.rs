// Made of crates/ent_runner/src/systems.rt by rust/erase. It isn't edited by hand.

//! The systems of a run, by their numbers. Each fills an output of its own: a queue, or a log.

use crate::running::frame::gate::Gate;
use crate::running::frame::system::System;
use crate::running::logs::system::LogSystem;
use crate::allocator::Source;
use crate::logs::Log;
use crate::commands::{IssuedCommands, SystemCommands, Output};
use crate::worlds::View;

/// Systems with numbers from 0, each of which fills an output once, with handles of the source `S`,
/// or stops with an error of type `E`. [`Issuers`] fill queues, and [`Loggers`] logs.
pub trait Systems<O: Output, S: Source, E> {
    /// Returns how many there are.
    ///
    /// <details><summary>Contract</summary>
    ///
    /// <code style="display: block; tab-size: 4; white-space: pre-wrap">// In the words of [contracts](crate::contracts):
    /// ensures { result ≡ count self.now }
    /// </code>
    ///
    /// </details>
    fn how_many(&self) -> usize;

    /// Runs the system of this number.
    ///
    /// # Errors
    ///
    /// That of the system, if it returned one.
    ///
    /// <details><summary>Contract</summary>
    ///
    /// <code style="display: block; tab-size: 4; white-space: pre-wrap">// In the words of [contracts](crate::contracts):
    /// requires number { number \< count self.now }
    /// requires ready { [IsReady](crate::contracts::ent_queue::commands#IsReady) S.serves commands.old }
    /// ensures extends { [Extends](crate::contracts::ent_queue::commands#Extends) O.adds S.serves S.may_reply commands.old commands.new }
    /// ensures may { [output_of](crate::contracts::ent_queue::commands#output_of) commands.old ≡ O.empty
    /// &#9;→ [OnOk](crate::contracts::logic#OnOk) result (may_fill self.now number ([output_of](crate::contracts::ent_queue::commands#output_of) commands.new)) }
    /// ensures leaves { [output_of](crate::contracts::ent_queue::commands#output_of) commands.old ≡ O.empty
    /// &#9;→ [IfErr](crate::contracts::logic#IfErr) result (λ error. may_leave self.now number ([output_of](crate::contracts::ent_queue::commands#output_of) commands.new) error) }
    /// </code>
    ///
    /// </details>
    fn run_at(
        &self,
        number: usize,
        commands: &mut SystemCommands<'_, O, S>,
    ) -> Result<(), E>;
}

/// The systems of a frame, whose outputs are queues. They see this view of its world.
pub struct Issuers<'v, 's, 'g, T, G> {
    /// What the systems see.
    pub view: View<'v>,
    /// The systems, in their order.
    pub systems: &'s [T],
    /// Called before each system runs.
    pub gate: &'g G,
}

impl<S: Source, E, T: System<S, E>, G: Gate> Systems<IssuedCommands, S, E>
    for Issuers<'_, '_, '_, T, G> {
    #[inline]
    fn how_many(&self) -> usize {
        self.systems.len()
    }

    #[inline]
    fn run_at(
        &self,
        number: usize,
        commands: &mut SystemCommands<'_, IssuedCommands, S>,
    ) -> Result<(), E> {
        self.gate.entered(number);
        self.systems[number].run(&self.view, commands)
    }
}

/// Systems whose outputs are logs.
pub struct Loggers<'s, T> {
    /// The systems, in their order.
    pub systems: &'s [T],
}

impl<C, S: Source, E, T: LogSystem<C, S, E>> Systems<Log<C>, S, E> for Loggers<'_, T> {
    #[inline]
    fn how_many(&self) -> usize {
        self.systems.len()
    }

    #[inline]
    fn run_at(
        &self,
        number: usize,
        commands: &mut SystemCommands<'_, Log<C>, S>,
    ) -> Result<(), E> {
        self.systems[number].run(commands)
    }
}
