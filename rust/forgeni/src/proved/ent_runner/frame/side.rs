// Made of crates/ent_runner/src/frame/side.rt by rust/erase. It isn't edited by hand.

//! Systems of several types in one list.

use crate::running::frame::system::System;
use crate::kit::either::{Either, Left, Right};
use crate::allocator::Source;
use crate::commands::{IssuedCommands, SystemCommands};
use crate::worlds::View;

/// A system of one of two types, so that one list holds systems of both. For three types there is
/// `Either<A, Either<B, C>>`, and so on.
impl<S: Source, E, A: System<S, E>, B: System<S, E>> System<S, E> for Either<A, B> {
    #[inline]
    fn run(
        &self,
        view: &View<'_>,
        commands: &mut SystemCommands<'_, IssuedCommands, S>,
    ) -> Result<(), E> {
        match self {
            Left(system) => system.run(view, commands),
            Right(system) => system.run(view, commands),
        }
    }
}
