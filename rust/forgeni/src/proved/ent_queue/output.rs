// Made of crates/ent_queue/src/output.rt by rust/erase. It isn't edited by hand.

use crate::commands::queue::IssuedCommands;
use crate::logs::Log;

/// What a system fills: a [`IssuedCommands`] of a world, or a [`Log`] of the caller's own commands.
pub trait Output {
    /// One without entries. It doesn't allocate.
    ///
    /// <details><summary>Contract</summary>
    ///
    /// <code style="display: block; tab-size: 4; white-space: pre-wrap">// In the words of [contracts](crate::contracts):
    /// ensures { result ≡ empty }
    /// </code>
    ///
    /// </details>
    fn unfilled() -> Self;
}

impl Output for IssuedCommands {
    #[inline]
    fn unfilled() -> Self {
        IssuedCommands::new()
    }
}

impl<C> Output for Log<C> {
    #[inline]
    fn unfilled() -> Self {
        Log::new()
    }
}
