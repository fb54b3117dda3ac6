// Made of crates/spawnrun_lib/src/product.rt by rust/erase. It isn't edited by hand.

//! What is made of an input: an output, or a refusal. And how long an input may be.
use alloc::vec::Vec;
use crate::spawnrun_lib::text::Text;
use crate::scripts::found::Found;

/// The longest input that the program reads, in bytes.
pub const INPUT_LIMIT: usize = 67_108_864;

/// What is made of an input.
pub(super) enum Product {
    /// The input is accepted, and this is the output.
    Output(Text),
    /// It is refused.
    Refusal(Refusal),
}

/// The message on a refused input.
pub(super) struct Refusal {
    /// The line of output.
    pub line: Vec<u8>,
    /// What the test that the input fails expects.
    pub wants: &'static str,
    /// What the test found.
    pub found: Found,
}
