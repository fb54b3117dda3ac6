// Made of crates/ent_script/src/script.rt by rust/erase. It isn't edited by hand.

use alloc::vec::Vec;
use crate::kit::programs::string::String;
use crate::scripts::frame::Frame;
use crate::allocator::Limits;

/// A script: the limits of its allocator, the names of its components, and its frames in order.
/// The component at index `i` has the number `i`.
pub struct Script {
    limits: Limits,
    components: Vec<String>,
    frames: Vec<Frame>,
}

impl Script {
    /// The script of these parts. It doesn't allocate.
    #[inline]
    pub(super) fn new(limits: Limits, components: Vec<String>, frames: Vec<Frame>) -> Self
        // ensures { result ≡ record {
        //   limits = limits;
        //   components = map string_bytes components.items;
        //   frames = frames.items;
        // } }
    {
        Script {
            limits,
            components,
            frames,
        }
    }

    /// The limits of its allocator.
    ///
    /// <details><summary>Contract</summary>
    ///
    /// <code style="display: block; tab-size: 4; white-space: pre-wrap">// In the words of [contracts](crate::contracts):
    /// ensures { result ≡ self.now.limits }
    /// </code>
    ///
    /// </details>
    #[inline]
    pub fn limits(&self) -> Limits {
        self.limits
    }

    /// The names of its components, in the order of their numbers.
    ///
    /// <details><summary>Contract</summary>
    ///
    /// <code style="display: block; tab-size: 4; white-space: pre-wrap">// In the words of [contracts](crate::contracts):
    /// ensures { map string_bytes result.now ≡ self.now.components }
    /// </code>
    ///
    /// </details>
    #[inline]
    pub fn components(&self) -> &[String] {
        &self.components
    }

    /// Its frames.
    ///
    /// <details><summary>Contract</summary>
    ///
    /// <code style="display: block; tab-size: 4; white-space: pre-wrap">// In the words of [contracts](crate::contracts):
    /// ensures { result.now ≡ self.now.frames }
    /// </code>
    ///
    /// </details>
    #[inline]
    pub fn frames(&self) -> &[Frame] {
        &self.frames
    }

    /// The limits, the names of the components, and the frames. It doesn't allocate.
    ///
    /// The frames are most of a long script. Their owner can free each one after its run.
    ///
    /// <details><summary>Contract</summary>
    ///
    /// <code style="display: block; tab-size: 4; white-space: pre-wrap">// In the words of [contracts](crate::contracts):
    /// ensures limits { result.0 ≡ self.limits }
    /// ensures components { map string_bytes result.1.items ≡ self.components }
    /// ensures frames { result.2.items ≡ self.frames }
    /// </code>
    ///
    /// </details>
    #[inline]
    pub fn into_parts(self) -> (Limits, Vec<String>, Vec<Frame>) {
        let Script {
            limits,
            components,
            frames,
        } = self;
        (limits, components, frames)
    }
}
