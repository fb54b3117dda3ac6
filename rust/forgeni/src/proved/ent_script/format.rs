// Made of crates/ent_script/src/format.rt by rust/erase. It isn't edited by hand.

/// The formats of a script.
#[derive(Clone, Copy)]
pub(super) enum Format {
    One,
    /// A target may name a birth.
    Two,
}

impl Format {
    /// The frame before which the births are that an operation of this frame may name, if it may.
    #[inline]
    pub(super) fn births_before(self, frame: usize) -> Option<usize>
        // ensures { result ≡ births_before self frame }
    {
        match self {
            Format::One => None,
            Format::Two => Some(frame),
        }
    }
}
