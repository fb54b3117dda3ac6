// Made of crates/ent_runner/src/frame/gate.rt by rust/erase. It isn't edited by hand.

/// Called when a system begins. A test can wait in it, and a program can count or trace.
pub trait Gate {
    /// A worker is about to run the system of this number.
    fn entered(&self, system: usize);
}

/// A gate that does nothing.
#[derive(Clone, Copy, Debug)]
pub struct NoGate;

impl Gate for NoGate {
    #[inline]
    fn entered(&self, _system: usize) {}
}
