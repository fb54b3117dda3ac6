// Made of crates/ent_alloc/src/state.rt by rust/erase. It isn't edited by hand.

/// The state of a handle.
///
/// ```
/// use forgeni::{Entities, State};
///
/// let mut entities = Entities::new();
/// let soon = entities.request()?;
/// let says = match entities.state(soon) {
///     State::Alive => "here",
///     State::Reserved => "about to come",
///     State::Gone => "gone",
/// };
/// assert_eq!(says, "about to come");
/// # Ok::<(), Box<dyn std::error::Error>>(())
/// ```
#[derive(Clone, Copy, Debug, PartialEq, Eq, Hash)]
pub enum State {
    /// It is alive.
    Alive,
    /// It was given to a request, and the next flush brings it to life.
    Reserved,
    /// Neither: it was freed, or it was never given.
    Gone,
}
