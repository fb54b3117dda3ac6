// Made of crates/ent_total/src/other_phase.rt by rust/erase. It isn't edited by hand.

/// The two belong to different phases. Nothing has changed.
///
/// ```
/// use forgeni::{Entities, OtherPhase};
///
/// let (_one, mut reservers) = Entities::new().share(1)?;
/// let (_two, mut others) = Entities::new().share(1)?;
/// // Both allocators give the handle 0v1, so a mixture of them would be a mistake.
/// assert_eq!(reservers[0].meet(&mut others[0]), Err(OtherPhase));
/// # Ok::<(), Box<dyn std::error::Error>>(())
/// ```
#[derive(Clone, Copy, Debug, PartialEq, Eq, Hash)]
pub struct OtherPhase;

impl core::fmt::Display for OtherPhase {
    fn fmt(&self, f: &mut core::fmt::Formatter<'_>) -> core::fmt::Result {
        write!(f, "the reserver is of another phase")
    }
}

impl core::error::Error for OtherPhase {}
