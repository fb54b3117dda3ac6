// Made of crates/ent_alloc/src/absent.rt by rust/erase. It isn't edited by hand.

/// No entity has that handle. Nothing has changed.
///
/// ```
/// use forgeni::{Absent, Entities};
///
/// let mut entities = Entities::new();
/// let gone = entities.alloc()?;
/// entities.free(gone)?;
/// // Nothing is kept for the dead.
/// assert_eq!(entities.try_set_row(gone, 7), Err(Absent));
/// # Ok::<(), Box<dyn std::error::Error>>(())
/// ```
#[derive(Clone, Copy, Debug, PartialEq, Eq, Hash)]
pub struct Absent;

impl core::fmt::Display for Absent {
    fn fmt(&self, f: &mut core::fmt::Formatter<'_>) -> core::fmt::Result {
        write!(f, "no such entity")
    }
}

impl core::error::Error for Absent {}
