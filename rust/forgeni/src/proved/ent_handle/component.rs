// Made of crates/ent_handle/src/component.rt by rust/erase. It isn't edited by hand.

use core::cmp::Ordering;

/// The number of a component: a kind of data that an entity may have. What it means is up to its
/// user.
///
/// Components are ordered by number.
///
/// ```
/// use forgeni::{ComponentId, World};
///
/// /// What the numbers mean is said in one place.
/// const MASS: ComponentId = ComponentId(0);
/// const SPEED: ComponentId = ComponentId(1);
///
/// let mut world = World::new();
/// let cart = world.spawn(&[(SPEED, 40), (MASS, 900)])?;
/// assert_eq!(world.get(cart, MASS), Some(900));
/// # Ok::<(), Box<dyn std::error::Error>>(())
/// ```
#[derive(Clone, Copy, Debug, Default, PartialEq, Eq, Hash)]
pub struct ComponentId(pub u8);

impl Ord for ComponentId {
    #[inline]
    fn cmp(&self, other: &Self) -> Ordering {
        self.0.cmp(&other.0)
    }
}

impl PartialOrd for ComponentId {
    #[inline]
    fn partial_cmp(&self, other: &Self) -> Option<Ordering> {
        Some(self.cmp(other))
    }
}
