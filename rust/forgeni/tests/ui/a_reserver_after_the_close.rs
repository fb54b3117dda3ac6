//! A reserver ends with its phase.

use forgeni::Entities;

fn main() {
    let (shared, mut reservers) = Entities::new().share(1).unwrap();
    let entities = shared.close(reservers);
    let _ = reservers[0].reserve();
    drop(entities);
}
