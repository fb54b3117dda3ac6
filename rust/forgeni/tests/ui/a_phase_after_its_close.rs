//! A phase ends with its close.

use forgeni::Entities;

fn main() {
    let (shared, reservers) = Entities::new().share(1).unwrap();
    let entities = shared.close(reservers);
    let _ = shared.count();
    drop(entities);
}
