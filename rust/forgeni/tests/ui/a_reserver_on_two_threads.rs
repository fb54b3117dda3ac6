//! Each thread has a reserver of its own.

use forgeni::Entities;

fn main() {
    let (_shared, mut reservers) = Entities::new().share(1).unwrap();
    let reserver = &mut reservers[0];
    std::thread::scope(|scope| {
        scope.spawn(|| reserver.reserve());
        scope.spawn(|| reserver.reserve());
    });
}
