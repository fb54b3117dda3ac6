//! While it is shared, an allocator gives nothing by itself.

use forgeni::Entities;

fn main() {
    let mut entities = Entities::new();
    let (_shared, _reservers) = entities.share(1).unwrap();
    let _ = entities.alloc();
}
