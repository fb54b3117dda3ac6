//! A map has values by handle.

use forgeni::HandleMap;

fn main() {
    let names: HandleMap<u32> = HandleMap::new();
    let _ = names.get(7);
    let _ = names[7];
}
