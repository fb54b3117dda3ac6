//! Only the first map of a walk may be borrowed mutably.

use forgeni::{HandleMap, JoinMaps};

fn main() {
    let (mut places, mut speeds) = (HandleMap::<u32>::new(), HandleMap::<u32>::new());
    for _ in (&mut places, &mut speeds).join() {}
}
