//! Threads that reserve handles from one allocator, side by side.
//!
//! It prints
//!
//! ```text
//! 1024 handles, none of them twice
//! 1024 born
//! ```

use forgeni::{Entities, Handle, Refused, ReserveError, Reserver};
use std::collections::HashSet;
use std::error::Error;
use std::thread;

fn main() -> Result<(), Box<dyn Error>> {
    // A reserver for each thread. The allocator is inside `shared` until it is closed.
    let (shared, mut reservers) = Entities::new().share(2)?;
    let [a, b] = reservers.as_mut_slice() else {
        return Err("a thread has no reserver".into());
    };
    let mut given = side_by_side(a, b)?;

    // From now on `a` reserves after all that `b` has reserved.
    a.meet(b)?;
    a.reserve_into(&mut given, 24)?;

    // The threads are joined, so no other thread has a reserver.
    let once: HashSet<Handle> = given.iter().copied().collect();
    if once.len() == given.len() {
        println!("{} handles, none of them twice", given.len());
    }
    let mut entities = shared.close(reservers)?;
    let mut born = Vec::new();
    entities.flush(&mut born)?;
    println!("{} born", born.len());
    Ok(())
}

/// One thread reserves handles one by one, the other all at once.
fn side_by_side(a: &mut Reserver, b: &mut Reserver) -> Result<Vec<Handle>, ReserveError> {
    thread::scope(|scope| {
        let bulk = scope.spawn(|| b.reserve_many(400));
        let mut given = (0..600)
            .map(|_| a.reserve())
            .collect::<Result<Vec<Handle>, Refused>>()?;
        given.extend(bulk.join().expect("it doesn't panic")?);
        Ok(given)
    })
}
