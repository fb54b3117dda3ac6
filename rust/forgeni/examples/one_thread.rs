//! Entities come and go on one thread.
//!
//! It prints
//!
//! ```text
//! 0v1 and 1v1 are alive: 2 of 3
//! 1v1 is Gone, its slot gives Some(1v2)
//! 1v2 is Alive
//! 1v2 was the last of its slot: None
//! 2v1 is of a new slot
//! no slot is free: 2 alive, 1 retired
//! ```

use forgeni::{AllocError, Entities, Limits, State};
use std::error::Error;

fn main() -> Result<(), Box<dyn Error>> {
    let limits = Limits::new(3, 2).ok_or("no limits")?;
    let mut entities = Entities::with_limits(limits);
    let hero = entities.alloc()?;
    let sword = entities.alloc()?;
    println!(
        "{hero} and {sword} are alive: {} of {}",
        entities.len(),
        limits.slots()
    );

    let freed = entities.free(sword)?;
    println!(
        "{sword} is {:?}, its slot gives {:?}",
        entities.state(sword),
        freed.next
    );

    let shield = entities.alloc()?;
    println!("{shield} is {:?}", entities.state(shield));
    assert_eq!(entities.state(shield), State::Alive);

    // Generation 2 is the last one here, so the slot is retired.
    let freed = entities.free(shield)?;
    println!("{shield} was the last of its slot: {:?}", freed.next);

    let bow = entities.alloc()?;
    println!("{bow} is of a new slot");
    match entities.alloc() {
        Err(AllocError::Space) => println!(
            "no slot is free: {} alive, {} retired",
            entities.len(),
            entities.retired()
        ),
        other => println!("{other:?}"),
    }
    Ok(())
}
