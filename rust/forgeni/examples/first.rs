//! Four threads reserve side by side, and what they reserved comes to life.
//!
//! It prints
//!
//! ```text
//! 4000 born
//! 4000 alive
//! ```

use forgeni::Entities;

fn main() -> Result<(), Box<dyn std::error::Error>> {
    let (shared, mut reservers) = Entities::new().share(4)?;
    std::thread::scope(|threads| {
        for reserver in &mut reservers {
            // One atomic step a request, and no lock.
            threads.spawn(|| reserver.reserve_many(1_000));
        }
    });
    let mut entities = shared.close(reservers)?;
    let mut born = Vec::new();
    entities.flush(&mut born)?;
    println!("{} born", born.len());
    println!("{} alive", entities.len());
    Ok(())
}
