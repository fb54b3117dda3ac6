//! Frames in which each system reserves in a block of its own, and past it from the handles that
//! all share. So no spawn is refused, and in nearly all frames no handle depends on a thread.
//!
//! It prints
//!
//! ```text
//! 1000 frames of 16 systems on 4 threads
//! 0 of 318118 spawns refused
//! 17 frames in which a system went past its block
//! ```

use forgeni::{BlockSize, Entities, Overflow, Reserver};
use std::error::Error;
use std::thread;

const FRAMES: usize = 1000;
const SYSTEMS: usize = 16;
const THREADS: usize = 4;

fn main() -> Result<(), Box<dyn Error>> {
    let mut entities = Entities::new();
    let mut born = Vec::new();
    let mut sizes = [BlockSize::new(1 << 16); SYSTEMS];
    let (mut wanted, mut past) = (0, 0);
    for frame in 0..FRAMES {
        let (phase, mut reservers) = entities.share_in::<Overflow>(&sizes.map(|it| it.size()))?;
        let refused = run(frame, &mut reservers);
        assert_eq!(refused, 0, "the allocator has handles for all");
        for (size, reserver) in sizes.iter_mut().zip(&reservers) {
            size.adapt(reserver.wanted());
        }
        wanted += (0..SYSTEMS)
            .map(|system| spawns(frame, system))
            .sum::<usize>();
        let ended = phase.close(reservers)?;
        past += usize::from(ended.requested_past() > 0);
        entities = ended.into_entities()?;
        born.clear();
        entities.flush(&mut born)?;
        for handle in &born {
            entities.free(*handle)?;
        }
    }
    println!("{FRAMES} frames of {SYSTEMS} systems on {THREADS} threads");
    println!("0 of {wanted} spawns refused");
    println!("{past} frames in which a system went past its block");
    Ok(())
}

/// Runs the systems of a frame on all threads, and returns how many spawns were refused.
fn run(frame: usize, reservers: &mut [Reserver<Overflow>]) -> usize {
    thread::scope(|scope| {
        let mut threads = Vec::new();
        for (thread, systems) in reservers.chunks_mut(SYSTEMS / THREADS).enumerate() {
            threads.push(scope.spawn(move || {
                let mut refused = 0;
                for (number, reserver) in systems.iter_mut().enumerate() {
                    for _ in 0..spawns(frame, thread * (SYSTEMS / THREADS) + number) {
                        refused += usize::from(reserver.reserve().is_err());
                    }
                }
                refused
            }));
        }
        threads
            .into_iter()
            .map(|it| it.join().expect("no panic"))
            .sum()
    })
}

/// How many entities a system spawns in a frame: now and then twenty times as many as usual.
fn spawns(frame: usize, system: usize) -> usize {
    let usual = 10 + (frame + 7 * system) % 20;
    let burst = (frame + 61 * system).is_multiple_of(997);
    usual * if burst { 20 } else { 1 }
}
