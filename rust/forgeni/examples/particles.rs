//! A small engine with components of its own types: 100,000 sparks that fly, burn out, and light
//! others. Each frame, systems on threads look for those that burn out, and reserve handles for
//! those that they light. At the sync point all of that takes effect.
//!
//! `cargo run --release --example particles 500` runs 500 frames. It runs all of them on 1, 2, 4
//! and 8 threads, and says on the standard error how many frames a second that were. Only the
//! sparks' handles depend on the threads:
//!
//! ```text
//! 10 frames: 17948 burnt, 17995 lit, 100047 living
//! the same on 1, 2, 4 and 8 threads: 66638ffbec3d58b8
//! ```

use forgeni::{Entities, Follows, Handle, HandleMap, JoinMaps, Lent};
use std::error::Error;
use std::sync::atomic::{AtomicUsize, Ordering};
use std::time::Instant;

/// An error from any thread.
type Failed = Box<dyn Error + Send + Sync>;

const SPARKS: usize = 100_000;
const FRAMES: usize = 10;

/// How many sparks a system looks at.
const PART: usize = 2_048;

/// Where a spark is.
#[derive(Clone, Copy)]
struct Place([f32; 2]);

/// How far it flies in a frame.
#[derive(Clone, Copy)]
struct Speed([f32; 2]);

/// How it burns: all that it does follows from its seed.
#[derive(Clone, Copy)]
struct Fire {
    seed: u64,
    frames_left: u32,
}

/// A spark that is not lit yet.
struct Spark {
    place: Place,
    speed: Speed,
    fire: Fire,
}

impl Spark {
    fn new(seed: u64, place: Place) -> Self {
        let part = |shift: u32| (seed >> shift & 0xff) as f32 / 128.0 - 1.0;
        Self {
            place,
            speed: Speed([part(8), part(16)]),
            fire: Fire {
                seed,
                frames_left: 1 + (seed >> 24) as u32 % 60,
            },
        }
    }
}

/// A pseudo-random number (the steps of splitmix64).
fn mixed(number: u64) -> u64 {
    let mut all = number.wrapping_add(0x9e37_79b9_7f4a_7c15);
    all = (all ^ all >> 30).wrapping_mul(0xbf58_476d_1ce4_e5b9);
    all = (all ^ all >> 27).wrapping_mul(0x94d0_49bb_1331_11eb);
    all ^ all >> 31
}

/// What the systems of a thread have decided.
#[derive(Default)]
struct Wanted {
    burnt: Vec<Handle>,
    lit: Vec<(Handle, Spark)>,
}

#[derive(Default)]
struct Game {
    entities: Entities,
    places: HandleMap<Place>,
    speeds: HandleMap<Speed>,
    fires: HandleMap<Fire>,
    counts: Counts,
}

/// The outcome of a game.
#[derive(Clone, Copy, Debug, Default, PartialEq, Eq)]
struct Counts {
    burnt: usize,
    lit: usize,
    living: usize,
    /// A digest of all sparks and their places, in any order.
    sum: u64,
}

impl Game {
    fn new() -> Result<Self, Failed> {
        let mut game = Self::default();
        for (seed, one) in (0..).zip(game.entities.alloc_many(SPARKS as u32)?) {
            game.light(one, Spark::new(mixed(seed), Place([0.0, 0.0])))?;
        }
        Ok(game)
    }

    /// Gives a living entity its components.
    fn light(&mut self, one: Handle, spark: Spark) -> Result<(), Failed> {
        self.places.insert(one, spark.place)?;
        self.speeds.insert(one, spark.speed)?;
        self.fires.insert(one, spark.fire)?;
        Ok(())
    }

    /// One frame: the systems, and then the sync point.
    fn frame(&mut self, threads: usize) -> Result<(), Failed> {
        for (_, Place(place), Speed(speed)) in (&mut self.places, &self.speeds).join() {
            *place = [place[0] + speed[0], place[1] + speed[1]];
        }
        self.fires.for_each_mut(|_, fire| fire.frames_left -= 1);
        let wanted = self.systems(threads)?;
        self.sync(wanted)
    }

    /// Runs a system for each part of the sparks. Each thread takes the next part that isn't taken
    /// yet.
    fn systems(&mut self, threads: usize) -> Result<Vec<Wanted>, Failed> {
        let living: Vec<Handle> = self.entities.iter().collect();
        let parts: Vec<&[Handle]> = living.chunks(PART).collect();
        let next = AtomicUsize::new(0);
        let (places, fires) = (&self.places, &self.fires);
        let run = |reserver: &mut Lent<'_>| {
            let mut wanted = Wanted::default();
            while let Some(part) = parts.get(next.fetch_add(1, Ordering::Relaxed)) {
                burn(part, places, fires, reserver, &mut wanted)?;
            }
            Ok(wanted)
        };
        self.entities.phase(threads, |_, reservers| {
            std::thread::scope(|scope| {
                let start = |reserver| scope.spawn(|| run(reserver));
                let running: Vec<_> = reservers.iter_mut().map(start).collect();
                let ended = running.into_iter().map(|thread| thread.join());
                ended.map(|ran| ran.expect("no system panics")).collect()
            })
        })?
    }

    /// The sync point: all that is wanted takes effect.
    fn sync(&mut self, wanted: Vec<Wanted>) -> Result<(), Failed> {
        self.entities.flush_with(|_| ())?;
        for Wanted { burnt, lit } in wanted {
            self.counts.burnt += burnt.len();
            self.counts.lit += lit.len();
            for one in burnt {
                let mut spark = (&mut self.places, &mut self.speeds, &mut self.fires);
                spark.despawn(&mut self.entities, one)?;
            }
            for (one, spark) in lit {
                self.light(one, spark)?;
            }
        }
        Ok(())
    }

    /// The outcome, whatever handles the sparks have.
    fn counts(&self) -> Counts {
        let numbers = self.fires.iter().map(|(one, fire)| {
            let Place([x, y]) = self.places[one];
            let place = u64::from(x.to_bits()) << 32 | u64::from(y.to_bits());
            mixed(fire.seed ^ mixed(place ^ mixed(u64::from(fire.frames_left))))
        });
        Counts {
            living: self.entities.len() as usize,
            sum: numbers.fold(0, u64::wrapping_add),
            ..self.counts
        }
    }
}

/// A system: of these sparks some burn out, and each of those lights none, one or two others.
fn burn(
    part: &[Handle],
    places: &HandleMap<Place>,
    fires: &HandleMap<Fire>,
    reserver: &mut Lent<'_>,
    wanted: &mut Wanted,
) -> Result<(), Failed> {
    for &one in part {
        let fire = fires[one];
        if fire.frames_left > 0 {
            continue;
        }
        wanted.burnt.push(one);
        let lit = reserver.reserve_many((fire.seed % 3) as u32)?;
        for (new, number) in lit.into_iter().zip(1..) {
            let seed = mixed(fire.seed.wrapping_add(number));
            wanted.lit.push((new, Spark::new(seed, places[one])));
        }
    }
    Ok(())
}

/// Runs a whole game on that many threads, and says how fast it was.
fn run(frames: usize, threads: usize) -> Result<Counts, Failed> {
    let mut game = Game::new()?;
    let start = Instant::now();
    for _ in 0..frames {
        game.frame(threads)?;
    }
    let speed = frames as f64 / start.elapsed().as_secs_f64();
    eprintln!("threads: {threads}, frames a second: {speed:.1}");
    Ok(game.counts())
}

fn main() -> Result<(), Failed> {
    let frames = match std::env::args().nth(1) {
        Some(text) => text.parse()?,
        None => FRAMES,
    };
    let first = run(frames, 1)?;
    for threads in [2, 4, 8] {
        if run(frames, threads)? != first {
            return Err(format!("another game on {threads} threads").into());
        }
    }
    let Counts {
        burnt,
        lit,
        living,
        sum,
    } = first;
    println!("{frames} frames: {burnt} burnt, {lit} lit, {living} living");
    println!("the same on 1, 2, 4 and 8 threads: {sum:016x}");
    Ok(())
}
