//! A game that steps back, as one does when the inputs of a player come late: it keeps eight
//! snapshots in a ring, and plays from the oldest one again.
//!
//! Four workers reserve handles side by side, so which spark has which one is a matter of luck,
//! also when a frame is played again. Nothing here depends on that: a spark goes by its seed, and a
//! digest adds up the sparks in any order. A game that sends handles to other machines reserves on
//! one worker: with one, the handles are compared too.
//!
//! It writes to standard error how long a frame and a snapshot take (use `--release`). It prints
//!
//! ```text
//! 24 frames: 50079 sparks, digest 42ca87774f266707
//! 8 frames back: the digest of then
//! 8 frames again: the same digest after each
//! 8 frames with other inputs: another digest
//! on one worker: the same digests
//! 8 frames again on one worker: the same handles too
//! ```

use forgeni::{tables, Entities, Follows, Handle, HandleMap, JoinMaps, Lent};
use std::thread;
use std::time::Instant;

/// An error from any thread.
type Result<T> = std::result::Result<T, Box<dyn std::error::Error + Send + Sync>>;

const SPARKS: u32 = 50_000;
const FRAMES: usize = 24;
/// How many frames the game can step back.
const BACK: usize = 8;

/// How long a spark burns. All that it does follows from its seed.
#[derive(Clone, Copy)]
struct Life {
    seed: u64,
    frames_left: u32,
}

/// A spark that burns out, and the handles of those that it lights.
type Burnt = (Handle, Vec<Handle>);

/// A pseudo-random number (the steps of splitmix64).
fn mixed(number: u64) -> u64 {
    let mut all = number.wrapping_add(0x9e37_79b9_7f4a_7c15);
    all = (all ^ all >> 30).wrapping_mul(0xbf58_476d_1ce4_e5b9);
    all = (all ^ all >> 27).wrapping_mul(0x94d0_49bb_1331_11eb);
    all ^ all >> 31
}

/// The game before each of the last frames: before frame `n` at place `n` modulo their number.
type Ring = [Game; BACK];

tables! {
    struct Sparks {
        /// Where each spark is, in whole numbers, which all machines add in the same way.
        places: HandleMap<[i32; 2]>,
        /// How far it flies in a frame.
        speeds: HandleMap<[i32; 2]>,
        lives: HandleMap<Life>,
    }
}

#[derive(Default)]
struct Game {
    workers: usize,
    entities: Entities,
    sparks: Sparks,
}

impl Game {
    fn new(workers: usize) -> Result<Self> {
        let (mut game, mut entities) = (Self::default(), Entities::new());
        for (seed, one) in (0..).zip(entities.alloc_many(SPARKS)?) {
            game.light(one, mixed(seed), [0, 0])?;
        }
        (game.workers, game.entities) = (workers, entities);
        Ok(game)
    }

    /// Plays from this frame on, with a snapshot before each. Returns the digest after each.
    fn play(&mut self, ring: &mut Ring, from: usize, guess: i32) -> Result<Vec<u64>> {
        let play_one = |frame: usize| {
            ring[frame % BACK].take_over(self)?;
            self.frame((mixed(frame as u64) % 7) as i32 + guess)?;
            Ok(self.digest())
        };
        (from..FRAMES).map(play_one).collect()
    }

    /// Takes over the state of another game. It allocates only if that game has more slots.
    fn take_over(&mut self, other: &Self) -> Result<()> {
        self.entities.try_clone_from(&other.entities)?;
        Ok(self.sparks.try_clone_from(&other.sparks)?)
    }

    /// Gives a living entity its components.
    fn light(&mut self, one: Handle, seed: u64, place: [i32; 2]) -> Result<()> {
        let [_, x, y, frames, ..] = seed.to_le_bytes().map(i32::from);
        let frames_left = 1 + frames as u32 % 60;
        self.sparks.places.insert(one, place)?;
        self.sparks.speeds.insert(one, [x - 128, y - 128])?;
        self.sparks.lives.insert(one, Life { seed, frames_left })?;
        Ok(())
    }

    /// One frame: the systems that change sparks, those that reserve, and the sync point.
    fn frame(&mut self, input: i32) -> Result<()> {
        let all = &mut self.sparks;
        thread::scope(|scope| {
            scope.spawn(|| all.lives.for_each_mut(|_, life| life.frames_left -= 1));
            all.speeds
                .for_each_mut(|_, [dx, dy]| (*dx, *dy) = (*dx + input, *dy - 1));
            for (_, [x, y], [dx, dy]) in (&mut all.places, &all.speeds).join() {
                (*x, *y) = (*x + dx, *y + dy);
            }
        });
        for (one, lit) in self.burn_all()? {
            let (seed, place) = (self.sparks.lives[one].seed, self.sparks.places[one]);
            self.sparks.despawn(&mut self.entities, one)?;
            for (new, number) in lit.into_iter().zip(1..) {
                self.light(new, mixed(seed.wrapping_add(number)), place)?;
            }
        }
        Ok(())
    }

    /// Runs `burn` on each worker, for its part of the sparks. What they reserve is alive at the
    /// end.
    fn burn_all(&mut self) -> Result<Vec<Burnt>> {
        let living: Vec<Handle> = self.entities.iter().collect();
        let (lives, part) = (&self.sparks.lives, living.len() / self.workers + 1);
        let parts = living.chunks(part);
        let burnt: Result<Vec<_>> = self.entities.phase(self.workers, |_, reservers| {
            thread::scope(|scope| {
                let start = |(part, reserver)| scope.spawn(move || burn(part, lives, reserver));
                let running: Vec<_> = parts.zip(reservers).map(start).collect();
                let ended = running.into_iter().map(|worker| worker.join());
                ended.map(|ran| ran.expect("no system panics")).collect()
            })
        })?;
        self.entities.flush_with(|_| ())?;
        Ok(burnt?.into_iter().flatten().collect())
    }

    /// A digest of the whole game, except for its handles.
    fn digest(&self) -> u64 {
        let all = &self.sparks;
        let walk = (&all.places, &all.speeds, &all.lives).join();
        let sparks = walk.map(|(_, [x, y], [dx, dy], life)| {
            let numbers = [*x, *y, *dx, *dy, life.frames_left as i32];
            let mix = |all, number| mixed(all ^ number as u64);
            numbers.into_iter().fold(life.seed, mix)
        });
        sparks.fold(0, u64::wrapping_add)
    }
}

/// A system: of these sparks some burn out, and each of those lights none, one or two others.
fn burn(part: &[Handle], lives: &HandleMap<Life>, lent: &mut Lent<'_>) -> Result<Vec<Burnt>> {
    let burnt = part.iter().filter(|one| lives[**one].frames_left == 0);
    let lit = |one: &Handle| Ok((*one, lent.reserve_many((lives[*one].seed % 3) as u32)?));
    burnt.map(lit).collect()
}

/// Prints the statement if it holds, and returns an error if it doesn't.
fn holds(it: bool, what: &str) -> Result<()> {
    let printed = it.then(|| println!("{what}"));
    printed.ok_or_else(|| format!("not so: {what}").into())
}

fn main() -> Result<()> {
    let (mut game, mut ring) = (Game::new(4)?, Ring::default());
    let digests = game.play(&mut ring, 0, 0)?;
    let (sparks, last) = (game.entities.len(), digests[FRAMES - 1]);
    println!("{FRAMES} frames: {sparks} sparks, digest {last:016x}");

    let then = FRAMES - BACK;
    game.take_over(&ring[then % BACK])?;
    let same = game.digest() == digests[then - 1];
    holds(same, "8 frames back: the digest of then")?;
    let same = game.play(&mut ring, then, 0)? == digests[then..];
    holds(same, "8 frames again: the same digest after each")?;
    game.take_over(&ring[then % BACK])?;
    let same = game.play(&mut ring, then, 1)?[BACK - 1] == last;
    holds(!same, "8 frames with other inputs: another digest")?;

    let (mut alone, mut end) = (Game::new(1)?, Game::default());
    let same = alone.play(&mut ring, 0, 0)? == digests;
    holds(same, "on one worker: the same digests")?;
    end.take_over(&alone)?;
    alone.take_over(&ring[then % BACK])?;
    alone.play(&mut ring, then, 0)?;
    let same = alone.entities.iter().eq(&end.entities) && alone.sparks.places == end.sparks.places;
    holds(same, "8 frames again on one worker: the same handles too")?;

    let start = Instant::now();
    (0..FRAMES).try_for_each(|frame| ring[frame % BACK].take_over(&game))?;
    let snapshot = start.elapsed() / FRAMES as u32;
    let start = Instant::now();
    (0..FRAMES).try_for_each(|_| game.frame(0))?;
    let frame = start.elapsed() / FRAMES as u32;
    eprintln!("a frame takes {frame:?} on four workers, and a snapshot {snapshot:?}");
    Ok(())
}
