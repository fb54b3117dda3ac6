//! A game that one process saves and another one continues.
//!
//! The save has the image of the allocator and the sparks in the order of their rows. It is made in
//! the middle of a frame, while handles are reserved for the sparks to come: the flush of the
//! process that loads it brings them to life. Then both processes play on, and give the same
//! handles.
//!
//! `save_and_load save FILE` and `save_and_load load FILE` do one half each, also on different
//! machines. It writes to standard error how long a save and a load take (use `--release`). It
//! prints
//!
//! ```text
//! saved in a frame: 50000 sparks, living or reserved
//! loaded by another process: the same save again
//! 24 frames later: the same save in both
//! ```

use forgeni::{Entities, Handle};
use std::path::Path;
use std::process::Command;
use std::time::Instant;
use std::{env, fs, process};

type Result<T> = std::result::Result<T, Box<dyn std::error::Error>>;

const SPARKS: u32 = 50_000;
/// How many frames are played before the save, and after it.
const FRAMES: u64 = 24;

/// A pseudo-random number (the steps of splitmix64).
fn mixed(number: u64) -> u64 {
    let mut all = number.wrapping_add(0x9e37_79b9_7f4a_7c15);
    all = (all ^ all >> 30).wrapping_mul(0xbf58_476d_1ce4_e5b9);
    all = (all ^ all >> 27).wrapping_mul(0x94d0_49bb_1331_11eb);
    all ^ all >> 31
}

#[derive(Default)]
struct Game {
    entities: Entities,
    /// The living sparks, each with its seed. The place in this list is the row of the handle.
    sparks: Vec<(Handle, u64)>,
}

impl Game {
    fn new() -> Result<Self> {
        let mut game = Self::default();
        for (one, number) in game.entities.alloc_many(SPARKS)?.into_iter().zip(0..) {
            game.light(one, mixed(number))?;
        }
        Ok(game)
    }

    fn light(&mut self, one: Handle, seed: u64) -> Result<()> {
        self.entities.try_set_row(one, self.sparks.len() as u32)?;
        self.sparks.push((one, seed));
        Ok(())
    }

    /// The first half of a frame: one of sixteen sparks burns out, and for each a handle is
    /// reserved.
    fn burn(&mut self, frame: u64) -> Result<()> {
        let lit = self.sparks.len();
        for row in (0..lit).rev() {
            let (one, seed) = self.sparks[row];
            if !mixed(seed ^ frame).is_multiple_of(16) {
                continue;
            }
            self.entities.free(one)?;
            self.sparks.swap_remove(row);
            if let Some((moved, _)) = self.sparks.get(row) {
                self.entities.try_set_row(*moved, row as u32)?;
            }
        }
        self.entities
            .request_many((lit - self.sparks.len()) as u32)?;
        Ok(())
    }

    /// The second half: what was reserved is born.
    fn flush(&mut self, frame: u64) -> Result<()> {
        let mut born = vec![];
        self.entities.flush(&mut born)?;
        for (one, number) in born.into_iter().zip(frame << 32..) {
            self.light(one, mixed(number))?;
        }
        Ok(())
    }

    /// Goes on from the middle of the last frame that was played before the save.
    fn go_on(&mut self) -> Result<()> {
        for frame in FRAMES..2 * FRAMES {
            self.flush(frame)?;
            self.burn(frame + 1)?;
        }
        Ok(())
    }

    /// The length of the image, the image, and the sparks.
    fn save(&self) -> Result<Vec<u8>> {
        let mut bytes = vec![0; 8];
        self.entities.write_image(&mut bytes)?;
        let image = bytes.len() as u64 - 8;
        bytes[..8].copy_from_slice(&image.to_le_bytes());
        for (one, seed) in &self.sparks {
            bytes.extend_from_slice(&one.to_bits().to_le_bytes());
            bytes.extend_from_slice(&seed.to_le_bytes());
        }
        Ok(bytes)
    }

    fn load(bytes: &[u8]) -> Result<Self> {
        let (image, rest) = bytes.split_first_chunk().ok_or("the save is cut")?;
        let image = usize::try_from(u64::from_le_bytes(*image))?;
        let (image, sparks) = rest.split_at_checked(image).ok_or("the save is cut")?;
        let mut game = Self {
            entities: Entities::read_image(image)?,
            sparks: vec![],
        };
        for (spark, row) in sparks.as_chunks::<16>().0.iter().zip(0..) {
            let [one, seed] = [0, 8].map(|at| spark[at..at + 8].try_into().expect("eight bytes"));
            let one = Handle::from_bits(u64::from_le_bytes(one)).ok_or("no handle")?;
            // A save may come from anywhere, and so may a handle.
            if game.entities.row(one) != Some(row) {
                return Err("a spark without its row".into());
            }
            game.sparks.push((one, u64::from_le_bytes(seed)));
        }
        Ok(game)
    }
}

/// Plays to the middle of a frame, and writes the save.
fn save(file: &Path) -> Result<Game> {
    let mut game = Game::new()?;
    for frame in 0..FRAMES {
        game.burn(frame)?;
        game.flush(frame)?;
    }
    game.burn(FRAMES)?;
    let start = Instant::now();
    let bytes = game.save()?;
    let time = start.elapsed();
    fs::write(file, &bytes)?;
    eprintln!(
        "a save of {} bytes takes {time:?}, without the file",
        bytes.len()
    );
    let sparks = game.sparks.len() as u32 + game.entities.reserved();
    println!("saved in a frame: {sparks} sparks, living or reserved");
    Ok(game)
}

/// Reads the save, compares it with what it would write, plays on, and writes a later one over it.
fn load(file: &Path) -> Result<()> {
    let bytes = fs::read(file)?;
    let start = Instant::now();
    let mut game = Game::load(&bytes)?;
    eprintln!("a load takes {:?}, without the file", start.elapsed());
    holds(
        game.save()? == bytes,
        "loaded by another process: the same save again",
    )?;
    game.go_on()?;
    Ok(fs::write(file, game.save()?)?)
}

/// Prints the statement if it holds, and returns an error if it doesn't.
fn holds(it: bool, what: &str) -> Result<()> {
    let printed = it.then(|| println!("{what}"));
    printed.ok_or_else(|| format!("not so: {what}").into())
}

/// Both halves, the second one in a process of its own.
fn both(file: &Path) -> Result<()> {
    let mut game = save(file)?;
    let other = Command::new(env::current_exe()?)
        .arg("load")
        .arg(file)
        .status()?;
    if !other.success() {
        return Err("the other process failed".into());
    }
    game.go_on()?;
    let same = game.save()? == fs::read(file)?;
    holds(
        same,
        &format!("{FRAMES} frames later: the same save in both"),
    )
}

fn main() -> Result<()> {
    let words: Vec<_> = env::args_os().skip(1).collect();
    match &words[..] {
        [] => {
            let file = env::temp_dir().join(format!("forgeni-save-{}", process::id()));
            let ran = both(&file);
            fs::remove_file(&file)?;
            ran
        }
        [word, file] if word == "save" => save(file.as_ref()).map(|_| ()),
        [word, file] if word == "load" => load(file.as_ref()),
        _ => Err("save_and_load [save FILE | load FILE]".into()),
    }
}
