//! One run of each part of the package, as lines of text ([`text`]) and as images ([`images`]).
//! Both are the same on every target: `.ci/targets.sh` compares them, and hands the images of each
//! target to each other one ([`again`]).
#![no_std]

extern crate alloc;
// A module for WebAssembly has an allocator by it, also where the package is built without it.
#[cfg(any(feature = "std", target_family = "wasm"))]
extern crate std;

mod parts;
mod played;
#[cfg(target_family = "wasm")]
mod wasm;

use alloc::boxed::Box;
use alloc::format;
use alloc::string::String;
use alloc::vec::Vec;
use core::error::Error;
use forgeni::{Entities, World};

pub type Result<T> = core::result::Result<T, Box<dyn Error + Send + Sync>>;

/// A line for each part: its name, and the digest of all that its calls returned.
pub fn text() -> Result<String> {
    let parts: [(_, fn() -> Result<u64>); 8] = [
        ("allocator", parts::allocator),
        ("phase", parts::phase),
        ("shared", parts::shared),
        ("maps", parts::maps),
        ("logs", parts::logs),
        ("blocks", parts::blocks),
        ("frames", parts::frames),
        ("images", || Ok(digest_of(&images()?))),
    ];
    let mut text = String::new();
    for (name, part) in parts {
        text += &format!("{name} {:016x}\n", part()?);
    }
    Ok(text)
}

/// Images of allocators and of worlds, by turns, each after its length in four bytes.
pub fn images() -> Result<Vec<u8>> {
    let (mut all, mut image) = (Vec::new(), Vec::new());
    for step in 0..played::STEPS {
        played::entities(step)?.write_image(&mut image)?;
        append(&mut all, &mut image)?;
        played::world(step)?.write_image(&mut image)?;
        append(&mut all, &mut image)?;
    }
    Ok(all)
}

/// The images that another target wrote are read, and written again.
pub fn again(mut images: &[u8]) -> Result<Vec<u8>> {
    let (mut all, mut image, mut of_worlds) = (Vec::new(), Vec::new(), false);
    while let Some((length, rest)) = images.split_first_chunk() {
        let length = usize::try_from(u32::from_le_bytes(*length))?;
        let (bytes, rest) = rest.split_at_checked(length).ok_or("an image is cut")?;
        match of_worlds {
            false => Entities::read_image(bytes)?.write_image(&mut image)?,
            true => World::read_image(bytes)?.write_image(&mut image)?,
        }
        append(&mut all, &mut image)?;
        (images, of_worlds) = (rest, !of_worlds);
    }
    Ok(all)
}

/// Moves an image behind the others, after its length.
fn append(all: &mut Vec<u8>, image: &mut Vec<u8>) -> Result<()> {
    all.extend(u32::try_from(image.len())?.to_le_bytes());
    all.append(image);
    Ok(())
}

/// A number that looks like no other (the steps of splitmix64).
fn mixed(number: u64) -> u64 {
    let mut all = number.wrapping_add(0x9e37_79b9_7f4a_7c15);
    all = (all ^ all >> 30).wrapping_mul(0xbf58_476d_1ce4_e5b9);
    all = (all ^ all >> 27).wrapping_mul(0x94d0_49bb_1331_11eb);
    all ^ all >> 31
}

/// A number below `count`, which is the same whatever width a `usize` has.
fn below(count: usize, luck: u64) -> usize {
    (luck % count as u64) as usize
}

fn digest_of(bytes: &[u8]) -> u64 {
    bytes
        .iter()
        .fold(0, |all, byte| mixed(all ^ u64::from(*byte)))
}

/// The digest of what `Debug` shows of these, in their order.
struct Digest(u64);

impl Digest {
    fn take(&mut self, shown: impl core::fmt::Debug) {
        self.0 = mixed(self.0 ^ digest_of(format!("{shown:?}").as_bytes()));
    }
}
