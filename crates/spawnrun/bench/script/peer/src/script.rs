//! A script: in JSON as `serde_json` reads it, and then with numbers in place of names.

use crate::pool::Handle;
use crate::world::{Birth, Item};
use serde::de::{Error, MapAccess, Visitor};
use serde::{Deserialize, Deserializer};
use std::borrow::Cow;
use std::collections::HashMap;
use std::fmt;
use std::str::FromStr;

pub type Fault = Box<dyn std::error::Error>;

pub struct Script {
    pub slots: u32,
    pub generations: u32,
    pub components: Vec<String>,
    pub frames: Vec<Vec<System>>,
}

pub struct System {
    /// How many names it gives to what it spawns.
    pub names: usize,
    pub operations: Vec<Operation>,
}

pub type Bundle = Box<[Item]>;

pub enum Operation {
    Spawn {
        count: u32,
        bundle: Bundle,
        name: Option<u32>,
    },
    Insert(Bundle, Target),
    Remove(u8, Target),
    Despawn(Target),
}

pub enum Target {
    Name(u32),
    Each(u8),
    Handle(Handle),
    Birth(Birth),
}

// As it is written.

/// A string of the text, which is copied only if it has escapes.
#[derive(Deserialize)]
struct Word<'t>(#[serde(borrow)] Cow<'t, str>);

#[derive(Deserialize)]
#[serde(deny_unknown_fields)]
struct Written<'t> {
    #[serde(default = "format_without_births")]
    format: i64,
    #[serde(default = "most_slots")]
    slots: i64,
    #[serde(default = "last_generation")]
    generations: i64,
    components: Vec<String>,
    #[serde(borrow)]
    frames: Vec<Vec<Vec<WrittenOperation<'t>>>>,
}

fn format_without_births() -> i64 {
    1
}

fn most_slots() -> i64 {
    u32::MAX.into()
}

fn last_generation() -> i64 {
    i32::MAX.into()
}

enum WrittenOperation<'t> {
    Spawn(WrittenBundle<'t>, Option<Word<'t>>),
    SpawnMany(u32, Option<WrittenBundle<'t>>, Option<Word<'t>>),
    Insert(WrittenBundle<'t>, WrittenTarget<'t>),
    Remove(Word<'t>, WrittenTarget<'t>),
    Despawn(WrittenTarget<'t>),
}

#[derive(Deserialize)]
#[serde(rename_all = "snake_case")]
enum Key {
    Spawn,
    SpawnMany,
    Insert,
    Remove,
    Despawn,
    With,
    On,
    As,
}

#[derive(Deserialize)]
#[serde(rename_all = "lowercase")]
enum WrittenTarget<'t> {
    Name(#[serde(borrow)] Word<'t>),
    Each(Word<'t>),
    Handle(Word<'t>),
    Birth(Word<'t>),
}

struct WrittenBundle<'t>(Box<[(Word<'t>, i64)]>);

struct OperationVisitor;

impl<'t> Visitor<'t> for OperationVisitor {
    type Value = WrittenOperation<'t>;

    fn expecting(&self, f: &mut fmt::Formatter) -> fmt::Result {
        f.write_str("an operation")
    }

    fn visit_map<A: MapAccess<'t>>(self, mut map: A) -> Result<Self::Value, A::Error> {
        let (mut spawn, mut count, mut insert, mut remove, mut despawn) = Default::default();
        let (mut with, mut on, mut name) = Default::default();
        while let Some(key) = map.next_key()? {
            match key {
                Key::Spawn => spawn = Some(map.next_value()?),
                Key::SpawnMany => count = Some(map.next_value()?),
                Key::Insert => insert = Some(map.next_value()?),
                Key::Remove => remove = Some(map.next_value()?),
                Key::Despawn => despawn = Some(map.next_value()?),
                Key::With => with = Some(map.next_value()?),
                Key::On => on = Some(map.next_value()?),
                Key::As => name = Some(map.next_value()?),
            }
        }
        Ok(
            match (spawn, count, insert, remove, despawn, with, on, name) {
                (Some(it), None, None, None, None, None, None, name) => {
                    WrittenOperation::Spawn(it, name)
                }
                (None, Some(count), None, None, None, with, None, name) => {
                    WrittenOperation::SpawnMany(count, with, name)
                }
                (None, None, Some(it), None, None, None, Some(on), None) => {
                    WrittenOperation::Insert(it, on)
                }
                (None, None, None, Some(it), None, None, Some(on), None) => {
                    WrittenOperation::Remove(it, on)
                }
                (None, None, None, None, Some(on), None, None, None) => {
                    WrittenOperation::Despawn(on)
                }
                _ => return Err(A::Error::custom("the keys of no operation")),
            },
        )
    }
}

impl<'de: 't, 't> Deserialize<'de> for WrittenOperation<'t> {
    fn deserialize<D: Deserializer<'de>>(deserializer: D) -> Result<Self, D::Error> {
        deserializer.deserialize_map(OperationVisitor)
    }
}

struct BundleVisitor;

impl<'t> Visitor<'t> for BundleVisitor {
    type Value = WrittenBundle<'t>;

    fn expecting(&self, f: &mut fmt::Formatter) -> fmt::Result {
        f.write_str("a bundle")
    }

    fn visit_map<A: MapAccess<'t>>(self, mut map: A) -> Result<Self::Value, A::Error> {
        let mut items = Vec::new();
        while let Some(item) = map.next_entry()? {
            items.push(item);
        }
        Ok(WrittenBundle(items.into()))
    }
}

impl<'de: 't, 't> Deserialize<'de> for WrittenBundle<'t> {
    fn deserialize<D: Deserializer<'de>>(deserializer: D) -> Result<Self, D::Error> {
        deserializer.deserialize_map(BundleVisitor)
    }
}

// The words in strings.

fn is_name(word: &str) -> bool {
    let in_name = |byte| matches!(byte, b'a'..=b'z' | b'0'..=b'9' | b'_');
    (1..=32).contains(&word.len()) && word.bytes().all(in_name)
}

fn decimal<N: FromStr>(digits: &str) -> Option<N> {
    let plain = digits == "0" || !digits.starts_with(['0', '+', '-']);
    digits.parse().ok().filter(|_| plain)
}

fn handle(word: &str) -> Option<Handle> {
    let (index, generation) = word.split_once('v')?;
    let (index, generation) = (decimal(index)?, decimal(generation)?);
    let exists = index != u32::MAX && (1..=i32::MAX as u32).contains(&generation);
    exists.then_some(Handle { index, generation })
}

fn birth(word: &str) -> Option<Birth> {
    let mut parts = word.split('.');
    let birth = Birth(
        decimal(parts.next()?)?,
        decimal::<u8>(parts.next()?)?.into(),
        decimal(parts.next()?)?,
    );
    parts.next().is_none().then_some(birth)
}

// With numbers.

/// The numbers of the names that a place of the script may use.
struct Names<'s, 't> {
    components: &'s HashMap<&'s str, u8>,
    spawned: HashMap<Cow<'t, str>, u32>,
    /// Births of earlier frames are targets; of none in a script of format 1.
    births_before: u32,
}

impl<'t> Names<'_, 't> {
    fn component(&self, name: &Word) -> Result<u8, Fault> {
        Ok(*self.components.get(&*name.0).ok_or("component")?)
    }

    fn bundle(&self, written: WrittenBundle) -> Result<Bundle, Fault> {
        let mut bundle = Vec::with_capacity(written.0.len());
        for (name, value) in &written.0 {
            bundle.push((self.component(name)?, *value));
        }
        Ok(bundle.into())
    }

    fn target(&self, written: WrittenTarget) -> Result<Target, Fault> {
        Ok(match written {
            WrittenTarget::Name(name) => Target::Name(*self.spawned.get(&name.0).ok_or("name")?),
            WrittenTarget::Each(name) => Target::Each(self.component(&name)?),
            WrittenTarget::Handle(word) => Target::Handle(handle(&word.0).ok_or("handle")?),
            WrittenTarget::Birth(word) => {
                let is_earlier = |birth: &Birth| birth.0 < self.births_before;
                Target::Birth(birth(&word.0).filter(is_earlier).ok_or("birth")?)
            }
        })
    }

    fn bind(&mut self, name: Option<Word<'t>>) -> Result<Option<u32>, Fault> {
        let Some(Word(name)) = name else {
            return Ok(None);
        };
        if !is_name(&name) {
            return Err("as".into());
        }
        let next = self.spawned.len() as u32;
        Ok(Some(*self.spawned.entry(name).or_insert(next)))
    }

    fn operation(&mut self, written: WrittenOperation<'t>) -> Result<Operation, Fault> {
        Ok(match written {
            WrittenOperation::Spawn(bundle, name) => Operation::Spawn {
                count: 1,
                bundle: self.bundle(bundle)?,
                name: self.bind(name)?,
            },
            WrittenOperation::SpawnMany(count, bundle, name) => {
                if count > 65_536 {
                    return Err("count".into());
                }
                let bundle = bundle.map_or(Ok(Bundle::default()), |bundle| self.bundle(bundle))?;
                Operation::Spawn {
                    count,
                    bundle,
                    name: self.bind(name)?,
                }
            }
            WrittenOperation::Insert(bundle, on) => {
                Operation::Insert(self.bundle(bundle)?, self.target(on)?)
            }
            WrittenOperation::Remove(component, on) => {
                Operation::Remove(self.component(&component)?, self.target(on)?)
            }
            WrittenOperation::Despawn(on) => Operation::Despawn(self.target(on)?),
        })
    }

    fn system(mut self, written: Vec<WrittenOperation<'t>>) -> Result<System, Fault> {
        let operations = limited(written, 10_000, |_, operation| self.operation(operation))?;
        Ok(System {
            names: self.spawned.len(),
            operations,
        })
    }
}

/// What these become, each with its number, if there aren't too many.
fn limited<T, U>(
    written: Vec<T>,
    most: usize,
    mut made: impl FnMut(usize, T) -> Result<U, Fault>,
) -> Result<Vec<U>, Fault> {
    if written.len() > most {
        return Err("too many".into());
    }
    // To collect results would double the list again and again, as nothing says how many are good.
    let mut list = Vec::with_capacity(written.len());
    for (number, it) in written.into_iter().enumerate() {
        list.push(made(number, it)?);
    }
    Ok(list)
}

/// Reads a script, and checks all of it.
pub fn read(text: &[u8]) -> Result<Script, Fault> {
    if text.len() > 1 << 26 {
        return Err("too long".into());
    }
    let Written {
        format,
        slots,
        generations,
        components,
        frames,
    } = serde_json::from_slice(text)?;
    let slots = u32::try_from(slots)
        .ok()
        .filter(|&slots| slots > 0)
        .ok_or("slots")?;
    let generations = u32::try_from(generations).ok();
    let generations = generations
        .filter(|it| (1..=i32::MAX as u32).contains(it))
        .ok_or("generations")?;
    if components.len() > 256 || !components.iter().all(|name| is_name(name)) {
        return Err("components".into());
    }
    let numbers: HashMap<&str, u8> = components
        .iter()
        .zip(0..)
        .map(|(name, number)| (name.as_str(), number))
        .collect();
    if numbers.len() < components.len() || !(1..=2).contains(&format) {
        return Err("components or format".into());
    }
    let frames = limited(frames, 1000, |frame, systems| {
        limited(systems, 256, |_, operations| {
            let births_before = if format == 2 { frame as u32 } else { 0 };
            Names {
                components: &numbers,
                spawned: HashMap::new(),
                births_before,
            }
            .system(operations)
        })
    })?;
    Ok(Script {
        slots,
        generations,
        components,
        frames,
    })
}
