//! A game is saved as JSON and loaded. It prints
//!
//! ```text
//! {"player":"0v1","names":{"0v1":"ann","2v1":"bob"}}
//! ann
//! a forged save: 200000000v1: the handle is above the map's limit at line 1 column 34
//! ```

use forgeni::{Entities, Handle, HandleMap};
use serde::de::{DeserializeSeed, Deserializer};
use serde::{Deserialize, Serialize};
use std::error::Error;

#[derive(Serialize, Deserialize)]
struct Save {
    player: Handle,
    #[serde(deserialize_with = "names")]
    names: HandleMap<String>,
}

/// How many entities the game has at most.
const ENTITIES: u32 = 100_000;

/// Reads a map that takes no more room than the game's entities, whatever the save says.
fn names<'de, D: Deserializer<'de>>(save: D) -> Result<HandleMap<String>, D::Error> {
    let mut names = HandleMap::with_limit(ENTITIES);
    names.deserialize(save)?;
    Ok(names)
}

fn main() -> Result<(), Box<dyn Error + Send + Sync>> {
    let mut entities = Entities::new();
    let [player, _, friend] = entities.alloc_many(3)?[..] else {
        return Err("three entities".into());
    };
    let mut names = HandleMap::new();
    names.insert(player, "ann".to_owned())?;
    names.insert(friend, "bob".to_owned())?;

    let saved = serde_json::to_string(&Save { player, names })?;
    println!("{saved}");
    let save: Save = serde_json::from_str(&saved)?;
    println!("{}", save.names[save.player]);

    let forged = r#"{"names":{"200000000v1":"mallory"}}"#;
    if let Err(error) = serde_json::from_str::<Save>(forged) {
        println!("a forged save: {error}");
    }
    Ok(())
}
