//! The memory of an entity with one component, beside what other crates keep of it.
//!
//! The crate slotmap is measured, where `run.sh` found it. Of Bevy 0.15 and hecs 0.10 the bytes are
//! computed from their lists, in which a release build has for each entity:
//!
//! - Bevy: the generation and a location of four numbers (20), the entity and its row in the list
//!   of an archetype (16) and the entity in that of a table (8); for a component in a table its
//!   value and two ticks (8 more), and for one in a sparse set the same, its entity's index (4) and
//!   an optional row for each index (8);
//! - hecs: the generation and a location of two numbers (12), the index in the list of an archetype
//!   (4), and its values;
//! - both: the index (4), for each slot that has waited.
//!
//! A list that grows doubles its room whenever it is full, in the peers as here.

use crate::peers;
use crate::refusing::held;
use forgeni::{ComponentId, Entities, Handle, HandleMap, SparseMap, World};

/// How many entities there are.
pub const COUNT: usize = 1_000_000;

/// The limit of each ratio.
const LIMIT: f64 = 1.1;

/// A component of so many bytes, aligned like numbers of this type.
pub trait Component: Copy + Default {}

impl Component for u32 {}
impl Component for u64 {}
impl Component for [u64; 3] {}

/// What is held at the end, by entities that are the first of their slots, and by those that come
/// after all of these have died.
pub type Held = [isize; 2];

/// Entities with a component of 4, 8 and 24 bytes.
pub type OfSizes = [fn() -> Held; 3];

/// Those of a peer.
pub struct Peer {
    pub secondary: OfSizes,
    pub sparse: OfSizes,
    /// With births, and a component of 8 bytes.
    pub births: fn() -> Held,
}

/// What a crate keeps, computed.
struct Computed {
    entity: usize,
    component: usize,
    waiting: usize,
}

const BEVY_TABLE: Computed = Computed {
    entity: 20 + 16 + 8,
    component: 4 + 4,
    waiting: 4,
};

const BEVY_SPARSE_SET: Computed = Computed {
    component: 4 + 4 + 4 + 8,
    ..BEVY_TABLE
};

const HECS: Computed = Computed {
    entity: 12 + 4,
    component: 0,
    waiting: 4,
};

impl Computed {
    /// With these components, each of so many bytes.
    fn held(&self, components: &[usize]) -> Held {
        let room = COUNT.next_power_of_two();
        let values: usize = components.iter().map(|it| it + self.component).sum();
        let bytes = room * (self.entity + values);
        [bytes as isize, (bytes + room * self.waiting) as isize]
    }
}

/// An entity with a component, and with its birth.
pub fn table() {
    println!(
        "| Storage | Component | Here | slotmap | Bevy | hecs | Ratio | Reused: here | slotmap \
         | Bevy | hecs | Ratio |"
    );
    println!("|---|---|---|---|---|---|---|---|---|---|---|---|");
    let sizes = [4, 8, 24];
    let maps: OfSizes = [in_map::<u32>, in_map::<u64>, in_map::<[u64; 3]>];
    let sparse: OfSizes = [in_sparse::<u32>, in_sparse::<u64>, in_sparse::<[u64; 3]>];
    let peer = peers::SLOTS.memory;
    for (at, size) in sizes.into_iter().enumerate() {
        let slots = peer.as_ref().map(|peer| peer.secondary[at]());
        let others = [Some(BEVY_TABLE.held(&[size])), Some(HECS.held(&[size]))];
        line("`HandleMap`", size, maps[at](), slots, others);
    }
    for (at, size) in sizes.into_iter().enumerate() {
        let slots = peer.as_ref().map(|peer| peer.sparse[at]());
        let others = [Some(BEVY_SPARSE_SET.held(&[size])), None];
        line("`SparseMap`", size, sparse[at](), slots, others);
    }
    let slots = peer.as_ref().map(|peer| (peer.births)());
    let both = [16, 8];
    let others = [Some(BEVY_TABLE.held(&both)), Some(HECS.held(&both))];
    line("`World`, with births", 8, in_world(), slots, others);
}

/// A line: what is held here, by slotmap, and by Bevy and hecs, and the ratio to the least of them,
/// in bold above the limit.
fn line(name: &str, size: usize, ours: Held, slots: Option<Held>, others: [Option<Held>; 2]) {
    print!("| {name} | {size} |");
    for state in 0..2 {
        let each = |held: Held| held[state] as f64 / COUNT as f64;
        let peers = [slots, others[0], others[1]].map(|it| it.map(each));
        let least = peers.into_iter().flatten().fold(f64::INFINITY, f64::min);
        print!(" {:.1} |", each(ours));
        for peer in peers {
            match peer {
                Some(bytes) => print!(" {bytes:.1} |"),
                None => print!(" |"),
            }
        }
        let ratio = format!("{:.2}", each(ours) / least);
        let is_above = ratio.parse().is_ok_and(|it: f64| it > LIMIT);
        let bold = if is_above { "**" } else { "" };
        print!(" {bold}{ratio}{bold} |");
    }
    println!();
}

/// What two turns of spawning all, with all dying between them, hold after each.
pub fn of_turns<S: Default, K>(
    mut spawn: impl FnMut(&mut S) -> K,
    mut despawn: impl FnMut(&mut S, K),
) -> Held {
    let mut keys = Vec::with_capacity(COUNT);
    let (mut state, first) = held(|| {
        let mut state = S::default();
        keys.extend((0..COUNT).map(|_| spawn(&mut state)));
        state
    });
    let ((), more) = held(|| {
        for key in keys.drain(..) {
            despawn(&mut state, key);
        }
        keys.extend((0..COUNT).map(|_| spawn(&mut state)));
    });
    [first, first + more]
}

fn in_map<T: Component>() -> Held {
    of_turns(
        |(entities, values): &mut (Entities, HandleMap<T>)| {
            let one = entities.alloc().expect("room");
            values.insert(one, T::default()).expect("memory");
            one
        },
        |(entities, values), one: Handle| {
            entities.free(one).expect("alive");
            values.remove(one).expect("a value");
        },
    )
}

fn in_sparse<T: Component>() -> Held {
    of_turns(
        |(entities, values): &mut (Entities, SparseMap<T>)| {
            let one = entities.alloc().expect("room");
            values.insert(one, T::default()).expect("memory");
            one
        },
        |(entities, values), one: Handle| {
            entities.free(one).expect("alive");
            values.remove(one).expect("a value");
        },
    )
}

fn in_world() -> Held {
    of_turns(
        |world: &mut World| world.spawn(&[(ComponentId(0), 1)]).expect("room"),
        |world, one: Handle| {
            world.despawn(one).expect("alive");
        },
    )
}
