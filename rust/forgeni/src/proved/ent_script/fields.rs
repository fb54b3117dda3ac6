// Made of crates/ent_script/src/fields.rt by rust/erase. It isn't edited by hand.

use crate::scripts::part::{Part, read_part};
use crate::scripts::read_fault::ReadFault;
use crate::kit::programs::json::Reader;

/// Which kinds of operation have each of the keys that were read.
#[derive(Clone, Copy)]
pub(super) struct Kinds {
    pub(super) spawn: bool,
    pub(super) spawn_many: bool,
    pub(super) insert: bool,
    pub(super) remove: bool,
    pub(super) despawn: bool,
}

/// The kinds that have a key that is none of an operation's.
const NONE: Kinds = Kinds {
    spawn: false,
    spawn_many: false,
    insert: false,
    remove: false,
    despawn: false,
};

/// Those that have `spawn`.
const SPAWN: Kinds = Kinds {
    spawn: true,
    ..NONE
};

/// Those that have `as`.
const AS: Kinds = Kinds {
    spawn: true,
    spawn_many: true,
    ..NONE
};

/// Those that have `insert`.
const INSERT: Kinds = Kinds {
    insert: true,
    ..NONE
};

/// Those that have `on`.
const ON: Kinds = Kinds {
    insert: true,
    remove: true,
    ..NONE
};

/// Those that have `remove`.
const REMOVE: Kinds = Kinds {
    remove: true,
    ..NONE
};

/// Those that have `despawn`.
const DESPAWN: Kinds = Kinds {
    despawn: true,
    ..NONE
};

/// Those that have `spawn_many`.
const SPAWN_MANY: Kinds = Kinds {
    spawn_many: true,
    ..NONE
};

/// Those that have `with`.
const WITH: Kinds = Kinds {
    spawn_many: true,
    ..NONE
};

impl Kinds {
    /// The kinds of these that have one key more, which those others are the kinds to have.
    #[inline]
    fn with(self, others: Kinds) -> Self
        // ensures { (key : List ℕ) (d : Data) (ms : Members) → AreKinds self ms
        //     → AreKinds others (put key d no_members) → AreKinds result (put key d ms) }
    {
        Kinds {
            spawn: self.spawn & others.spawn,
            spawn_many: self.spawn_many & others.spawn_many,
            insert: self.insert & others.insert,
            remove: self.remove & others.remove,
            despawn: self.despawn & others.despawn,
        }
    }
}

/// What is under each key that an operation may have.
pub(super) struct Fields<'a> {
    pub(super) spawn: Option<Part<'a>>,
    pub(super) spawn_many: Option<Part<'a>>,
    pub(super) insert: Option<Part<'a>>,
    pub(super) remove: Option<Part<'a>>,
    pub(super) despawn: Option<Part<'a>>,
    pub(super) with: Option<Part<'a>>,
    pub(super) on: Option<Part<'a>>,
    /// Under `as`.
    pub(super) binds: Option<Part<'a>>,
    /// Which kinds have all of the keys, also of those that no kind has.
    pub(super) kinds: Kinds,
}

impl<'a> Fields<'a> {
    /// Those of an object with no keys.
    #[inline]
    fn none() -> Self
        // ensures { AreFields result no_members }
    {
        Fields {
            spawn: None,
            spawn_many: None,
            insert: None,
            remove: None,
            despawn: None,
            with: None,
            on: None,
            binds: None,
            kinds: Kinds {
                spawn: true,
                spawn_many: true,
                insert: true,
                remove: true,
                despawn: true,
            },
        }
    }

    /// Puts a part under a key. Of a key that comes twice the last part counts.
    #[inline]
    fn put(&mut self, key: &str, part: Part<'a>)
        // ensures { (d : Data) (ms : Members) → data_of part.entry ≡ cut 1 d → AreFields self.old ms
        //     → AreFields self.new (put key.now d ms) }
    {
        if key == "spawn" {
            self.spawn = Some(part);
            self.kinds = self.kinds.with(SPAWN);
        } else if key == "as" {
            self.binds = Some(part);
            self.kinds = self.kinds.with(AS);
        } else if key == "insert" {
            self.insert = Some(part);
            self.kinds = self.kinds.with(INSERT);
        } else if key == "on" {
            self.on = Some(part);
            self.kinds = self.kinds.with(ON);
        } else if key == "remove" {
            self.remove = Some(part);
            self.kinds = self.kinds.with(REMOVE);
        } else if key == "despawn" {
            self.despawn = Some(part);
            self.kinds = self.kinds.with(DESPAWN);
        } else if key == "spawn_many" {
            self.spawn_many = Some(part);
            self.kinds = self.kinds.with(SPAWN_MANY);
        } else if key == "with" {
            self.with = Some(part);
            self.kinds = self.kinds.with(WITH);
        } else {
            self.kinds = NONE;
        }
    }
}

/// The fields of an object, of which the brace was taken.
#[inline]
pub(super) fn read_fields<'a>(
    reader: &mut Reader<'a>,
    depth: usize,
) -> Result<Fields<'a>, ReadFault>
    // ensures value { (n : ℕ) (ms : Members) (rest : List SpecToken)
    //     → converted (λ ms. of_members ms no_members) (members (value depth) n reader.old)
    //     ≡ Some (ms, rest) → ReadsFields result reader.new ms rest }
    // ensures passes { OnOk result (after_members depth reader.old ≡ Some reader.new) }
    // ensures shorter { OnOk result (length reader.new ≤ length reader.old) }
    // ensures no_longer { length reader.new ≤ length reader.old }
{
    let mut fields = Fields::none();
    'members: while let Some(key) = reader.next_key()? {
        let part = read_part(reader, depth)?;
        fields.put(key, part);
    }
    Ok(fields)
}
