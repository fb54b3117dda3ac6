// Made of crates/ent_world/specs by .ci/contracts.py. It isn't edited by hand.

//! The definitions of crate `ent_world`, in the order in which one reads them:
//! [`world`], [`image`], [`open_world`], [`effects`], [`sync`], [`rest`], [`memory`], [`in_blocks`].

#[doc(alias("AreLiving", "IsWorld", "World", "lives_in"))]
/// A world: which entities are alive, and what each of them is made of.
///
/// <pre>
/// -- the allocator of its handles, how often it was flushed, and its living entities
/// pub record <b id="World">World</b> : Type 0 where
///   pub allocator : <a href="../../ent_alloc/sequential/index.html#Allocator">Allocator</a>
///   pub phase : <a href="../../logic/index.html#ℕ">ℕ</a>
///   pub entities : <a href="../../ent_storage/entity_map/index.html#EntityMap">EntityMap</a>
/// </pre>
///
/// <pre>
/// -- The entities of the map are exactly those whose handle is alive.
/// abbrev pub <b id="AreLiving">AreLiving</b> : <a href="../../ent_alloc/sequential/index.html#Allocator">Allocator</a> → <a href="../../ent_storage/entity_map/index.html#EntityMap">EntityMap</a> → Type 0
/// <a href="#AreLiving">AreLiving</a> s m = (h : <a href="../../ent_handle/handle/index.html#Handle">Handle</a>) → <a href="../../logic/index.html#FinMap.contains_key">map.contains_key</a> m h ≡ <a href="../../logic/index.html#FinSet.contains">set.contains</a> s.live h
/// </pre>
///
/// <pre>
/// -- What is true of every world: its allocator is as all steps leave it (`IsSound`), and its map has
/// -- exactly those that are alive.
/// pub record <b id="IsWorld">IsWorld</b> (w : <a href="#World">World</a>) : Type 0 where
///   pub sound : <a href="../../ent_alloc/sound/index.html#IsSound">IsSound</a> w.allocator
///   pub living : <a href="#AreLiving">AreLiving</a> w.allocator w.entities
/// </pre>
///
/// <pre>
/// -- the entity is there
/// abbrev pub <b id="lives_in">lives_in</b> : <a href="#World">World</a> → <a href="../../ent_handle/handle/index.html#Handle">Handle</a> → <a href="../../logic/index.html#Bool">Bool</a>
/// <a href="#lives_in">lives_in</a> w h = <a href="../../logic/index.html#FinMap.contains_key">map.contains_key</a> w.entities h
/// </pre>
pub mod world {}

#[doc(alias("HasImage", "allocator_of", "framed", "header_bytes", "living", "magic", "most", "version"))]
/// The image of a world: the bytes that represent it. It says everything about the world, and nothing about how it got into that state or where its entities are in memory.
///
/// <pre>
/// -- its allocator, without rows
/// abbrev pub <b id="allocator_of">allocator_of</b> : <a href="../world/index.html#World">World</a> → <a href="../../ent_alloc/entities/index.html#Entities">Entities</a>
/// <a href="#allocator_of">allocator_of</a> w = record { allocator = w.allocator; rows = <a href="../../logic/index.html#FinMap.empty">map.empty</a> }
/// </pre>
///
/// <pre>
/// -- its living entities, in slot order
/// abbrev pub <b id="living">living</b> : <a href="../world/index.html#World">World</a> → <a href="../../logic/index.html#List">List</a> <a href="../../ent_handle/handle/index.html#Handle">Handle</a>
/// <a href="#living">living</a> w = <a href="../../logic/index.html#FinMap.keys">map.keys</a> w.entities
/// </pre>
///
/// <pre>
/// -- FORGENW and a zero
/// abbrev pub <b id="magic">magic</b> : <a href="../../logic/index.html#List">List</a> <a href="../../logic/index.html#ℕ">ℕ</a>
/// <a href="#magic">magic</a> = 70 ∷ 79 ∷ 82 ∷ 71 ∷ 69 ∷ 78 ∷ 87 ∷ 0 ∷ []
/// </pre>
///
/// <pre>
/// -- the version of this format
/// abbrev pub <b id="version">version</b> : <a href="../../logic/index.html#ℕ">ℕ</a>
/// <a href="#version">version</a> = 1
/// </pre>
///
/// <pre>
/// -- 28 bytes: what they are an image of, how often the world was flushed, and how many bytes its
/// -- allocator has
/// unfoldable pub <b id="header_bytes">header_bytes</b> : <a href="../../logic/index.html#ℕ">ℕ</a> → <a href="../../logic/index.html#ℕ">ℕ</a> → <a href="../../logic/index.html#List">List</a> <a href="../../logic/index.html#ℕ">ℕ</a>
/// <a href="#header_bytes">header_bytes</a> phase len = <a href="#magic">magic</a> ++ (<a href="../../ent_handle/bytes/index.html#word">word</a> <a href="#version">version</a> ++ (<a href="../../ent_handle/bytes/index.html#long">long</a> phase ++ <a href="../../ent_handle/bytes/index.html#long">long</a> len))
/// </pre>
///
/// <pre>
/// -- a part of that many bytes, and what follows it
/// abbrev pub <b id="framed">framed</b> : <a href="../../logic/index.html#ℕ">ℕ</a> → <a href="../../logic/index.html#List">List</a> <a href="../../logic/index.html#ℕ">ℕ</a> → <a href="../../logic/index.html#List">List</a> <a href="../../logic/index.html#ℕ">ℕ</a> → <a href="../../logic/index.html#List">List</a> <a href="../../logic/index.html#ℕ">ℕ</a>
/// <a href="#framed">framed</a> phase part rest = <a href="#header_bytes">header_bytes</a> phase (<a href="../../logic/index.html#length">length</a> part) ++ (part ++ rest)
/// </pre>
///
/// <pre>
/// abbrev pub <b id="image">image</b> : <a href="../world/index.html#World">World</a> → <a href="../../logic/index.html#List">List</a> <a href="../../logic/index.html#ℕ">ℕ</a>
/// <a href="#image">image</a> w = <a href="#framed">framed</a> w.phase (<a href="../../ent_alloc/image/index.html#image">allocator_image</a> (<a href="#allocator_of">allocator_of</a> w)) (<a href="../../ent_storage/image/index.html#entities_bytes">entities_bytes</a> w.entities (<a href="#living">living</a> w))
/// </pre>
///
/// <pre>
/// -- that many bytes hold its image, whatever components its entities have
/// abbrev pub <b id="most">most</b> : <a href="../world/index.html#World">World</a> → <a href="../../logic/index.html#ℕ">ℕ</a>
/// <a href="#most">most</a> w = 72 + 12 * w.allocator.made + 2320 * <a href="../../logic/index.html#FinSet.len">set.len</a> w.allocator.live
/// </pre>
///
/// <pre>
/// -- What is true of every world. Each of them has an image, and no two have the same.
/// pub record <b id="HasImage">HasImage</b> (w : <a href="../world/index.html#World">World</a>) : Type 0 where
///   pub world : <a href="../world/index.html#IsWorld">IsWorld</a> w
///   pub asked : w.allocator.asked ≤ 2 ^ 50
///   pub phase : w.phase &lt; 2 ^ 64
///   pub stored : <a href="../../ent_storage/image/index.html#AreStored">AreStored</a> w.entities (<a href="#living">living</a> w)
/// </pre>
pub mod image {}

#[doc(alias("OpenWorld", "View"))]
/// What contracts see of a world whose allocator is shared, and of what a system may read of it.
///
/// <pre>
/// -- the shared allocator, the number of the phase, and the entities that live
/// pub record <b id="OpenWorld">OpenWorld</b> : Type 0 where
///   pub shared : <a href="../../ent_shared/phase/index.html#Shared">Shared</a>
///   pub phase : <a href="../../logic/index.html#ℕ">ℕ</a>
///   pub entities : <a href="../../ent_storage/entity_map/index.html#EntityMap">EntityMap</a>
/// </pre>
///
/// <pre>
/// -- what can be read while others reserve
/// pub record <b id="View">View</b> : Type 0 where
///   pub phase : <a href="../../logic/index.html#ℕ">ℕ</a>
///   pub entities : <a href="../../ent_storage/entity_map/index.html#EntityMap">EntityMap</a>
/// </pre>
pub mod open_world {}

#[doc(alias("Applied", "after_command", "after_commands", "after_despawn", "after_insert", "after_queues", "after_remove", "after_spawn", "applied", "on_each", "on_entity", "refused", "spawned", "with_fault"))]
/// What commands do to a world, and the faults of those that have no effect.
///
/// <pre>
/// -- each component of the bundle is set, and the entity's others stay
/// abbrev pub <b id="after_insert">after_insert</b> : <a href="../../ent_storage/bundle/index.html#Bundle">Bundle</a> → <a href="../../ent_handle/handle/index.html#Handle">Handle</a> → <a href="../world/index.html#World">World</a> → <a href="../world/index.html#World">World</a>
/// <a href="#after_insert">after_insert</a> items h w =
///     record w { entities = <a href="../../ent_storage/entity_map/index.html#with_components">with_components</a> w.entities h (λ held. <a href="../../ent_storage/components/index.html#with_items">with_items</a> held items) }
/// </pre>
///
/// <pre>
/// -- the component goes, if it is there
/// abbrev pub <b id="after_remove">after_remove</b> : ComponentId → <a href="../../ent_handle/handle/index.html#Handle">Handle</a> → <a href="../world/index.html#World">World</a> → <a href="../world/index.html#World">World</a>
/// <a href="#after_remove">after_remove</a> id h w =
///     record w { entities = <a href="../../ent_storage/entity_map/index.html#with_components">with_components</a> w.entities h (λ held. <a href="../../logic/index.html#FinMap.remove">map.remove</a> held id) }
/// </pre>
///
/// <pre>
/// -- the entity goes, and its handle is freed
/// abbrev pub <b id="after_despawn">after_despawn</b> : <a href="../../ent_handle/handle/index.html#Handle">Handle</a> → <a href="../world/index.html#World">World</a> → <a href="../world/index.html#World">World</a>
/// <a href="#after_despawn">after_despawn</a> h w =
///     record w { allocator = <a href="../../ent_alloc/sequential/index.html#after_free">after_free</a> w.allocator h; entities = <a href="../../logic/index.html#FinMap.remove">map.remove</a> w.entities h }
/// </pre>
///
/// <pre>
/// -- an entity with its first components
/// abbrev pub <b id="spawned">spawned</b> : Birth → <a href="../../ent_storage/bundle/index.html#Bundle">Bundle</a> → <a href="../../ent_storage/entity_map/index.html#Entity">Entity</a>
/// <a href="#spawned">spawned</a> birth items = record { birth = birth; components = <a href="../../ent_storage/components/index.html#with_items">with_items</a> <a href="../../logic/index.html#FinMap.empty">map.empty</a> items }
/// </pre>
///
/// <pre>
/// -- the handle comes to life at once
/// abbrev pub <b id="after_spawn">after_spawn</b> : Birth → <a href="../../ent_storage/bundle/index.html#Bundle">Bundle</a> → <a href="../../ent_handle/handle/index.html#Handle">Handle</a> → <a href="../world/index.html#World">World</a> → <a href="../world/index.html#World">World</a>
/// <a href="#after_spawn">after_spawn</a> birth items h w = record w {
///   allocator = <a href="../../ent_alloc/sequential/index.html#after_alloc">after_alloc</a> w.allocator h;
///   entities = <a href="../../logic/index.html#FinMap.insert">map.insert</a> w.entities h (<a href="#spawned">spawned</a> birth items);
/// }
/// </pre>
///
/// <pre>
/// -- a world after commands, and their faults in order
/// pub record <b id="Applied">Applied</b> : Type 0 where
///   pub world : <a href="../world/index.html#World">World</a>
///   pub faults : <a href="../../logic/index.html#List">List</a> Fault
/// </pre>
///
/// <pre>
/// abbrev pub <b id="applied">applied</b> : <a href="../world/index.html#World">World</a> → <a href="../../logic/index.html#List">List</a> Fault → <a href="#Applied">Applied</a>
/// <a href="#applied">applied</a> w faults = record { world = w; faults = faults }
/// </pre>
///
/// <pre>
/// -- one fault more
/// abbrev pub <b id="with_fault">with_fault</b> : <a href="../../logic/index.html#ℕ">ℕ</a> → <a href="../../logic/index.html#ℕ">ℕ</a> → FaultKind → <a href="#Applied">Applied</a> → <a href="#Applied">Applied</a>
/// <a href="#with_fault">with_fault</a> system command why a =
///     record a { faults = a.faults ++ record { system = system; command = command; kind = why } ∷ [] }
/// </pre>
///
/// <pre>
/// -- A command changes an entity that is there; otherwise it changes nothing, and is a fault.
/// abbrev pub <b id="on_entity">on_entity</b> : <a href="../../logic/index.html#ℕ">ℕ</a> → <a href="../../logic/index.html#ℕ">ℕ</a> → (<a href="../../ent_handle/handle/index.html#Handle">Handle</a> → <a href="../world/index.html#World">World</a> → <a href="../world/index.html#World">World</a>) → <a href="../../ent_handle/handle/index.html#Handle">Handle</a> → <a href="#Applied">Applied</a> → <a href="#Applied">Applied</a>
/// <a href="#on_entity">on_entity</a> system command change h a =
///     if <a href="../world/index.html#lives_in">lives_in</a> a.world h
///     then record a { world = change h a.world }
///     else <a href="#with_fault">with_fault</a> system command (kind.NotAlive h) a
/// </pre>
///
/// <pre>
/// -- each of the handles in turn
/// abbrev pub <b id="on_each">on_each</b> : <a href="../../logic/index.html#ℕ">ℕ</a> → <a href="../../logic/index.html#ℕ">ℕ</a> → (<a href="../../ent_handle/handle/index.html#Handle">Handle</a> → <a href="../world/index.html#World">World</a> → <a href="../world/index.html#World">World</a>) → <a href="../../logic/index.html#List">List</a> <a href="../../ent_handle/handle/index.html#Handle">Handle</a> → <a href="#Applied">Applied</a> → <a href="#Applied">Applied</a>
/// <a href="#on_each">on_each</a> system command change [] a = a
/// <a href="#on_each">on_each</a> system command change (h ∷ hs) a =
///     <a href="#on_each">on_each</a> system command change hs (<a href="#on_entity">on_entity</a> system command change h a)
/// </pre>
///
/// <pre>
/// -- a refusal as a fault
/// abbrev pub <b id="refused">refused</b> : Refusal → FaultKind
/// <a href="#refused">refused</a> (refusal.Space wanted left) = kind.Space wanted left
/// <a href="#refused">refused</a> (refusal.Quota left) = kind.Quota left
/// </pre>
///
/// <pre>
/// -- a command of a system, by its number in the system's queue
/// abbrev pub <b id="after_command">after_command</b> : <a href="../../logic/index.html#ℕ">ℕ</a> → <a href="../../logic/index.html#ℕ">ℕ</a> → <a href="../../ent_queue/command/index.html#Command">Command</a> → <a href="#Applied">Applied</a> → <a href="#Applied">Applied</a>
/// <a href="#after_command">after_command</a> system command (<a href="../../ent_queue/command/index.html#Spawn">Spawn</a> h items) a = <a href="#on_entity">on_entity</a> system command (<a href="#after_insert">after_insert</a> items) h a
/// <a href="#after_command">after_command</a> system command (<a href="../../ent_queue/command/index.html#SpawnMany">SpawnMany</a> hs items) a =
///     <a href="#on_each">on_each</a> system command (<a href="#after_insert">after_insert</a> items) hs a
/// <a href="#after_command">after_command</a> system command (<a href="../../ent_queue/command/index.html#Insert">Insert</a> h items) a = <a href="#on_entity">on_entity</a> system command (<a href="#after_insert">after_insert</a> items) h a
/// <a href="#after_command">after_command</a> system command (<a href="../../ent_queue/command/index.html#Remove">Remove</a> h id) a = <a href="#on_entity">on_entity</a> system command (<a href="#after_remove">after_remove</a> id) h a
/// <a href="#after_command">after_command</a> system command (<a href="../../ent_queue/command/index.html#Despawn">Despawn</a> h) a = <a href="#on_entity">on_entity</a> system command <a href="#after_despawn">after_despawn</a> h a
/// <a href="#after_command">after_command</a> system command (<a href="../../ent_queue/command/index.html#Refused">Refused</a> wanted why) a = <a href="#with_fault">with_fault</a> system command (<a href="#refused">refused</a> why) a
/// </pre>
///
/// <pre>
/// -- the commands of a queue, in order, counted from here on
/// abbrev pub <b id="after_commands">after_commands</b> : <a href="../../logic/index.html#ℕ">ℕ</a> → <a href="../../logic/index.html#ℕ">ℕ</a> → <a href="../../logic/index.html#List">List</a> <a href="../../ent_queue/command/index.html#Command">Command</a> → <a href="#Applied">Applied</a> → <a href="#Applied">Applied</a>
/// <a href="#after_commands">after_commands</a> system command [] a = a
/// <a href="#after_commands">after_commands</a> system command (c ∷ cs) a =
///     <a href="#after_commands">after_commands</a> system (command + 1) cs (<a href="#after_command">after_command</a> system command c a)
/// </pre>
///
/// <pre>
/// -- one queue after the other, each of the next system
/// abbrev pub <b id="after_queues">after_queues</b> : <a href="../../logic/index.html#ℕ">ℕ</a> → <a href="../../logic/index.html#List">List</a> (<a href="../../logic/index.html#List">List</a> <a href="../../ent_queue/command/index.html#Command">Command</a>) → <a href="#Applied">Applied</a> → <a href="#Applied">Applied</a>
/// <a href="#after_queues">after_queues</a> system [] a = a
/// <a href="#after_queues">after_queues</a> system (q ∷ qs) a = <a href="#after_queues">after_queues</a> (system + 1) qs (<a href="#after_commands">after_commands</a> system 0 q a)
/// </pre>
pub mod effects {}

#[doc(alias("IsStop", "after_births", "at_ordinal", "birth_in", "cut", "cut_commands", "cut_queue", "first_part", "handles_listed", "listed_birth", "listed_by", "next_phase", "no_system", "ordinal", "ordinal_among", "stops", "stops_in", "sync_until", "unlisted", "unlisted_birth", "with_born"))]
/// The sync point: what is reserved is born, and then all commands take effect, queue by queue.
///
/// <pre>
/// -- the handles that were reserved for a command
/// abbrev pub <b id="listed_by">listed_by</b> : <a href="../../ent_queue/command/index.html#Command">Command</a> → <a href="../../logic/index.html#List">List</a> <a href="../../ent_handle/handle/index.html#Handle">Handle</a>
/// <a href="#listed_by">listed_by</a> (<a href="../../ent_queue/command/index.html#Spawn">Spawn</a> h items) = h ∷ []
/// <a href="#listed_by">listed_by</a> (<a href="../../ent_queue/command/index.html#SpawnMany">SpawnMany</a> hs items) = hs
/// <a href="#listed_by">listed_by</a> (<a href="../../ent_queue/command/index.html#Insert">Insert</a> h items) = []
/// <a href="#listed_by">listed_by</a> (<a href="../../ent_queue/command/index.html#Remove">Remove</a> h id) = []
/// <a href="#listed_by">listed_by</a> (<a href="../../ent_queue/command/index.html#Despawn">Despawn</a> h) = []
/// <a href="#listed_by">listed_by</a> (<a href="../../ent_queue/command/index.html#Refused">Refused</a> wanted why) = []
/// </pre>
///
/// <pre>
/// -- the handles that a queue lists, in the order of the replies
/// abbrev pub <b id="handles_listed">handles_listed</b> : <a href="../../logic/index.html#List">List</a> <a href="../../ent_queue/command/index.html#Command">Command</a> → <a href="../../logic/index.html#List">List</a> <a href="../../ent_handle/handle/index.html#Handle">Handle</a>
/// <a href="#handles_listed">handles_listed</a> queue = flat_map <a href="#listed_by">listed_by</a> queue
/// </pre>
///
/// <pre>
/// -- the number of no system, and the greatest ordinal
/// abbrev pub <b id="no_system">no_system</b> : <a href="../../logic/index.html#ℕ">ℕ</a>
/// <a href="#no_system">no_system</a> = 2 ^ 32 - 1
/// </pre>
///
/// <pre>
/// abbrev pub <b id="ordinal">ordinal</b> : <a href="../../logic/index.html#ℕ">ℕ</a> → <a href="../../logic/index.html#ℕ">ℕ</a>
/// <a href="#ordinal">ordinal</a> n = <a href="../../logic/index.html#min">min</a> n (2 ^ 32 - 1)
/// </pre>
///
/// <pre>
/// -- how many come before a handle in a list, if it is in the list
/// abbrev pub <b id="ordinal_among">ordinal_among</b> : <a href="../../logic/index.html#List">List</a> <a href="../../ent_handle/handle/index.html#Handle">Handle</a> → <a href="../../ent_handle/handle/index.html#Handle">Handle</a> → <a href="../../logic/index.html#Option">Option</a> <a href="../../logic/index.html#ℕ">ℕ</a>
/// <a href="#ordinal_among">ordinal_among</a> handles h = position_from (eq_by_cmp <a href="../../ent_handle/handle/index.html#handle_cmp">handle_cmp</a> h) 0 handles
/// </pre>
///
/// <pre>
/// -- the birth by the first queue that lists the handle
/// abbrev pub <b id="at_ordinal">at_ordinal</b> : <a href="../../logic/index.html#ℕ">ℕ</a> → <a href="../../logic/index.html#ℕ">ℕ</a> → <a href="../../logic/index.html#Option">Option</a> <a href="../../logic/index.html#ℕ">ℕ</a> → <a href="../../logic/index.html#Option">Option</a> Birth → <a href="../../logic/index.html#Option">Option</a> Birth
/// <a href="#at_ordinal">at_ordinal</a> phase system <a href="../../logic/index.html#None">None</a> others = others
/// <a href="#at_ordinal">at_ordinal</a> phase system (<a href="../../logic/index.html#Some">Some</a> before) others =
///     <a href="../../logic/index.html#Some">Some</a> (record { frame = phase; system = system; <a href="#ordinal">ordinal</a> = <a href="#ordinal">ordinal</a> before })
/// </pre>
///
/// <pre>
/// abbrev pub <b id="listed_birth">listed_birth</b> : <a href="../../logic/index.html#ℕ">ℕ</a> → <a href="../../logic/index.html#ℕ">ℕ</a> → <a href="../../logic/index.html#List">List</a> (<a href="../../logic/index.html#List">List</a> <a href="../../ent_queue/command/index.html#Command">Command</a>) → <a href="../../ent_handle/handle/index.html#Handle">Handle</a> → <a href="../../logic/index.html#Option">Option</a> Birth
/// <a href="#listed_birth">listed_birth</a> phase system [] h = <a href="../../logic/index.html#None">None</a>
/// <a href="#listed_birth">listed_birth</a> phase system (q ∷ qs) h =
///     <a href="#at_ordinal">at_ordinal</a> phase system (<a href="#ordinal_among">ordinal_among</a> (<a href="#handles_listed">handles_listed</a> q) h)
///     (<a href="#listed_birth">listed_birth</a> phase (system + 1) qs h)
/// </pre>
///
/// <pre>
/// -- those of the handles that no queue lists
/// abbrev pub <b id="unlisted">unlisted</b> : <a href="../../logic/index.html#List">List</a> (<a href="../../logic/index.html#List">List</a> <a href="../../ent_queue/command/index.html#Command">Command</a>) → <a href="../../logic/index.html#List">List</a> <a href="../../ent_handle/handle/index.html#Handle">Handle</a> → <a href="../../logic/index.html#List">List</a> <a href="../../ent_handle/handle/index.html#Handle">Handle</a>
/// <a href="#unlisted">unlisted</a> queues handles = <a href="../../logic/index.html#filter">filter</a> (λ h. is_none (<a href="#listed_birth">listed_birth</a> 0 0 queues h)) handles
/// </pre>
///
/// <pre>
/// -- the birth of a handle that no queue lists: such handles are numbered
/// abbrev pub <b id="unlisted_birth">unlisted_birth</b> : <a href="../../logic/index.html#ℕ">ℕ</a> → <a href="../../logic/index.html#List">List</a> <a href="../../ent_handle/handle/index.html#Handle">Handle</a> → <a href="../../ent_handle/handle/index.html#Handle">Handle</a> → Birth
/// <a href="#unlisted_birth">unlisted_birth</a> phase others h =
///     record {
///       frame = phase;
///       system = <a href="#no_system">no_system</a>;
///       <a href="#ordinal">ordinal</a> = <a href="#ordinal">ordinal</a> (<a href="../../logic/index.html#unwrap_or">unwrap_or</a> (<a href="#ordinal_among">ordinal_among</a> others h) 0);
///     }
/// </pre>
///
/// <pre>
/// -- the birth of a handle that is born with these
/// abbrev pub <b id="birth_in">birth_in</b> : <a href="../../logic/index.html#ℕ">ℕ</a> → <a href="../../logic/index.html#List">List</a> (<a href="../../logic/index.html#List">List</a> <a href="../../ent_queue/command/index.html#Command">Command</a>) → <a href="../../logic/index.html#List">List</a> <a href="../../ent_handle/handle/index.html#Handle">Handle</a> → <a href="../../ent_handle/handle/index.html#Handle">Handle</a> → Birth
/// <a href="#birth_in">birth_in</a> phase queues handles h =
///     <a href="../../logic/index.html#unwrap_or">unwrap_or</a> (<a href="#listed_birth">listed_birth</a> phase 0 queues h) (<a href="#unlisted_birth">unlisted_birth</a> phase (<a href="#unlisted">unlisted</a> queues handles) h)
/// </pre>
///
/// <pre>
/// -- each of the handles with its birth, and without components
/// abbrev pub <b id="with_born">with_born</b> : <a href="../../ent_storage/entity_map/index.html#EntityMap">EntityMap</a> → (<a href="../../ent_handle/handle/index.html#Handle">Handle</a> → Birth) → <a href="../../logic/index.html#List">List</a> <a href="../../ent_handle/handle/index.html#Handle">Handle</a> → <a href="../../ent_storage/entity_map/index.html#EntityMap">EntityMap</a>
/// <a href="#with_born">with_born</a> m birth [] = m
/// <a href="#with_born">with_born</a> m birth (h ∷ hs) = <a href="#with_born">with_born</a> (<a href="../../logic/index.html#FinMap.insert">map.insert</a> m h (<a href="../../ent_storage/entity_map/index.html#newborn">newborn</a> (birth h))) birth hs
/// </pre>
///
/// <pre>
/// -- the next phase; the last one is its own next
/// abbrev pub <b id="next_phase">next_phase</b> : <a href="../../logic/index.html#ℕ">ℕ</a> → <a href="../../logic/index.html#ℕ">ℕ</a>
/// <a href="#next_phase">next_phase</a> phase = <a href="../../logic/index.html#min">min</a> (phase + 1) (2 ^ 64 - 1)
/// </pre>
///
/// <pre>
/// -- what is reserved is born, each handle with its birth by these queues
/// abbrev pub <b id="after_births">after_births</b> : <a href="../../logic/index.html#List">List</a> (<a href="../../logic/index.html#List">List</a> <a href="../../ent_queue/command/index.html#Command">Command</a>) → <a href="../world/index.html#World">World</a> → <a href="../world/index.html#World">World</a>
/// <a href="#after_births">after_births</a> queues w = record {
///   allocator = <a href="../../ent_alloc/sequential/index.html#after_flush">after_flush</a> w.allocator;
///   phase = <a href="#next_phase">next_phase</a> w.phase;
///   entities = <a href="#with_born">with_born</a> w.entities (<a href="#birth_in">birth_in</a> w.phase queues (<a href="../../ent_alloc/sequential/index.html#born">born</a> w.allocator)) (<a href="../../ent_alloc/sequential/index.html#born">born</a> w.allocator);
/// }
/// </pre>
///
/// <pre>
/// -- the sync of these queues, in the order of their systems: the world after it, and the faults
/// abbrev pub <b id="sync">sync</b> : <a href="../../logic/index.html#List">List</a> (<a href="../../logic/index.html#List">List</a> <a href="../../ent_queue/command/index.html#Command">Command</a>) → <a href="../world/index.html#World">World</a> → <a href="../effects/index.html#Applied">Applied</a>
/// <a href="#sync">sync</a> queues w = <a href="../effects/index.html#after_queues">after_queues</a> 0 queues (<a href="../effects/index.html#applied">applied</a> (<a href="#after_births">after_births</a> queues w) [])
/// </pre>
///
/// <pre>
/// -- A command as far as its first handles go; only a spawn of many has more than one stop.
/// abbrev pub <b id="first_part">first_part</b> : <a href="../../logic/index.html#ℕ">ℕ</a> → <a href="../../logic/index.html#List">List</a> <a href="../../ent_queue/command/index.html#Command">Command</a> → <a href="../../logic/index.html#List">List</a> <a href="../../ent_queue/command/index.html#Command">Command</a>
/// <a href="#first_part">first_part</a> done [] = []
/// <a href="#first_part">first_part</a> done (<a href="../../ent_queue/command/index.html#Spawn">Spawn</a> h items ∷ cs) = []
/// <a href="#first_part">first_part</a> done (<a href="../../ent_queue/command/index.html#SpawnMany">SpawnMany</a> hs items ∷ cs) = <a href="../../ent_queue/command/index.html#SpawnMany">SpawnMany</a> (<a href="../../logic/index.html#take">take</a> done hs) items ∷ []
/// <a href="#first_part">first_part</a> done (<a href="../../ent_queue/command/index.html#Insert">Insert</a> h items ∷ cs) = []
/// <a href="#first_part">first_part</a> done (<a href="../../ent_queue/command/index.html#Remove">Remove</a> h id ∷ cs) = []
/// <a href="#first_part">first_part</a> done (<a href="../../ent_queue/command/index.html#Despawn">Despawn</a> h ∷ cs) = []
/// <a href="#first_part">first_part</a> done (<a href="../../ent_queue/command/index.html#Refused">Refused</a> wanted why ∷ cs) = []
/// </pre>
///
/// <pre>
/// -- the commands of a queue before that handle of that command
/// abbrev pub <b id="cut_commands">cut_commands</b> : <a href="../../logic/index.html#ℕ">ℕ</a> → <a href="../../logic/index.html#ℕ">ℕ</a> → <a href="../../logic/index.html#List">List</a> <a href="../../ent_queue/command/index.html#Command">Command</a> → <a href="../../logic/index.html#List">List</a> <a href="../../ent_queue/command/index.html#Command">Command</a>
/// <a href="#cut_commands">cut_commands</a> command done q = <a href="../../logic/index.html#take">take</a> command q ++ <a href="#first_part">first_part</a> done (<a href="../../logic/index.html#drop">drop</a> command q)
/// </pre>
///
/// <pre>
/// -- the queues before that handle of that command of that system
/// abbrev pub <b id="cut_queue">cut_queue</b> : <a href="../../logic/index.html#ℕ">ℕ</a> → <a href="../../logic/index.html#ℕ">ℕ</a> → <a href="../../logic/index.html#List">List</a> (<a href="../../logic/index.html#List">List</a> <a href="../../ent_queue/command/index.html#Command">Command</a>) → <a href="../../logic/index.html#List">List</a> (<a href="../../logic/index.html#List">List</a> <a href="../../ent_queue/command/index.html#Command">Command</a>)
/// <a href="#cut_queue">cut_queue</a> command done [] = []
/// <a href="#cut_queue">cut_queue</a> command done (q ∷ qs) = <a href="#cut_commands">cut_commands</a> command done q ∷ []
/// </pre>
///
/// <pre>
/// abbrev pub <b id="cut">cut</b> : <a href="../../logic/index.html#ℕ">ℕ</a> → <a href="../../logic/index.html#ℕ">ℕ</a> → <a href="../../logic/index.html#ℕ">ℕ</a> → <a href="../../logic/index.html#List">List</a> (<a href="../../logic/index.html#List">List</a> <a href="../../ent_queue/command/index.html#Command">Command</a>) → <a href="../../logic/index.html#List">List</a> (<a href="../../logic/index.html#List">List</a> <a href="../../ent_queue/command/index.html#Command">Command</a>)
/// <a href="#cut">cut</a> system command done queues = <a href="../../logic/index.html#take">take</a> system queues ++ <a href="#cut_queue">cut_queue</a> command done (<a href="../../logic/index.html#drop">drop</a> system queues)
/// </pre>
///
/// <pre>
/// -- the sync that stopped there: all births have taken effect, and exactly the commands before that
/// -- point
/// abbrev pub <b id="sync_until">sync_until</b> : <a href="../../logic/index.html#ℕ">ℕ</a> → <a href="../../logic/index.html#ℕ">ℕ</a> → <a href="../../logic/index.html#ℕ">ℕ</a> → <a href="../../logic/index.html#List">List</a> (<a href="../../logic/index.html#List">List</a> <a href="../../ent_queue/command/index.html#Command">Command</a>) → <a href="../world/index.html#World">World</a> → <a href="../effects/index.html#Applied">Applied</a>
/// <a href="#sync_until">sync_until</a> system command done queues w =
///     <a href="../effects/index.html#after_queues">after_queues</a> 0 (<a href="#cut">cut</a> system command done queues) (<a href="../effects/index.html#applied">applied</a> (<a href="#after_births">after_births</a> queues w) [])
/// </pre>
///
/// <pre>
/// -- how many stops the first of the commands has: before each of its handles
/// abbrev pub <b id="stops">stops</b> : <a href="../../logic/index.html#List">List</a> <a href="../../ent_queue/command/index.html#Command">Command</a> → <a href="../../logic/index.html#ℕ">ℕ</a>
/// <a href="#stops">stops</a> [] = 0
/// <a href="#stops">stops</a> (<a href="../../ent_queue/command/index.html#Spawn">Spawn</a> h items ∷ cs) = 1
/// <a href="#stops">stops</a> (<a href="../../ent_queue/command/index.html#SpawnMany">SpawnMany</a> hs items ∷ cs) = <a href="../../logic/index.html#max">max</a> 1 (<a href="../../logic/index.html#length">length</a> hs)
/// <a href="#stops">stops</a> (<a href="../../ent_queue/command/index.html#Insert">Insert</a> h items ∷ cs) = 1
/// <a href="#stops">stops</a> (<a href="../../ent_queue/command/index.html#Remove">Remove</a> h id ∷ cs) = 1
/// <a href="#stops">stops</a> (<a href="../../ent_queue/command/index.html#Despawn">Despawn</a> h ∷ cs) = 1
/// <a href="#stops">stops</a> (<a href="../../ent_queue/command/index.html#Refused">Refused</a> wanted why ∷ cs) = 1
/// </pre>
///
/// <pre>
/// abbrev pub <b id="stops_in">stops_in</b> : <a href="../../logic/index.html#ℕ">ℕ</a> → <a href="../../logic/index.html#List">List</a> (<a href="../../logic/index.html#List">List</a> <a href="../../ent_queue/command/index.html#Command">Command</a>) → <a href="../../logic/index.html#ℕ">ℕ</a>
/// <a href="#stops_in">stops_in</a> command [] = 0
/// <a href="#stops_in">stops_in</a> command (q ∷ qs) = <a href="#stops">stops</a> (<a href="../../logic/index.html#drop">drop</a> command q)
/// </pre>
///
/// <pre>
/// -- The queues have that command of that system, and it has that handle.
/// abbrev pub <b id="IsStop">IsStop</b> : <a href="../../logic/index.html#ℕ">ℕ</a> → <a href="../../logic/index.html#ℕ">ℕ</a> → <a href="../../logic/index.html#ℕ">ℕ</a> → <a href="../../logic/index.html#List">List</a> (<a href="../../logic/index.html#List">List</a> <a href="../../ent_queue/command/index.html#Command">Command</a>) → Type 0
/// <a href="#IsStop">IsStop</a> system command done queues = done &lt; <a href="#stops_in">stops_in</a> command (<a href="../../logic/index.html#drop">drop</a> system queues)
/// </pre>
pub mod sync {}

#[doc(alias("HasStoppedSo", "IsLater", "IsLaterIn", "after_left", "after_left_queues", "last_part", "left_commands"))]
/// What is left of queues after a stop, and what it does: how a sync point that stopped goes on.
///
/// <pre>
/// -- The commands without the first handles of the first one; only a spawn of many has several.
/// abbrev pub <b id="last_part">last_part</b> : <a href="../../logic/index.html#ℕ">ℕ</a> → <a href="../../logic/index.html#List">List</a> <a href="../../ent_queue/command/index.html#Command">Command</a> → <a href="../../logic/index.html#List">List</a> <a href="../../ent_queue/command/index.html#Command">Command</a>
/// <a href="#last_part">last_part</a> done [] = []
/// <a href="#last_part">last_part</a> done (<a href="../../ent_queue/command/index.html#Spawn">Spawn</a> h items ∷ cs) = <a href="../../ent_queue/command/index.html#Spawn">Spawn</a> h items ∷ cs
/// <a href="#last_part">last_part</a> done (<a href="../../ent_queue/command/index.html#SpawnMany">SpawnMany</a> hs items ∷ cs) = <a href="../../ent_queue/command/index.html#SpawnMany">SpawnMany</a> (<a href="../../logic/index.html#drop">drop</a> done hs) items ∷ cs
/// <a href="#last_part">last_part</a> done (<a href="../../ent_queue/command/index.html#Insert">Insert</a> h items ∷ cs) = <a href="../../ent_queue/command/index.html#Insert">Insert</a> h items ∷ cs
/// <a href="#last_part">last_part</a> done (<a href="../../ent_queue/command/index.html#Remove">Remove</a> h id ∷ cs) = <a href="../../ent_queue/command/index.html#Remove">Remove</a> h id ∷ cs
/// <a href="#last_part">last_part</a> done (<a href="../../ent_queue/command/index.html#Despawn">Despawn</a> h ∷ cs) = <a href="../../ent_queue/command/index.html#Despawn">Despawn</a> h ∷ cs
/// <a href="#last_part">last_part</a> done (<a href="../../ent_queue/command/index.html#Refused">Refused</a> wanted why ∷ cs) = <a href="../../ent_queue/command/index.html#Refused">Refused</a> wanted why ∷ cs
/// </pre>
///
/// <pre>
/// -- the commands of a queue from that handle of that command on
/// abbrev pub <b id="left_commands">left_commands</b> : <a href="../../logic/index.html#ℕ">ℕ</a> → <a href="../../logic/index.html#ℕ">ℕ</a> → <a href="../../logic/index.html#List">List</a> <a href="../../ent_queue/command/index.html#Command">Command</a> → <a href="../../logic/index.html#List">List</a> <a href="../../ent_queue/command/index.html#Command">Command</a>
/// <a href="#left_commands">left_commands</a> command done q = <a href="#last_part">last_part</a> done (<a href="../../logic/index.html#drop">drop</a> command q)
/// </pre>
///
/// <pre>
/// -- the rest of the first of these queues, and then the others, each of the next system
/// abbrev pub <b id="after_left_queues">after_left_queues</b> : <a href="../../logic/index.html#ℕ">ℕ</a> → <a href="../../logic/index.html#ℕ">ℕ</a> → <a href="../../logic/index.html#ℕ">ℕ</a> → <a href="../../logic/index.html#List">List</a> (<a href="../../logic/index.html#List">List</a> <a href="../../ent_queue/command/index.html#Command">Command</a>) → <a href="../effects/index.html#Applied">Applied</a> → <a href="../effects/index.html#Applied">Applied</a>
/// <a href="#after_left_queues">after_left_queues</a> system command done [] a = a
/// <a href="#after_left_queues">after_left_queues</a> system command done (q ∷ qs) a =
///     <a href="../effects/index.html#after_queues">after_queues</a> (system + 1) qs (<a href="../effects/index.html#after_commands">after_commands</a> system command (<a href="#left_commands">left_commands</a> command done q) a)
/// </pre>
///
/// <pre>
/// -- the queues from that handle of that command of that system on
/// abbrev pub <b id="after_left">after_left</b> : <a href="../../logic/index.html#ℕ">ℕ</a> → <a href="../../logic/index.html#ℕ">ℕ</a> → <a href="../../logic/index.html#ℕ">ℕ</a> → <a href="../../logic/index.html#List">List</a> (<a href="../../logic/index.html#List">List</a> <a href="../../ent_queue/command/index.html#Command">Command</a>) → <a href="../effects/index.html#Applied">Applied</a> → <a href="../effects/index.html#Applied">Applied</a>
/// <a href="#after_left">after_left</a> system command done queues a =
///     <a href="#after_left_queues">after_left_queues</a> system command done (<a href="../../logic/index.html#drop">drop</a> system queues) a
/// </pre>
///
/// <pre>
/// -- The second stop in a queue is the first one, or comes after it.
/// abbrev pub <b id="IsLaterIn">IsLaterIn</b> : <a href="../../logic/index.html#ℕ">ℕ</a> → <a href="../../logic/index.html#ℕ">ℕ</a> → <a href="../../logic/index.html#ℕ">ℕ</a> → <a href="../../logic/index.html#ℕ">ℕ</a> → Type 0
/// <a href="#IsLaterIn">IsLaterIn</a> command done later later_done =
///     (command &lt; later) ⊎ ((command ≡ later) × (done ≤ later_done))
/// </pre>
///
/// <pre>
/// -- The same of stops in queues.
/// abbrev pub <b id="IsLater">IsLater</b> : <a href="../../logic/index.html#ℕ">ℕ</a> → <a href="../../logic/index.html#ℕ">ℕ</a> → <a href="../../logic/index.html#ℕ">ℕ</a> → <a href="../../logic/index.html#ℕ">ℕ</a> → <a href="../../logic/index.html#ℕ">ℕ</a> → <a href="../../logic/index.html#ℕ">ℕ</a> → Type 0
/// <a href="#IsLater">IsLater</a> system command done later later_command later_done =
///     (system &lt; later) ⊎ ((system ≡ later) × <a href="#IsLaterIn">IsLaterIn</a> command done later_command later_done)
/// </pre>
///
/// <pre>
/// -- The sync of the queues on a world has stopped there: this is the world then, and these the
/// -- faults.
/// pub record <b id="HasStoppedSo">HasStoppedSo</b> (system command done : <a href="../../logic/index.html#ℕ">ℕ</a>) (queues : <a href="../../logic/index.html#List">List</a> (<a href="../../logic/index.html#List">List</a> <a href="../../ent_queue/command/index.html#Command">Command</a>))
///     (before now : <a href="../world/index.html#World">World</a>)
///     (faults : <a href="../../logic/index.html#List">List</a> Fault) : Type 0 where
///   pub world : now ≡ (<a href="../sync/index.html#sync_until">sync_until</a> system command done queues before).world
///   pub faults_are : faults ≡ (<a href="../sync/index.html#sync_until">sync_until</a> system command done queues before).faults
/// </pre>
pub mod rest {}

#[doc(alias("TakesMemoryAt", "TakesMemoryIn", "command_takes_memory", "despawn_takes_memory", "insert_takes_memory", "one_takes_memory"))]
/// Which commands may take memory, so that a sync point may stop there.
///
/// <pre>
/// -- The entity lacks one of the components; or there are several, which are read into a list first;
/// -- or it is not alive, which is a fault to be listed.
/// abbrev pub <b id="insert_takes_memory">insert_takes_memory</b> : <a href="../world/index.html#World">World</a> → <a href="../../ent_storage/bundle/index.html#Bundle">Bundle</a> → <a href="../../ent_handle/handle/index.html#Handle">Handle</a> → <a href="../../logic/index.html#Bool">Bool</a>
/// <a href="#insert_takes_memory">insert_takes_memory</a> w items h = nat_lt 1 (<a href="../../logic/index.html#length">length</a> items)
///     || option_map_or (λ held. nat_lt 0 (<a href="../../ent_storage/components/index.html#missing">missing</a> held items)) (<a href="../../ent_storage/entity_map/index.html#components_of">components_of</a> w.entities h) <a href="../../logic/index.html#true">true</a>
/// </pre>
///
/// <pre>
/// -- the same of one of many, if there is one of that number
/// abbrev pub <b id="one_takes_memory">one_takes_memory</b> : <a href="../world/index.html#World">World</a> → <a href="../../ent_storage/bundle/index.html#Bundle">Bundle</a> → <a href="../../logic/index.html#Option">Option</a> <a href="../../ent_handle/handle/index.html#Handle">Handle</a> → <a href="../../logic/index.html#Bool">Bool</a>
/// <a href="#one_takes_memory">one_takes_memory</a> w items <a href="../../logic/index.html#None">None</a> = <a href="../../logic/index.html#false">false</a>
/// <a href="#one_takes_memory">one_takes_memory</a> w items (<a href="../../logic/index.html#Some">Some</a> h) = <a href="#insert_takes_memory">insert_takes_memory</a> w items h
/// </pre>
///
/// <pre>
/// -- The entity's slot is given again, or it is not alive, which is a fault to be listed.
/// abbrev pub <b id="despawn_takes_memory">despawn_takes_memory</b> : <a href="../world/index.html#World">World</a> → <a href="../../ent_handle/handle/index.html#Handle">Handle</a> → <a href="../../logic/index.html#Bool">Bool</a>
/// <a href="#despawn_takes_memory">despawn_takes_memory</a> w h = <a href="../../logic/index.html#is_some">is_some</a> (<a href="../../ent_alloc/sequential/index.html#next">next</a> w.allocator.limits h) || not (<a href="../world/index.html#lives_in">lives_in</a> w h)
/// </pre>
///
/// <pre>
/// -- The command may take memory in this world, at that of its handles: it gives an entity several
/// -- components, or one that the entity lacks, frees a handle whose slot is given again, or lists a
/// -- fault. No other command takes any: not a spawn of none, an empty bundle for a living entity,
/// -- another value of one component, the removal of a component from a living entity, or a despawn
/// -- that retires a slot.
/// abbrev pub <b id="command_takes_memory">command_takes_memory</b> : <a href="../world/index.html#World">World</a> → <a href="../../logic/index.html#ℕ">ℕ</a> → <a href="../../ent_queue/command/index.html#Command">Command</a> → <a href="../../logic/index.html#Bool">Bool</a>
/// <a href="#command_takes_memory">command_takes_memory</a> w done (<a href="../../ent_queue/command/index.html#Spawn">Spawn</a> h items) = <a href="#insert_takes_memory">insert_takes_memory</a> w items h
/// <a href="#command_takes_memory">command_takes_memory</a> w done (<a href="../../ent_queue/command/index.html#SpawnMany">SpawnMany</a> hs items) = <a href="#one_takes_memory">one_takes_memory</a> w items (<a href="../../logic/index.html#slice_get">slice_get</a> hs done)
/// <a href="#command_takes_memory">command_takes_memory</a> w done (<a href="../../ent_queue/command/index.html#Insert">Insert</a> h items) = <a href="#insert_takes_memory">insert_takes_memory</a> w items h
/// <a href="#command_takes_memory">command_takes_memory</a> w done (<a href="../../ent_queue/command/index.html#Remove">Remove</a> h id) = not (<a href="../world/index.html#lives_in">lives_in</a> w h)
/// <a href="#command_takes_memory">command_takes_memory</a> w done (<a href="../../ent_queue/command/index.html#Despawn">Despawn</a> h) = <a href="#despawn_takes_memory">despawn_takes_memory</a> w h
/// <a href="#command_takes_memory">command_takes_memory</a> w done (<a href="../../ent_queue/command/index.html#Refused">Refused</a> wanted why) = <a href="../../logic/index.html#true">true</a>
/// </pre>
///
/// <pre>
/// -- The queue has that command, and there it may take memory.
/// abbrev pub <b id="TakesMemoryIn">TakesMemoryIn</b> : <a href="../world/index.html#World">World</a> → <a href="../../logic/index.html#ℕ">ℕ</a> → <a href="../../logic/index.html#ℕ">ℕ</a> → <a href="../../logic/index.html#List">List</a> <a href="../../ent_queue/command/index.html#Command">Command</a> → Type 0
/// <a href="#TakesMemoryIn">TakesMemoryIn</a> w command done queue =
///     IsSomeAnd (<a href="../../logic/index.html#slice_get">slice_get</a> queue command) (λ c. <a href="#command_takes_memory">command_takes_memory</a> w done c ≡ <a href="../../logic/index.html#true">true</a>)
/// </pre>
///
/// <pre>
/// -- The queues have that command of that system, and there it may take memory.
/// abbrev pub <b id="TakesMemoryAt">TakesMemoryAt</b> : <a href="../world/index.html#World">World</a> → <a href="../../logic/index.html#ℕ">ℕ</a> → <a href="../../logic/index.html#ℕ">ℕ</a> → <a href="../../logic/index.html#ℕ">ℕ</a> → <a href="../../logic/index.html#List">List</a> (<a href="../../logic/index.html#List">List</a> <a href="../../ent_queue/command/index.html#Command">Command</a>) → Type 0
/// <a href="#TakesMemoryAt">TakesMemoryAt</a> w system command done queues =
///     IsSomeAnd (<a href="../../logic/index.html#slice_get">slice_get</a> queues system) (λ queue. <a href="#TakesMemoryIn">TakesMemoryIn</a> w command done queue)
/// </pre>
pub mod memory {}

#[doc(alias("WorldRest", "world_after", "world_with"))]
/// What contracts see of a world whose allocator is in a phase in blocks.
///
/// <pre>
/// -- a world without its allocator: where its entities are, and how often it was flushed
/// pub record <b id="WorldRest">WorldRest</b> : Type 0 where
///   pub store : <a href="../../ent_storage/entity_map/index.html#Store">Store</a>
///   pub phase : <a href="../../logic/index.html#ℕ">ℕ</a>
/// </pre>
///
/// <pre>
/// -- the world that this is the rest of, with this allocator
/// abbrev pub <b id="world_with">world_with</b> : <a href="../../ent_alloc/sequential/index.html#Allocator">Allocator</a> → <a href="#WorldRest">WorldRest</a> → <a href="../world/index.html#World">World</a>
/// <a href="#world_with">world_with</a> s rest = record { allocator = s; phase = rest.phase; entities = rest.store.entities }
/// </pre>
///
/// <pre>
/// -- the world with that much of its blocks used
/// abbrev pub <b id="world_after">world_after</b> : <a href="../world/index.html#World">World</a> → <a href="../../logic/index.html#List">List</a> <a href="../../ent_blocks/blocks/index.html#Block">Block</a> → <a href="../world/index.html#World">World</a>
/// <a href="#world_after">world_after</a> w blocks = record w { allocator = <a href="../../ent_blocks/blocks/index.html#after_blocks">after_blocks</a> w.allocator blocks }
/// </pre>
pub mod in_blocks {}
