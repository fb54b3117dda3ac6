// Made of crates/ent_alloc/specs by .ci/contracts.py. It isn't edited by hand.

//! The definitions of crate `ent_alloc`, in the order in which one reads them:
//! [`limits`], [`sequential`], [`roster`], [`sound`], [`entities`], [`portions`], [`image`], [`first_fault`], [`fault`], [`spent`], [`history`], [`runs`], [`serving`], [`within`].

#[doc(alias("AreLimits", "Limits", "greatest_limits", "quota", "without_placeholder"))]
/// How far an allocator may go.
///
/// <pre>
/// -- how many slots there are, and the last generation of a slot
/// pub record <b id="Limits">Limits</b> : Type 0 where
///   pub slots : <a href="../../logic/index.html#ℕ">ℕ</a>
///   pub generations : <a href="../../logic/index.html#ℕ">ℕ</a>
/// </pre>
///
/// <pre>
/// -- the ranges of the two numbers
/// pub record <b id="AreLimits">AreLimits</b> (l : <a href="#Limits">Limits</a>) : Type 0 where
///   pub some_slot : 1 ≤ l.slots
///   pub slots : l.slots &lt; 2 ^ 32
///   pub some_generation : 1 ≤ l.generations
///   pub generations : l.generations &lt; 2 ^ 31
/// </pre>
///
/// <pre>
/// -- the greatest of both
/// abbrev pub <b id="greatest_limits">greatest_limits</b> : <a href="#Limits">Limits</a>
/// <a href="#greatest_limits">greatest_limits</a> = record { slots = 2 ^ 32 - 1; generations = 2 ^ 31 - 1 }
/// </pre>
///
/// <pre>
/// -- the same limits, but the greatest ones with a generation less
/// abbrev pub <b id="without_placeholder">without_placeholder</b> : <a href="#Limits">Limits</a> → <a href="#Limits">Limits</a>
/// <a href="#without_placeholder">without_placeholder</a> l =
///     if l.slots == 2 ^ 32 - 1 &amp;&amp; l.generations == 2 ^ 31 - 1
///     then record l { generations = 2 ^ 31 - 2 }
///     else l
/// </pre>
///
/// <pre>
/// -- how many handles one caller may request between two flushes
/// unfoldable pub <b id="quota">quota</b> : <a href="../../logic/index.html#ℕ">ℕ</a>
/// <a href="#quota">quota</a> = 2 ^ 40
/// </pre>
pub mod limits {}

#[doc(alias("Allocator", "after_alloc", "after_allocs", "after_flush", "after_free", "after_take", "asked_at", "available", "born", "cursor", "following", "fresh", "has_slot", "in_front", "is_fresh", "is_old", "is_retired", "listed", "listed_alone", "made_at_flush", "next", "opening", "pool_at", "reply_from", "reply_to", "retired", "stands_in", "state_of", "top"))]
/// The sequential allocator: what a single caller would see. Each call of `Entities` is one or two of its steps, or reads it, except for the rows, which are kept beside it (`specs/Entities`). The calls of many threads are compared with it.
///
/// <pre>
/// -- Where each handle is: alive, or in a list of those that may be given. The pool is given from its
/// -- front; `taken` is what was given and is not alive yet; `aside` is what a refused request passed
/// -- over. `made` counts the slots that were made, and `asked` counts all that was requested since the
/// -- last flush.
/// pub record <b id="Allocator">Allocator</b> : Type 0 where
///   pub limits : <a href="../limits/index.html#Limits">Limits</a>
///   pub live : <a href="../../logic/index.html#FinSet.FinSet">set.FinSet</a> <a href="../../ent_handle/handle/index.html#handle_cmp">handle_cmp</a>
///   pub pool : <a href="../../logic/index.html#List">List</a> <a href="../../ent_handle/handle/index.html#Handle">Handle</a>
///   pub taken : <a href="../../logic/index.html#List">List</a> <a href="../../ent_handle/handle/index.html#Handle">Handle</a>
///   pub aside : <a href="../../logic/index.html#List">List</a> <a href="../../ent_handle/handle/index.html#Handle">Handle</a>
///   pub made : <a href="../../logic/index.html#ℕ">ℕ</a>
///   pub asked : <a href="../../logic/index.html#ℕ">ℕ</a>
/// </pre>
///
/// <pre>
/// -- the first occupants of that many slots, from an index on
/// unfoldable pub <b id="fresh">fresh</b> : <a href="../../logic/index.html#ℕ">ℕ</a> → <a href="../../logic/index.html#ℕ">ℕ</a> → <a href="../../logic/index.html#List">List</a> <a href="../../ent_handle/handle/index.html#Handle">Handle</a>
/// <a href="#fresh">fresh</a> index zero = []
/// <a href="#fresh">fresh</a> index (suc slots) = record { index = index; generation = 1 } ∷ <a href="#fresh">fresh</a> (index + 1) slots
/// </pre>
///
/// <pre>
/// -- the allocator that has given no handles
/// abbrev pub <b id="opening">opening</b> : <a href="../limits/index.html#Limits">Limits</a> → <a href="#Allocator">Allocator</a>
/// <a href="#opening">opening</a> limits = record {
///   limits = limits;
///   live = <a href="../../logic/index.html#FinSet.empty">set.empty</a>;
///   pool = <a href="#fresh">fresh</a> 0 limits.slots;
///   taken = [];
///   aside = [];
///   made = 0;
///   asked = 0;
/// }
/// </pre>
///
/// <pre>
/// -- its slot was made; it wasn't yet
/// abbrev pub <b id="is_old">is_old</b> : <a href="../../logic/index.html#ℕ">ℕ</a> → <a href="../../ent_handle/handle/index.html#Handle">Handle</a> → <a href="../../logic/index.html#Bool">Bool</a>
/// <a href="#is_old">is_old</a> made h = nat_lt h.index made
/// </pre>
///
/// <pre>
/// abbrev pub <b id="is_fresh">is_fresh</b> : <a href="../../logic/index.html#ℕ">ℕ</a> → <a href="../../ent_handle/handle/index.html#Handle">Handle</a> → <a href="../../logic/index.html#Bool">Bool</a>
/// <a href="#is_fresh">is_fresh</a> made h = nat_le made h.index
/// </pre>
///
/// <pre>
/// -- what there was to give when nothing was requested yet, in the order in which it is given
/// abbrev pub <b id="available">available</b> : <a href="#Allocator">Allocator</a> → <a href="../../logic/index.html#List">List</a> <a href="../../ent_handle/handle/index.html#Handle">Handle</a>
/// <a href="#available">available</a> s = s.taken ++ (s.aside ++ s.pool)
/// </pre>
///
/// <pre>
/// -- how many old handles there were to give
/// abbrev pub <b id="top">top</b> : <a href="#Allocator">Allocator</a> → <a href="../../logic/index.html#ℕ">ℕ</a>
/// <a href="#top">top</a> s = <a href="../../logic/index.html#length">length</a> (<a href="../../logic/index.html#filter">filter</a> (<a href="#is_old">is_old</a> s.made) (<a href="#available">available</a> s))
/// </pre>
///
/// <pre>
/// -- what the atomic word counts down
/// abbrev pub <b id="cursor">cursor</b> : <a href="#Allocator">Allocator</a> → <a href="../../logic/index.html#ℤ">ℤ</a>
/// <a href="#cursor">cursor</a> s = pos (<a href="#top">top</a> s) -<a href="../../logic/index.html#ℤ">ℤ</a> pos s.asked
/// </pre>
///
/// <pre>
/// -- A request takes the front of the pool if there is enough; otherwise the whole pool is passed
/// -- over.
/// abbrev pub <b id="after_take">after_take</b> : <a href="#Allocator">Allocator</a> → <a href="../../logic/index.html#ℕ">ℕ</a> → <a href="#Allocator">Allocator</a>
/// <a href="#after_take">after_take</a> s n =
///     if nat_le n (<a href="../../logic/index.html#length">length</a> s.pool)
///     then record s { taken = s.taken ++ <a href="../../logic/index.html#take">take</a> n s.pool; pool = <a href="../../logic/index.html#drop">drop</a> n s.pool; asked = s.asked + n }
///     else record s { aside = s.aside ++ s.pool; pool = []; asked = s.asked + n }
/// </pre>
///
/// <pre>
/// -- how a reply lists what it gives: the old handles, the last of the pool first, then the fresh ones
/// abbrev pub <b id="listed">listed</b> : <a href="../../logic/index.html#ℕ">ℕ</a> → <a href="../../logic/index.html#List">List</a> <a href="../../ent_handle/handle/index.html#Handle">Handle</a> → <a href="../../logic/index.html#List">List</a> <a href="../../ent_handle/handle/index.html#Handle">Handle</a>
/// <a href="#listed">listed</a> made given = <a href="../../logic/index.html#reverse">reverse</a> (<a href="../../logic/index.html#filter">filter</a> (<a href="#is_old">is_old</a> made) given) ++ <a href="../../logic/index.html#filter">filter</a> (<a href="#is_fresh">is_fresh</a> made) given
/// </pre>
///
/// <pre>
/// -- the reply to a request for n if this is the pool
/// abbrev pub <b id="reply_from">reply_from</b> : <a href="../../logic/index.html#ℕ">ℕ</a> → <a href="../../logic/index.html#List">List</a> <a href="../../ent_handle/handle/index.html#Handle">Handle</a> → <a href="../../logic/index.html#ℕ">ℕ</a> → <a href="../../logic/index.html#Result">Result</a> (<a href="../../logic/index.html#List">List</a> <a href="../../ent_handle/handle/index.html#Handle">Handle</a>) Space
/// <a href="#reply_from">reply_from</a> made pool n =
///     if nat_le n (<a href="../../logic/index.html#length">length</a> pool)
///     then <a href="../../logic/index.html#Ok">Ok</a> (<a href="#listed">listed</a> made (<a href="../../logic/index.html#take">take</a> n pool))
///     else <a href="../../logic/index.html#Err">Err</a> (record { wanted = n; left = <a href="../../logic/index.html#length">length</a> pool })
/// </pre>
///
/// <pre>
/// -- a single handle, as a list
/// abbrev pub <b id="listed_alone">listed_alone</b> : {E : Type 0} → <a href="../../logic/index.html#Result">Result</a> <a href="../../ent_handle/handle/index.html#Handle">Handle</a> E → <a href="../../logic/index.html#Result">Result</a> (<a href="../../logic/index.html#List">List</a> <a href="../../ent_handle/handle/index.html#Handle">Handle</a>) E
/// <a href="#listed_alone">listed_alone</a> (<a href="../../logic/index.html#Ok">Ok</a> handle) = <a href="../../logic/index.html#Ok">Ok</a> (handle ∷ [])
/// <a href="#listed_alone">listed_alone</a> (<a href="../../logic/index.html#Err">Err</a> refused) = <a href="../../logic/index.html#Err">Err</a> refused
/// </pre>
///
/// <pre>
/// abbrev pub <b id="reply_to">reply_to</b> : <a href="#Allocator">Allocator</a> → <a href="../../logic/index.html#ℕ">ℕ</a> → <a href="../../logic/index.html#Result">Result</a> (<a href="../../logic/index.html#List">List</a> <a href="../../ent_handle/handle/index.html#Handle">Handle</a>) Space
/// <a href="#reply_to">reply_to</a> s n = <a href="#reply_from">reply_from</a> s.made s.pool n
/// </pre>
///
/// <pre>
/// -- what a flush brings to life, in its order: the fresh handles, then the old ones, the last of the
/// -- pool first
/// abbrev pub <b id="born">born</b> : <a href="#Allocator">Allocator</a> → <a href="../../logic/index.html#List">List</a> <a href="../../ent_handle/handle/index.html#Handle">Handle</a>
/// <a href="#born">born</a> s = <a href="../../logic/index.html#filter">filter</a> (<a href="#is_fresh">is_fresh</a> s.made) s.taken ++ <a href="../../logic/index.html#reverse">reverse</a> (<a href="../../logic/index.html#filter">filter</a> (<a href="#is_old">is_old</a> s.made) s.taken)
/// </pre>
///
/// <pre>
/// -- how many slots a flush makes
/// abbrev pub <b id="made_at_flush">made_at_flush</b> : <a href="#Allocator">Allocator</a> → <a href="../../logic/index.html#ℕ">ℕ</a>
/// <a href="#made_at_flush">made_at_flush</a> s = <a href="../../logic/index.html#length">length</a> (<a href="../../logic/index.html#filter">filter</a> (<a href="#is_fresh">is_fresh</a> s.made) s.taken)
/// </pre>
///
/// <pre>
/// -- what was taken comes to life, and what was passed over is available again
/// abbrev pub <b id="after_flush">after_flush</b> : <a href="#Allocator">Allocator</a> → <a href="#Allocator">Allocator</a>
/// <a href="#after_flush">after_flush</a> s = record s {
///   live = set.union s.live (<a href="../../logic/index.html#FinSet.from_list">set.from_list</a> s.taken);
///   pool = s.aside ++ s.pool;
///   taken = [];
///   aside = [];
///   made = s.made + <a href="#made_at_flush">made_at_flush</a> s;
///   asked = 0;
/// }
/// </pre>
///
/// <pre>
/// -- the handle at the front of the pool comes to life at once
/// abbrev pub <b id="after_alloc">after_alloc</b> : <a href="#Allocator">Allocator</a> → <a href="../../ent_handle/handle/index.html#Handle">Handle</a> → <a href="#Allocator">Allocator</a>
/// <a href="#after_alloc">after_alloc</a> s h = record s {
///   live = <a href="../../logic/index.html#FinSet.insert">set.insert</a> s.live h;
///   pool = <a href="../../logic/index.html#drop">drop</a> 1 s.pool;
///   made = if <a href="#is_old">is_old</a> s.made h then s.made else s.made + 1;
/// }
/// </pre>
///
/// <pre>
/// -- after these handles have come to life one by one
/// abbrev pub <b id="after_allocs">after_allocs</b> : <a href="#Allocator">Allocator</a> → <a href="../../logic/index.html#List">List</a> <a href="../../ent_handle/handle/index.html#Handle">Handle</a> → <a href="#Allocator">Allocator</a>
/// <a href="#after_allocs">after_allocs</a> s [] = s
/// <a href="#after_allocs">after_allocs</a> s (h ∷ handles) = <a href="#after_allocs">after_allocs</a> (<a href="#after_alloc">after_alloc</a> s h) handles
/// </pre>
///
/// <pre>
/// -- the handle of the same slot with the next generation
/// abbrev pub <b id="following">following</b> : <a href="../../ent_handle/handle/index.html#Handle">Handle</a> → <a href="../../ent_handle/handle/index.html#Handle">Handle</a>
/// <a href="#following">following</a> h = record { index = h.index; generation = h.generation + 1 }
/// </pre>
///
/// <pre>
/// -- what the slot gives after this handle: nothing if the generation is the last
/// abbrev pub <b id="next">next</b> : <a href="../limits/index.html#Limits">Limits</a> → <a href="../../ent_handle/handle/index.html#Handle">Handle</a> → <a href="../../logic/index.html#Option">Option</a> <a href="../../ent_handle/handle/index.html#Handle">Handle</a>
/// <a href="#next">next</a> limits h = if h.generation == limits.generations then <a href="../../logic/index.html#None">None</a> else <a href="../../logic/index.html#Some">Some</a> (<a href="#following">following</a> h)
/// </pre>
///
/// <pre>
/// -- a list with this handle at its front, if there is one
/// abbrev pub <b id="in_front">in_front</b> : <a href="../../logic/index.html#Option">Option</a> <a href="../../ent_handle/handle/index.html#Handle">Handle</a> → <a href="../../logic/index.html#List">List</a> <a href="../../ent_handle/handle/index.html#Handle">Handle</a> → <a href="../../logic/index.html#List">List</a> <a href="../../ent_handle/handle/index.html#Handle">Handle</a>
/// <a href="#in_front">in_front</a> <a href="../../logic/index.html#None">None</a> handles = handles
/// <a href="#in_front">in_front</a> (<a href="../../logic/index.html#Some">Some</a> h) handles = h ∷ handles
/// </pre>
///
/// <pre>
/// -- A living handle is freed, and its slot's next handle comes to the front of the pool. If there is
/// -- no next handle, the pool stays as it is, and the slot is retired.
/// abbrev pub <b id="after_free">after_free</b> : <a href="#Allocator">Allocator</a> → <a href="../../ent_handle/handle/index.html#Handle">Handle</a> → <a href="#Allocator">Allocator</a>
/// <a href="#after_free">after_free</a> s h = record s {
///   live = <a href="../../logic/index.html#FinSet.remove">set.remove</a> s.live h;
///   pool = <a href="#in_front">in_front</a> (<a href="#next">next</a> s.limits h) s.pool;
/// }
/// </pre>
///
/// <pre>
/// -- how much had been asked if the cursor is high
/// abbrev pub <b id="asked_at">asked_at</b> : <a href="../../logic/index.html#ℕ">ℕ</a> → <a href="../../logic/index.html#ℤ">ℤ</a> → <a href="../../logic/index.html#ℕ">ℕ</a>
/// <a href="#asked_at">asked_at</a> <a href="#top">top</a> (pos high) = <a href="#top">top</a> - high
/// <a href="#asked_at">asked_at</a> <a href="#top">top</a> (negsuc below) = <a href="#top">top</a> + suc below
/// </pre>
///
/// <pre>
/// -- what was left of the pool there
/// abbrev pub <b id="pool_at">pool_at</b> : <a href="#Allocator">Allocator</a> → <a href="../../logic/index.html#ℤ">ℤ</a> → <a href="../../logic/index.html#List">List</a> <a href="../../ent_handle/handle/index.html#Handle">Handle</a>
/// <a href="#pool_at">pool_at</a> s high = <a href="../../logic/index.html#drop">drop</a> (<a href="#asked_at">asked_at</a> (<a href="#top">top</a> s) high) (<a href="#available">available</a> s)
/// </pre>
///
/// <pre>
/// abbrev pub <b id="stands_in">stands_in</b> : <a href="../../logic/index.html#List">List</a> <a href="../../ent_handle/handle/index.html#Handle">Handle</a> → <a href="../../ent_handle/handle/index.html#Handle">Handle</a> → <a href="../../logic/index.html#Bool">Bool</a>
/// <a href="#stands_in">stands_in</a> handles h = list_any (eq_by_cmp <a href="../../ent_handle/handle/index.html#handle_cmp">handle_cmp</a> h) handles
/// </pre>
///
/// <pre>
/// -- the state of a handle
/// abbrev pub <b id="state_of">state_of</b> : <a href="#Allocator">Allocator</a> → <a href="../../ent_handle/handle/index.html#Handle">Handle</a> → State
/// <a href="#state_of">state_of</a> s h =
///     if <a href="../../logic/index.html#FinSet.contains">set.contains</a> s.live h then Alive else (if <a href="#stands_in">stands_in</a> s.taken h then Reserved else Gone)
/// </pre>
///
/// <pre>
/// -- one of these handles is of the slot
/// abbrev pub <b id="has_slot">has_slot</b> : <a href="../../logic/index.html#List">List</a> <a href="../../ent_handle/handle/index.html#Handle">Handle</a> → <a href="../../logic/index.html#ℕ">ℕ</a> → <a href="../../logic/index.html#Bool">Bool</a>
/// <a href="#has_slot">has_slot</a> handles index = list_any (λ (h : <a href="../../ent_handle/handle/index.html#Handle">Handle</a>). h.index == index) handles
/// </pre>
///
/// <pre>
/// -- no handle of the slot is alive or to be given
/// abbrev pub <b id="is_retired">is_retired</b> : <a href="#Allocator">Allocator</a> → <a href="../../logic/index.html#ℕ">ℕ</a> → <a href="../../logic/index.html#Bool">Bool</a>
/// <a href="#is_retired">is_retired</a> s index = not (<a href="#has_slot">has_slot</a> (set.items s.live) index || <a href="#has_slot">has_slot</a> (<a href="#available">available</a> s) index)
/// </pre>
///
/// <pre>
/// -- how many of the slots that were made are retired
/// abbrev pub <b id="retired">retired</b> : <a href="#Allocator">Allocator</a> → <a href="../../logic/index.html#ℕ">ℕ</a>
/// <a href="#retired">retired</a> s = count_by (<a href="#is_retired">is_retired</a> s) (range_with_len 0 s.made)
/// </pre>
pub mod sequential {}

#[doc(alias("Roster"))]
/// The slots of an allocator as its calls see them: which handles are alive, which rows they have, and which handles wait to be given.
///
/// <pre>
/// -- pending lists the handles that old slots give next; the last is given first
/// pub record <b id="Roster">Roster</b> : Type 0 where
///   pub limits : <a href="../limits/index.html#Limits">Limits</a>
///   pub live : <a href="../../logic/index.html#FinSet.FinSet">set.FinSet</a> <a href="../../ent_handle/handle/index.html#handle_cmp">handle_cmp</a>
///   pub rows : <a href="../../logic/index.html#FinMap.FinMap">map.FinMap</a> <a href="../../ent_handle/handle/index.html#handle_cmp">handle_cmp</a> <a href="../../logic/index.html#ℕ">ℕ</a>
///   pub pending : <a href="../../logic/index.html#List">List</a> <a href="../../ent_handle/handle/index.html#Handle">Handle</a>
///   pub made : <a href="../../logic/index.html#ℕ">ℕ</a>
/// </pre>
pub mod roster {}

#[doc(alias("AreApart", "IsLive", "IsOccupant", "IsSound", "IsWithin"))]
/// What is true of an allocator in every state that its steps lead to.
///
/// <pre>
/// -- a handle that these limits allow
/// pub record <b id="IsWithin">IsWithin</b> (limits : <a href="../limits/index.html#Limits">Limits</a>) (h : <a href="../../ent_handle/handle/index.html#Handle">Handle</a>) : Type 0 where
///   pub index : h.index &lt; limits.slots
///   pub least : 1 ≤ h.generation
///   pub greatest : h.generation ≤ limits.generations
/// </pre>
///
/// <pre>
/// -- the two are handles of different slots
/// abbrev pub <b id="AreApart">AreApart</b> : <a href="../../ent_handle/handle/index.html#Handle">Handle</a> → <a href="../../ent_handle/handle/index.html#Handle">Handle</a> → Type 0
/// <a href="#AreApart">AreApart</a> g h = g.index ≢ h.index
/// </pre>
///
/// <pre>
/// -- the handle is alive
/// abbrev pub <b id="IsLive">IsLive</b> : <a href="../sequential/index.html#Allocator">Allocator</a> → <a href="../../ent_handle/handle/index.html#Handle">Handle</a> → Type 0
/// <a href="#IsLive">IsLive</a> s h = <a href="../../logic/index.html#IsTrue">IsTrue</a> (<a href="../../logic/index.html#FinSet.contains">set.contains</a> s.live h)
/// </pre>
///
/// <pre>
/// -- A handle that may be alive: its slot was made, and nothing that may be given is of this slot.
/// pub record <b id="IsOccupant">IsOccupant</b> (s : <a href="../sequential/index.html#Allocator">Allocator</a>) (h : <a href="../../ent_handle/handle/index.html#Handle">Handle</a>) : Type 0 where
///   pub within : <a href="#IsWithin">IsWithin</a> s.limits h
///   pub made : h.index &lt; s.made
///   pub apart : <a href="../../logic/index.html#All">All</a> (<a href="#AreApart">AreApart</a> h) (<a href="../sequential/index.html#available">available</a> s)
/// </pre>
///
/// <pre>
/// pub record <b id="IsSound">IsSound</b> (s : <a href="../sequential/index.html#Allocator">Allocator</a>) : Type 0 where
///   pub limits : <a href="../limits/index.html#AreLimits">AreLimits</a> s.limits
///   pub made : s.made ≤ s.limits.slots
///   -- the old handles come first, then the first occupants of all slots that were never made
///   pub order : <a href="../sequential/index.html#available">available</a> s
///       ≡ <a href="../../logic/index.html#filter">filter</a> (<a href="../sequential/index.html#is_old">is_old</a> s.made) (<a href="../sequential/index.html#available">available</a> s) ++ <a href="../sequential/index.html#fresh">fresh</a> s.made (s.limits.slots - s.made)
///   pub within : <a href="../../logic/index.html#All">All</a> (<a href="#IsWithin">IsWithin</a> s.limits) (<a href="../sequential/index.html#available">available</a> s)
///   -- no slot occurs twice among those that may be given
///   pub apart : <a href="../../logic/index.html#AllPairs">AllPairs</a> <a href="#AreApart">AreApart</a> (<a href="../sequential/index.html#available">available</a> s)
///   -- the pool is what the requests have not reached
///   pub pool : s.pool ≡ <a href="../../logic/index.html#drop">drop</a> s.asked (<a href="../sequential/index.html#available">available</a> s)
///   -- nothing was passed over as long as there was enough
///   pub aside : s.asked ≤ <a href="../../logic/index.html#length">length</a> (<a href="../sequential/index.html#available">available</a> s) → s.aside ≡ []
///   pub live : (h : <a href="../../ent_handle/handle/index.html#Handle">Handle</a>) → <a href="#IsLive">IsLive</a> s h → <a href="#IsOccupant">IsOccupant</a> s h
///   -- a slot has one occupant at a time
///   pub one_occupant : (g h : <a href="../../ent_handle/handle/index.html#Handle">Handle</a>) → <a href="#IsLive">IsLive</a> s g → <a href="#IsLive">IsLive</a> s h → g.index ≡ h.index → g ≡ h
/// </pre>
pub mod sound {}

#[doc(alias("Entities", "HasRowsOfLiving"))]
/// What an `Entities` represents, and how its slots and its two counts represent it.
///
/// <pre>
/// -- a state of the sequential allocator, and the rows that a program keeps with living handles
/// pub record <b id="Entities">Entities</b> : Type 0 where
///   pub allocator : <a href="../sequential/index.html#Allocator">Allocator</a>
///   pub rows : <a href="../../logic/index.html#FinMap.FinMap">map.FinMap</a> <a href="../../ent_handle/handle/index.html#handle_cmp">handle_cmp</a> <a href="../../logic/index.html#ℕ">ℕ</a>
/// </pre>
///
/// <pre>
/// -- a handle that is not alive has no row
/// abbrev pub <b id="HasRowsOfLiving">HasRowsOfLiving</b> : <a href="#Entities">Entities</a> → Type 0
/// <a href="#HasRowsOfLiving">HasRowsOfLiving</a> e = (h : <a href="../../ent_handle/handle/index.html#Handle">Handle</a>) → ¬ (<a href="../sound/index.html#IsLive">IsLive</a> e.allocator h) → <a href="../../logic/index.html#FinMap.get">map.get</a> e.rows h ≡ <a href="../../logic/index.html#None">None</a>
/// </pre>
pub mod entities {}

#[doc(alias("count_of", "made_for", "reach_of"))]
/// The front of the pool in portions, one after the other: what was used of them is taken, and what is left of them can be given again.
///
/// <pre>
/// abbrev pub <b id="count_of">count_of</b> : <a href="../../logic/index.html#List">List</a> Portion → <a href="../../logic/index.html#ℕ">ℕ</a>
/// <a href="#count_of">count_of</a> [] = 0
/// <a href="#count_of">count_of</a> (p ∷ portions) = p.used + <a href="#count_of">count_of</a> portions
/// </pre>
///
/// <pre>
/// -- how many handles there are up to the last one that was used
/// abbrev pub <b id="reach_of">reach_of</b> : <a href="../../logic/index.html#List">List</a> Portion → <a href="../../logic/index.html#ℕ">ℕ</a>
/// <a href="#reach_of">reach_of</a> [] = 0
/// <a href="#reach_of">reach_of</a> (p ∷ portions) =
///     if <a href="#reach_of">reach_of</a> portions == 0 then p.used else p.size + <a href="#reach_of">reach_of</a> portions
/// </pre>
///
/// <pre>
/// -- How many slots have to be made: none if nothing is left before the last one that was used, and
/// -- otherwise those up to that one, since a fresh one that is left waits among them.
/// abbrev pub <b id="made_for">made_for</b> : <a href="../sequential/index.html#Allocator">Allocator</a> → <a href="../../logic/index.html#List">List</a> Portion → <a href="../../logic/index.html#ℕ">ℕ</a>
/// <a href="#made_for">made_for</a> s portions =
///     if <a href="#count_of">count_of</a> portions == <a href="#reach_of">reach_of</a> portions then 0 else <a href="#reach_of">reach_of</a> portions - <a href="../sequential/index.html#top">top</a> s
/// </pre>
pub mod portions {}

#[doc(alias("HasImage", "header", "header_bytes", "kept_bytes", "kind_of", "living_slot", "magic", "number_of", "numbers_bytes", "occupied", "retired_slot", "roster", "slot", "slot_bytes", "slots_bytes", "version", "waiting_slot"))]
/// The image of an allocator: the bytes that represent it. It says everything about the allocator, and nothing about how it got into that state or where it is in memory.
///
/// <pre>
/// -- a living occupant, and its row if it has one
/// abbrev pub <b id="occupied">occupied</b> : <a href="../../logic/index.html#ℕ">ℕ</a> → <a href="../../logic/index.html#Option">Option</a> <a href="../../logic/index.html#ℕ">ℕ</a> → SlotRecord
/// <a href="#occupied">occupied</a> generation <a href="../../logic/index.html#None">None</a> = record { generation = generation; occupancy = Alive }
/// <a href="#occupied">occupied</a> generation (<a href="../../logic/index.html#Some">Some</a> row) =
///     record { generation = generation; occupancy = AliveWithRow row }
/// </pre>
///
/// <pre>
/// -- a slot that gives no handle any more
/// abbrev pub <b id="retired_slot">retired_slot</b> : SlotRecord
/// <a href="#retired_slot">retired_slot</a> = record { generation = 0; occupancy = Retired }
/// </pre>
///
/// <pre>
/// -- the slot, if its handle is among those that wait, the first of them at this position
/// abbrev pub <b id="waiting_slot">waiting_slot</b> : <a href="../../logic/index.html#ℕ">ℕ</a> → <a href="../../logic/index.html#ℕ">ℕ</a> → <a href="../../logic/index.html#List">List</a> <a href="../../ent_handle/handle/index.html#Handle">Handle</a> → SlotRecord
/// <a href="#waiting_slot">waiting_slot</a> index position [] = <a href="#retired_slot">retired_slot</a>
/// <a href="#waiting_slot">waiting_slot</a> index position (h ∷ handles) =
///     if h.index == index
///     then record { generation = h.generation; occupancy = Pending position }
///     else <a href="#waiting_slot">waiting_slot</a> index (position + 1) handles
/// </pre>
///
/// <pre>
/// -- the slot, if its handle is among those that live
/// abbrev pub <b id="living_slot">living_slot</b> : <a href="../roster/index.html#Roster">Roster</a> → <a href="../../logic/index.html#ℕ">ℕ</a> → <a href="../../logic/index.html#List">List</a> <a href="../../ent_handle/handle/index.html#Handle">Handle</a> → SlotRecord
/// <a href="#living_slot">living_slot</a> r index [] = <a href="#waiting_slot">waiting_slot</a> index 0 r.pending
/// <a href="#living_slot">living_slot</a> r index (h ∷ handles) =
///     if h.index == index
///     then <a href="#occupied">occupied</a> h.generation (<a href="../../logic/index.html#FinMap.get">map.get</a> r.rows h)
///     else <a href="#living_slot">living_slot</a> r index handles
/// </pre>
///
/// <pre>
/// -- the state of the slot
/// unfoldable pub <b id="slot">slot</b> : <a href="../roster/index.html#Roster">Roster</a> → <a href="../../logic/index.html#ℕ">ℕ</a> → SlotRecord
/// <a href="#slot">slot</a> r index = <a href="#living_slot">living_slot</a> r index (set.items r.live)
/// </pre>
///
/// <pre>
/// -- what has the slot, as a word and a number
/// abbrev pub <b id="kind_of">kind_of</b> : Occupancy → <a href="../../logic/index.html#ℕ">ℕ</a>
/// <a href="#kind_of">kind_of</a> Retired = 0
/// <a href="#kind_of">kind_of</a> Alive = 1
/// <a href="#kind_of">kind_of</a> (AliveWithRow row) = 2
/// <a href="#kind_of">kind_of</a> (Pending position) = 3
/// </pre>
///
/// <pre>
/// abbrev pub <b id="number_of">number_of</b> : Occupancy → <a href="../../logic/index.html#ℕ">ℕ</a>
/// <a href="#number_of">number_of</a> Retired = 0
/// <a href="#number_of">number_of</a> Alive = 0
/// <a href="#number_of">number_of</a> (AliveWithRow row) = row
/// <a href="#number_of">number_of</a> (Pending position) = position
/// </pre>
///
/// <pre>
/// -- a slot is three words
/// unfoldable pub <b id="slot_bytes">slot_bytes</b> : SlotRecord → <a href="../../logic/index.html#List">List</a> <a href="../../logic/index.html#ℕ">ℕ</a>
/// <a href="#slot_bytes">slot_bytes</a> s = <a href="../../ent_handle/bytes/index.html#word">word</a> s.generation ++ (<a href="../../ent_handle/bytes/index.html#word">word</a> (<a href="#kind_of">kind_of</a> s.occupancy) ++ <a href="../../ent_handle/bytes/index.html#word">word</a> (<a href="#number_of">number_of</a> s.occupancy))
/// </pre>
///
/// <pre>
/// unfoldable pub <b id="slots_bytes">slots_bytes</b> : <a href="../roster/index.html#Roster">Roster</a> → <a href="../../logic/index.html#List">List</a> <a href="../../logic/index.html#ℕ">ℕ</a>
/// <a href="#slots_bytes">slots_bytes</a> r = flat_map (λ index. <a href="#slot_bytes">slot_bytes</a> (<a href="#slot">slot</a> r index)) (range_with_len 0 r.made)
/// </pre>
///
/// <pre>
/// -- the slots of entities: the handles that old slots give next are listed from the last to be given
/// abbrev pub <b id="roster">roster</b> : <a href="../entities/index.html#Entities">Entities</a> → <a href="../roster/index.html#Roster">Roster</a>
/// <a href="#roster">roster</a> e = record {
///   limits = e.allocator.limits;
///   live = e.allocator.live;
///   rows = e.rows;
///   pending = <a href="../../logic/index.html#reverse">reverse</a> (<a href="../../logic/index.html#filter">filter</a> (<a href="../sequential/index.html#is_old">is_old</a> e.allocator.made) (<a href="../sequential/index.html#available">available</a> e.allocator));
///   made = e.allocator.made;
/// }
/// </pre>
///
/// <pre>
/// -- FORGENI and a zero
/// abbrev pub <b id="magic">magic</b> : <a href="../../logic/index.html#List">List</a> <a href="../../logic/index.html#ℕ">ℕ</a>
/// <a href="#magic">magic</a> = 70 ∷ 79 ∷ 82 ∷ 71 ∷ 69 ∷ 78 ∷ 73 ∷ 0 ∷ []
/// </pre>
///
/// <pre>
/// -- the version of this format
/// abbrev pub <b id="version">version</b> : <a href="../../logic/index.html#ℕ">ℕ</a>
/// <a href="#version">version</a> = 1
/// </pre>
///
/// <pre>
/// -- The numbers before the slots: the limits, how many slots were made and how many of them wait, and
/// -- how many handles are reserved and were asked for.
/// abbrev pub <b id="header">header</b> : <a href="../entities/index.html#Entities">Entities</a> → Header
/// <a href="#header">header</a> e = record {
///   slots = e.allocator.limits.slots;
///   generations = e.allocator.limits.generations;
///   made = e.allocator.made;
///   waiting = <a href="../sequential/index.html#top">top</a> e.allocator;
///   reserved = <a href="../../logic/index.html#length">length</a> e.allocator.taken;
///   asked = e.allocator.asked;
/// }
/// </pre>
///
/// <pre>
/// unfoldable pub <b id="numbers_bytes">numbers_bytes</b> : Header → <a href="../../logic/index.html#List">List</a> <a href="../../logic/index.html#ℕ">ℕ</a>
/// <a href="#numbers_bytes">numbers_bytes</a> h = <a href="../../ent_handle/bytes/index.html#word">word</a> h.slots
///     ++ (<a href="../../ent_handle/bytes/index.html#word">word</a> h.generations
///     ++ (<a href="../../ent_handle/bytes/index.html#word">word</a> h.made ++ (<a href="../../ent_handle/bytes/index.html#word">word</a> h.waiting ++ (<a href="../../ent_handle/bytes/index.html#word">word</a> h.reserved ++ <a href="../../ent_handle/bytes/index.html#long">long</a> h.asked))))
/// </pre>
///
/// <pre>
/// -- forty bytes: what they are an image of, and the numbers
/// unfoldable pub <b id="header_bytes">header_bytes</b> : Header → <a href="../../logic/index.html#List">List</a> <a href="../../logic/index.html#ℕ">ℕ</a>
/// <a href="#header_bytes">header_bytes</a> h = <a href="#magic">magic</a> ++ (<a href="../../ent_handle/bytes/index.html#word">word</a> <a href="#version">version</a> ++ <a href="#numbers_bytes">numbers_bytes</a> h)
/// </pre>
///
/// <pre>
/// -- that many bytes are kept in memory: eight for each slot, and four for each slot that waits
/// abbrev pub <b id="kept_bytes">kept_bytes</b> : <a href="../sequential/index.html#Allocator">Allocator</a> → <a href="../../logic/index.html#ℕ">ℕ</a>
/// <a href="#kept_bytes">kept_bytes</a> s = 8 * s.made + 4 * <a href="../sequential/index.html#top">top</a> s
/// </pre>
///
/// <pre>
/// abbrev pub <b id="image">image</b> : <a href="../entities/index.html#Entities">Entities</a> → <a href="../../logic/index.html#List">List</a> <a href="../../logic/index.html#ℕ">ℕ</a>
/// <a href="#image">image</a> e = <a href="#header_bytes">header_bytes</a> (<a href="#header">header</a> e) ++ <a href="#slots_bytes">slots_bytes</a> (<a href="#roster">roster</a> e)
/// </pre>
///
/// <pre>
/// -- What is true of every state of an `Entities`. Each of them has an image, and no two have the
/// -- same.
/// pub record <b id="HasImage">HasImage</b> (e : <a href="../entities/index.html#Entities">Entities</a>) : Type 0 where
///   pub sound : <a href="../sound/index.html#IsSound">IsSound</a> e.allocator
///   pub rows_of_living : <a href="../entities/index.html#HasRowsOfLiving">HasRowsOfLiving</a> e
///   pub rows : (h : <a href="../../ent_handle/handle/index.html#Handle">Handle</a>) (row : <a href="../../logic/index.html#ℕ">ℕ</a>) → <a href="../../logic/index.html#FinMap.get">map.get</a> e.rows h ≡ <a href="../../logic/index.html#Some">Some</a> row → row &lt; 2 ^ 32
///   pub asked : e.allocator.asked ≤ 2 ^ 50
/// </pre>
pub mod image {}

#[doc(alias("Test", "first_failing", "front_tests", "generation_of", "has_place", "header_fault", "header_in", "header_tests", "in_counts", "in_limits", "in_requests", "is_slot", "is_taken", "kind_in", "long_at", "number_in", "position_test", "slot_test", "slots_tests", "tests", "waits_at", "word_at"))]
/// Which fault bytes have that are the image of no allocator: that of the first test that fails.
///
/// <pre>
/// -- what has to be so, and the fault if it isn't
/// abbrev pub <b id="Test">Test</b> : Type 0
/// <a href="#Test">Test</a> = <a href="../../logic/index.html#Bool">Bool</a> × ImageFault
/// </pre>
///
/// <pre>
/// abbrev pub <b id="first_failing">first_failing</b> : <a href="../../logic/index.html#List">List</a> <a href="#Test">Test</a> → <a href="../../logic/index.html#Option">Option</a> ImageFault
/// <a href="#first_failing">first_failing</a> [] = <a href="../../logic/index.html#None">None</a>
/// <a href="#first_failing">first_failing</a> (test ∷ tests) = if test.0 then <a href="#first_failing">first_failing</a> tests else <a href="../../logic/index.html#Some">Some</a> test.1
/// </pre>
///
/// <pre>
/// -- the number in the four bytes from a place on, the lowest first
/// unfoldable pub <b id="word_at">word_at</b> : <a href="../../logic/index.html#List">List</a> <a href="../../logic/index.html#ℕ">ℕ</a> → <a href="../../logic/index.html#ℕ">ℕ</a> → <a href="../../logic/index.html#ℕ">ℕ</a>
/// <a href="#word_at">word_at</a> bytes place = from_le_bytes w32 (<a href="../../logic/index.html#take">take</a> 4 (<a href="../../logic/index.html#drop">drop</a> place bytes))
/// </pre>
///
/// <pre>
/// -- and in eight
/// unfoldable pub <b id="long_at">long_at</b> : <a href="../../logic/index.html#List">List</a> <a href="../../logic/index.html#ℕ">ℕ</a> → <a href="../../logic/index.html#ℕ">ℕ</a> → <a href="../../logic/index.html#ℕ">ℕ</a>
/// <a href="#long_at">long_at</a> bytes place = from_le_bytes w64 (<a href="../../logic/index.html#take">take</a> 8 (<a href="../../logic/index.html#drop">drop</a> place bytes))
/// </pre>
///
/// <pre>
/// abbrev pub <b id="front_tests">front_tests</b> : <a href="../../logic/index.html#List">List</a> <a href="../../logic/index.html#ℕ">ℕ</a> → <a href="../../logic/index.html#List">List</a> <a href="#Test">Test</a>
/// <a href="#front_tests">front_tests</a> bytes =
///     (starts_with nat_eq bytes <a href="../image/index.html#magic">magic</a>, Magic)
///     ∷ (nat_le 40 (<a href="../../logic/index.html#length">length</a> bytes), Length 40)
///     ∷ (<a href="#word_at">word_at</a> bytes 8 == <a href="../image/index.html#version">version</a>, Version (<a href="#word_at">word_at</a> bytes 8))
///     ∷ []
/// </pre>
///
/// <pre>
/// abbrev pub <b id="header_in">header_in</b> : <a href="../../logic/index.html#List">List</a> <a href="../../logic/index.html#ℕ">ℕ</a> → Header
/// <a href="#header_in">header_in</a> bytes = record {
///   slots = <a href="#word_at">word_at</a> bytes 12;
///   generations = <a href="#word_at">word_at</a> bytes 16;
///   made = <a href="#word_at">word_at</a> bytes 20;
///   waiting = <a href="#word_at">word_at</a> bytes 24;
///   reserved = <a href="#word_at">word_at</a> bytes 28;
///   asked = <a href="#long_at">long_at</a> bytes 32;
/// }
/// </pre>
///
/// <pre>
/// abbrev pub <b id="in_limits">in_limits</b> : Header → <a href="../../logic/index.html#Bool">Bool</a>
/// <a href="#in_limits">in_limits</a> h = nat_le 1 h.slots &amp;&amp; nat_le 1 h.generations &amp;&amp; nat_lt h.generations (2 ^ 31)
/// </pre>
///
/// <pre>
/// abbrev pub <b id="in_counts">in_counts</b> : Header → <a href="../../logic/index.html#Bool">Bool</a>
/// <a href="#in_counts">in_counts</a> h = nat_le h.made h.slots &amp;&amp; nat_le h.waiting h.made
/// </pre>
///
/// <pre>
/// -- that many of the handles that there were to give may be reserved: all that were requested, if
/// -- there were enough
/// abbrev pub <b id="in_requests">in_requests</b> : Header → <a href="../../logic/index.html#Bool">Bool</a>
/// <a href="#in_requests">in_requests</a> h =
///     let given = h.waiting + (h.slots - h.made) in
///     nat_le h.asked (2 ^ 50) &amp;&amp; nat_le h.reserved h.asked &amp;&amp; nat_le h.reserved given
///     &amp;&amp; (nat_lt given h.asked || h.reserved == h.asked)
/// </pre>
///
/// <pre>
/// abbrev pub <b id="header_tests">header_tests</b> : Header → <a href="../../logic/index.html#ℕ">ℕ</a> → <a href="../../logic/index.html#List">List</a> <a href="#Test">Test</a>
/// <a href="#header_tests">header_tests</a> h len =
///     (<a href="#in_limits">in_limits</a> h, Limits)
///     ∷ (<a href="#in_counts">in_counts</a> h, Counts)
///     ∷ (<a href="#in_requests">in_requests</a> h, Requests)
///     ∷ (len == 40 + 12 * h.made, Length (40 + 12 * h.made))
///     ∷ []
/// </pre>
///
/// <pre>
/// -- the first fault that the bytes have before the slots; finding it takes no memory
/// abbrev pub <b id="header_fault">header_fault</b> : <a href="../../logic/index.html#List">List</a> <a href="../../logic/index.html#ℕ">ℕ</a> → <a href="../../logic/index.html#Option">Option</a> ImageFault
/// <a href="#header_fault">header_fault</a> bytes =
///     <a href="#first_failing">first_failing</a> (<a href="#front_tests">front_tests</a> bytes ++ <a href="#header_tests">header_tests</a> (<a href="#header_in">header_in</a> bytes) (<a href="../../logic/index.html#length">length</a> bytes))
/// </pre>
///
/// <pre>
/// -- the three words of a slot
/// abbrev pub <b id="generation_of">generation_of</b> : <a href="../../logic/index.html#List">List</a> <a href="../../logic/index.html#ℕ">ℕ</a> → <a href="../../logic/index.html#ℕ">ℕ</a> → <a href="../../logic/index.html#ℕ">ℕ</a>
/// <a href="#generation_of">generation_of</a> slots index = <a href="#word_at">word_at</a> slots (12 * index)
/// </pre>
///
/// <pre>
/// abbrev pub <b id="kind_in">kind_in</b> : <a href="../../logic/index.html#List">List</a> <a href="../../logic/index.html#ℕ">ℕ</a> → <a href="../../logic/index.html#ℕ">ℕ</a> → <a href="../../logic/index.html#ℕ">ℕ</a>
/// <a href="#kind_in">kind_in</a> slots index = <a href="#word_at">word_at</a> slots (12 * index + 4)
/// </pre>
///
/// <pre>
/// abbrev pub <b id="number_in">number_in</b> : <a href="../../logic/index.html#List">List</a> <a href="../../logic/index.html#ℕ">ℕ</a> → <a href="../../logic/index.html#ℕ">ℕ</a> → <a href="../../logic/index.html#ℕ">ℕ</a>
/// <a href="#number_in">number_in</a> slots index = <a href="#word_at">word_at</a> slots (12 * index + 8)
/// </pre>
///
/// <pre>
/// -- a row of the table: retired, a living entity without a row or with one, or waiting
/// abbrev pub <b id="is_slot">is_slot</b> : <a href="../../logic/index.html#ℕ">ℕ</a> → <a href="../../logic/index.html#ℕ">ℕ</a> → <a href="../../logic/index.html#ℕ">ℕ</a> → <a href="../../logic/index.html#ℕ">ℕ</a> → <a href="../../logic/index.html#Bool">Bool</a>
/// <a href="#is_slot">is_slot</a> generations generation kind number =
///     if kind == 0
///     then generation == 0 &amp;&amp; number == 0
///     else nat_le 1 generation &amp;&amp; nat_le generation generations
///     &amp;&amp; (kind == 1 &amp;&amp; number == 0 || kind == 2 || kind == 3)
/// </pre>
///
/// <pre>
/// abbrev pub <b id="waits_at">waits_at</b> : <a href="../../logic/index.html#List">List</a> <a href="../../logic/index.html#ℕ">ℕ</a> → <a href="../../logic/index.html#ℕ">ℕ</a> → <a href="../../logic/index.html#ℕ">ℕ</a> → <a href="../../logic/index.html#Bool">Bool</a>
/// <a href="#waits_at">waits_at</a> slots position index = <a href="#kind_in">kind_in</a> slots index == 3 &amp;&amp; <a href="#number_in">number_in</a> slots index == position
/// </pre>
///
/// <pre>
/// -- one of that many slots, the first ones, waits there
/// abbrev pub <b id="is_taken">is_taken</b> : <a href="../../logic/index.html#List">List</a> <a href="../../logic/index.html#ℕ">ℕ</a> → <a href="../../logic/index.html#ℕ">ℕ</a> → <a href="../../logic/index.html#ℕ">ℕ</a> → <a href="../../logic/index.html#Bool">Bool</a>
/// <a href="#is_taken">is_taken</a> slots count position = list_any (<a href="#waits_at">waits_at</a> slots position) (range_with_len 0 count)
/// </pre>
///
/// <pre>
/// -- if it waits, then at a position that there is, and where no slot before it waits
/// abbrev pub <b id="has_place">has_place</b> : <a href="../../logic/index.html#List">List</a> <a href="../../logic/index.html#ℕ">ℕ</a> → <a href="../../logic/index.html#ℕ">ℕ</a> → <a href="../../logic/index.html#ℕ">ℕ</a> → <a href="../../logic/index.html#Bool">Bool</a>
/// <a href="#has_place">has_place</a> slots waiting index =
///     let position = <a href="#number_in">number_in</a> slots index in
///     not (<a href="#kind_in">kind_in</a> slots index == 3) || nat_lt position waiting &amp;&amp; not (<a href="#is_taken">is_taken</a> slots index position)
/// </pre>
///
/// <pre>
/// abbrev pub <b id="slot_test">slot_test</b> : <a href="../../logic/index.html#ℕ">ℕ</a> → <a href="../../logic/index.html#ℕ">ℕ</a> → <a href="../../logic/index.html#List">List</a> <a href="../../logic/index.html#ℕ">ℕ</a> → <a href="../../logic/index.html#ℕ">ℕ</a> → <a href="#Test">Test</a>
/// <a href="#slot_test">slot_test</a> generations waiting slots index = (
///   <a href="#is_slot">is_slot</a> generations (<a href="#generation_of">generation_of</a> slots index) (<a href="#kind_in">kind_in</a> slots index) (<a href="#number_in">number_in</a> slots index)
///       &amp;&amp; <a href="#has_place">has_place</a> slots waiting index,
///   Slot index,
/// )
/// </pre>
///
/// <pre>
/// abbrev pub <b id="position_test">position_test</b> : <a href="../../logic/index.html#ℕ">ℕ</a> → <a href="../../logic/index.html#List">List</a> <a href="../../logic/index.html#ℕ">ℕ</a> → <a href="../../logic/index.html#ℕ">ℕ</a> → <a href="#Test">Test</a>
/// <a href="#position_test">position_test</a> made slots position = (<a href="#is_taken">is_taken</a> slots made position, Position position)
/// </pre>
///
/// <pre>
/// -- each slot, and then each position
/// abbrev pub <b id="slots_tests">slots_tests</b> : <a href="../../logic/index.html#ℕ">ℕ</a> → <a href="../../logic/index.html#ℕ">ℕ</a> → <a href="../../logic/index.html#ℕ">ℕ</a> → <a href="../../logic/index.html#List">List</a> <a href="../../logic/index.html#ℕ">ℕ</a> → <a href="../../logic/index.html#List">List</a> <a href="#Test">Test</a>
/// <a href="#slots_tests">slots_tests</a> generations made waiting slots =
///     <a href="../../logic/index.html#map">map</a> (<a href="#slot_test">slot_test</a> generations waiting slots) (range_with_len 0 made)
///     ++ <a href="../../logic/index.html#map">map</a> (<a href="#position_test">position_test</a> made slots) (range_with_len 0 waiting)
/// </pre>
///
/// <pre>
/// abbrev pub <b id="tests">tests</b> : <a href="../../logic/index.html#List">List</a> <a href="../../logic/index.html#ℕ">ℕ</a> → <a href="../../logic/index.html#List">List</a> <a href="#Test">Test</a>
/// <a href="#tests">tests</a> bytes =
///     let h = <a href="#header_in">header_in</a> bytes in
///     <a href="#front_tests">front_tests</a> bytes
///     ++ (<a href="#header_tests">header_tests</a> h (<a href="../../logic/index.html#length">length</a> bytes)
///     ++ <a href="#slots_tests">slots_tests</a> h.generations h.made h.waiting (<a href="../../logic/index.html#drop">drop</a> 40 bytes))
/// </pre>
///
/// <pre>
/// abbrev pub <b id="first_fault">first_fault</b> : <a href="../../logic/index.html#List">List</a> <a href="../../logic/index.html#ℕ">ℕ</a> → <a href="../../logic/index.html#Option">Option</a> ImageFault
/// <a href="#first_fault">first_fault</a> bytes = <a href="#first_failing">first_failing</a> (<a href="#tests">tests</a> bytes)
/// </pre>
pub mod first_fault {}

#[doc(alias("as_reserve_error"))]
/// What a fault prints, and which fault becomes which other one.
///
/// <pre>
/// -- the refusal as a fault of a call that lists what it reserves
/// abbrev pub <b id="as_reserve_error">as_reserve_error</b> : Refused → ReserveError
/// <a href="#as_reserve_error">as_reserve_error</a> (refused.Space wanted left) = reserve.Space wanted left
/// <a href="#as_reserve_error">as_reserve_error</a> (refused.Quota left) = reserve.Quota left
/// </pre>
pub mod fault {}

#[doc(alias("AreSpent", "IsSpent"))]
/// What keeps a handle that was given from being given again.
///
/// <pre>
/// -- Every handle that its slot can still give comes after it, and the occupant of its slot doesn't
/// -- come before it.
/// pub record <b id="IsSpent">IsSpent</b> (s : <a href="../sequential/index.html#Allocator">Allocator</a>) (h : <a href="../../ent_handle/handle/index.html#Handle">Handle</a>) : Type 0 where
///   pub left : <a href="../../logic/index.html#All">All</a> (λ g. g.index ≡ h.index → h.generation &lt; g.generation) (s.aside ++ s.pool)
///   pub taken : <a href="../../logic/index.html#All">All</a> (λ g. g.index ≡ h.index → h.generation ≤ g.generation) s.taken
///   pub live : (g : <a href="../../ent_handle/handle/index.html#Handle">Handle</a>) → <a href="../sound/index.html#IsLive">IsLive</a> s g → g.index ≡ h.index → h.generation ≤ g.generation
/// </pre>
///
/// <pre>
/// -- None of these handles was given twice, and none will be given again.
/// pub record <b id="AreSpent">AreSpent</b> (s : <a href="../sequential/index.html#Allocator">Allocator</a>) (given : <a href="../../logic/index.html#List">List</a> <a href="../../ent_handle/handle/index.html#Handle">Handle</a>) : Type 0 where
///   pub distinct : <a href="../../logic/index.html#AllPairs">AllPairs</a> (λ g h. g ≢ h) given
///   pub spent : <a href="../../logic/index.html#All">All</a> (<a href="#IsSpent">IsSpent</a> s) given
/// </pre>
pub mod spent {}

#[doc(alias("Call", "given_in", "handles_in"))]
/// Histories: the reservations of many callers in one order, and what the sequential allocator says to them.
///
/// <pre>
/// -- one reservation: its caller, for how many handles it was, and what was returned
/// pub record <b id="Call">Call</b> : Type 0 where
///   pub caller : <a href="../../logic/index.html#ℕ">ℕ</a>
///   pub requested : <a href="../../logic/index.html#ℕ">ℕ</a>
///   pub reply : <a href="../../logic/index.html#Result">Result</a> (<a href="../../logic/index.html#List">List</a> <a href="../../ent_handle/handle/index.html#Handle">Handle</a>) Space
/// </pre>
///
/// <pre>
/// -- the handles of a reply
/// abbrev pub <b id="handles_in">handles_in</b> : <a href="../../logic/index.html#Result">Result</a> (<a href="../../logic/index.html#List">List</a> <a href="../../ent_handle/handle/index.html#Handle">Handle</a>) Space → <a href="../../logic/index.html#List">List</a> <a href="../../ent_handle/handle/index.html#Handle">Handle</a>
/// <a href="#handles_in">handles_in</a> (<a href="../../logic/index.html#Ok">Ok</a> handles) = handles
/// <a href="#handles_in">handles_in</a> (<a href="../../logic/index.html#Err">Err</a> space) = []
/// </pre>
///
/// <pre>
/// -- the handles of all replies
/// abbrev pub <b id="given_in">given_in</b> : <a href="../../logic/index.html#List">List</a> <a href="#Call">Call</a> → <a href="../../logic/index.html#List">List</a> <a href="../../ent_handle/handle/index.html#Handle">Handle</a>
/// <a href="#given_in">given_in</a> [] = []
/// <a href="#given_in">given_in</a> (call ∷ calls) = <a href="#handles_in">handles_in</a> call.reply ++ <a href="#given_in">given_in</a> calls
/// </pre>
pub mod history {}

#[doc(alias("Alloc", "Flush", "Free", "IsRun", "MayCome", "Request", "Step", "after_run", "after_step", "given_in_run", "given_in_step"))]
/// Runs: calls of one allocator, one after the other, and the handles that they give.
///
/// <pre>
/// -- A call that changes the allocator: one that gave this handle at once, one that freed this handle,
/// -- a request for that many, served or refused, and a flush. Handles that are given together count as
/// -- so many single calls.
/// pub data <b id="Step">Step</b> : Type 0 where
///   <b id="Alloc">Alloc</b> : <a href="../../ent_handle/handle/index.html#Handle">Handle</a> → <a href="#Step">Step</a>
///   <b id="Free">Free</b> : <a href="../../ent_handle/handle/index.html#Handle">Handle</a> → <a href="#Step">Step</a>
///   <b id="Request">Request</b> : <a href="../../logic/index.html#ℕ">ℕ</a> → <a href="#Step">Step</a>
///   <b id="Flush">Flush</b> : <a href="#Step">Step</a>
/// </pre>
///
/// <pre>
/// -- the call may come there
/// abbrev pub <b id="MayCome">MayCome</b> : <a href="../sequential/index.html#Allocator">Allocator</a> → <a href="#Step">Step</a> → Type 0
/// <a href="#MayCome">MayCome</a> s (<a href="#Alloc">Alloc</a> h) = (s.asked ≡ 0) × (<a href="../../logic/index.html#slice_get">slice_get</a> s.pool 0 ≡ <a href="../../logic/index.html#Some">Some</a> h)
/// <a href="#MayCome">MayCome</a> s (<a href="#Free">Free</a> h) = (s.asked ≡ 0) × <a href="../sound/index.html#IsLive">IsLive</a> s h
/// <a href="#MayCome">MayCome</a> s (<a href="#Request">Request</a> n) = Unit {0}
/// <a href="#MayCome">MayCome</a> s <a href="#Flush">Flush</a> = Unit {0}
/// </pre>
///
/// <pre>
/// -- the allocator after it
/// abbrev pub <b id="after_step">after_step</b> : <a href="../sequential/index.html#Allocator">Allocator</a> → <a href="#Step">Step</a> → <a href="../sequential/index.html#Allocator">Allocator</a>
/// <a href="#after_step">after_step</a> s (<a href="#Alloc">Alloc</a> h) = <a href="../sequential/index.html#after_alloc">after_alloc</a> s h
/// <a href="#after_step">after_step</a> s (<a href="#Free">Free</a> h) = <a href="../sequential/index.html#after_free">after_free</a> s h
/// <a href="#after_step">after_step</a> s (<a href="#Request">Request</a> n) = <a href="../sequential/index.html#after_take">after_take</a> s n
/// <a href="#after_step">after_step</a> s <a href="#Flush">Flush</a> = <a href="../sequential/index.html#after_flush">after_flush</a> s
/// </pre>
///
/// <pre>
/// -- the handles that it gives
/// abbrev pub <b id="given_in_step">given_in_step</b> : <a href="../sequential/index.html#Allocator">Allocator</a> → <a href="#Step">Step</a> → <a href="../../logic/index.html#List">List</a> <a href="../../ent_handle/handle/index.html#Handle">Handle</a>
/// <a href="#given_in_step">given_in_step</a> s (<a href="#Alloc">Alloc</a> h) = h ∷ []
/// <a href="#given_in_step">given_in_step</a> s (<a href="#Free">Free</a> h) = []
/// <a href="#given_in_step">given_in_step</a> s (<a href="#Request">Request</a> n) = <a href="../history/index.html#handles_in">handles_in</a> (<a href="../sequential/index.html#reply_to">reply_to</a> s n)
/// <a href="#given_in_step">given_in_step</a> s <a href="#Flush">Flush</a> = []
/// </pre>
///
/// <pre>
/// -- each call may come after those before it
/// abbrev pub <b id="IsRun">IsRun</b> : <a href="../sequential/index.html#Allocator">Allocator</a> → <a href="../../logic/index.html#List">List</a> <a href="#Step">Step</a> → Type 0
/// <a href="#IsRun">IsRun</a> s [] = Unit {0}
/// <a href="#IsRun">IsRun</a> s (step ∷ steps) = <a href="#MayCome">MayCome</a> s step × <a href="#IsRun">IsRun</a> (<a href="#after_step">after_step</a> s step) steps
/// </pre>
///
/// <pre>
/// abbrev pub <b id="after_run">after_run</b> : <a href="../sequential/index.html#Allocator">Allocator</a> → <a href="../../logic/index.html#List">List</a> <a href="#Step">Step</a> → <a href="../sequential/index.html#Allocator">Allocator</a>
/// <a href="#after_run">after_run</a> s [] = s
/// <a href="#after_run">after_run</a> s (step ∷ steps) = <a href="#after_run">after_run</a> (<a href="#after_step">after_step</a> s step) steps
/// </pre>
///
/// <pre>
/// abbrev pub <b id="given_in_run">given_in_run</b> : <a href="../sequential/index.html#Allocator">Allocator</a> → <a href="../../logic/index.html#List">List</a> <a href="#Step">Step</a> → <a href="../../logic/index.html#List">List</a> <a href="../../ent_handle/handle/index.html#Handle">Handle</a>
/// <a href="#given_in_run">given_in_run</a> s [] = []
/// <a href="#given_in_run">given_in_run</a> s (step ∷ steps) = <a href="#given_in_step">given_in_step</a> s step ++ <a href="#given_in_run">given_in_run</a> (<a href="#after_step">after_step</a> s step) steps
/// </pre>
pub mod runs {}

#[doc(alias("AreServed", "Replying", "Request", "SaysWanted"))]
/// What a caller requested, one request after the other, and the replies.
///
/// <pre>
/// -- a refusal for lack of handles says how many were requested
/// abbrev pub <b id="SaysWanted">SaysWanted</b> : <a href="../../logic/index.html#ℕ">ℕ</a> → Refused → Type 0
/// <a href="#SaysWanted">SaysWanted</a> requested (Space wanted left) = wanted ≡ requested
/// <a href="#SaysWanted">SaysWanted</a> requested (Quota left) = Unit {0}
/// </pre>
///
/// <pre>
/// -- how many handles were requested, and the reply
/// abbrev pub <b id="Request">Request</b> : Type 0
/// <a href="#Request">Request</a> = <a href="../../logic/index.html#ℕ">ℕ</a> × <a href="../../logic/index.html#Result">Result</a> (<a href="../../logic/index.html#List">List</a> <a href="../../ent_handle/handle/index.html#Handle">Handle</a>) Refused
/// </pre>
///
/// <pre>
/// -- The possible replies to a request for that many handles, and what the request makes of the
/// -- reserver.
/// abbrev pub <b id="Replying">Replying</b> : Type 0 → Type 1
/// <a href="#Replying">Replying</a> R = R → R → <a href="../../logic/index.html#ℕ">ℕ</a> → <a href="../../logic/index.html#Result">Result</a> (<a href="../../logic/index.html#List">List</a> <a href="../../ent_handle/handle/index.html#Handle">Handle</a>) Refused → Type 0
/// </pre>
///
/// <pre>
/// module _ {R : Type 0} where
///   -- These requests were made with the reserver, one after the other, and no others.
///   abbrev pub <b id="AreServed">AreServed</b> : <a href="#Replying">Replying</a> R → R → <a href="../../logic/index.html#List">List</a> <a href="#Request">Request</a> → R → Type 0
///   <a href="#AreServed">AreServed</a> may before requests after =
///       FoldsTo (λ a (request : <a href="#Request">Request</a>) b. may a b request.0 request.1) before requests after
/// </pre>
pub mod serving {}

#[doc(alias("IsBeyond", "slots_after_flush"))]
/// Images that a reader with a bound takes: a flush of what was read leaves no more slots than that.
///
/// <pre>
/// -- how many slots there are after the next flush
/// abbrev pub <b id="slots_after_flush">slots_after_flush</b> : <a href="../sequential/index.html#Allocator">Allocator</a> → <a href="../../logic/index.html#ℕ">ℕ</a>
/// <a href="#slots_after_flush">slots_after_flush</a> s = s.made + <a href="../sequential/index.html#made_at_flush">made_at_flush</a> s
/// </pre>
///
/// <pre>
/// -- what reading an image of these entities returns if that many slots are allowed
/// abbrev pub <b id="within">within</b> : <a href="../../logic/index.html#ℕ">ℕ</a> → <a href="../entities/index.html#Entities">Entities</a> → <a href="../../logic/index.html#Result">Result</a> <a href="../entities/index.html#Entities">Entities</a> ImageFault
/// <a href="#within">within</a> most e =
///     if nat_le (<a href="#slots_after_flush">slots_after_flush</a> e.allocator) most
///     then <a href="../../logic/index.html#Ok">Ok</a> e
///     else <a href="../../logic/index.html#Err">Err</a> (Bound (<a href="#slots_after_flush">slots_after_flush</a> e.allocator))
/// </pre>
///
/// <pre>
/// -- the bytes are an image, and it is refused for the bound by this fault
/// abbrev pub <b id="IsBeyond">IsBeyond</b> : <a href="../../logic/index.html#List">List</a> <a href="../../logic/index.html#ℕ">ℕ</a> → <a href="../../logic/index.html#ℕ">ℕ</a> → ImageFault → Type 0
/// <a href="#IsBeyond">IsBeyond</a> bytes most fault =
///     (e : <a href="../entities/index.html#Entities">Entities</a>) × <a href="../image/index.html#HasImage">HasImage</a> e × (<a href="../image/index.html#image">image</a> e ≡ bytes) × (<a href="#within">within</a> most e ≡ <a href="../../logic/index.html#Err">Err</a> fault)
/// </pre>
pub mod within {}
