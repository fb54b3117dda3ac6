// Made of crates/ent_log/specs by .ci/contracts.py. It isn't edited by hand.

//! The definitions of crate `ent_log`, in the order in which one reads them:
//! [`logs`], [`spawning`], [`beginning`], [`handing_on`].

#[doc(alias("entries_of", "first_unreserved", "is_reserved", "refusal_of", "refused_in", "spawned_by", "spawned_in"))]
/// What logs have: what their spawns returned, and their entries one after the other.
///
/// <pre>
/// module _ {C : Type 0} where
///   -- the handle that a spawn returned
///   abbrev pub <b id="spawned_by">spawned_by</b> : Entry C → <a href="../../logic/index.html#List">List</a> <a href="../../ent_handle/handle/index.html#Handle">Handle</a>
///   <a href="#spawned_by">spawned_by</a> (Spawn h) = h ∷ []
///   <a href="#spawned_by">spawned_by</a> (Refused why) = []
///   <a href="#spawned_by">spawned_by</a> (Command command) = []
/// </pre>
///
/// <pre>
///   -- the handles that the spawns among these entries returned, in order
///   abbrev pub <b id="spawned_in">spawned_in</b> : <a href="../../logic/index.html#List">List</a> (Entry C) → <a href="../../logic/index.html#List">List</a> <a href="../../ent_handle/handle/index.html#Handle">Handle</a>
///   <a href="#spawned_in">spawned_in</a> entries = flat_map <a href="#spawned_by">spawned_by</a> entries
/// </pre>
///
/// <pre>
///   -- why a spawn was refused
///   abbrev pub <b id="refusal_of">refusal_of</b> : Entry C → <a href="../../logic/index.html#List">List</a> Refusal
///   <a href="#refusal_of">refusal_of</a> (Spawn h) = []
///   <a href="#refusal_of">refusal_of</a> (Refused why) = why ∷ []
///   <a href="#refusal_of">refusal_of</a> (Command command) = []
/// </pre>
///
/// <pre>
///   -- why those spawns were refused that were, in order
///   abbrev pub <b id="refused_in">refused_in</b> : <a href="../../logic/index.html#List">List</a> (Entry C) → <a href="../../logic/index.html#List">List</a> Refusal
///   <a href="#refused_in">refused_in</a> entries = flat_map <a href="#refusal_of">refusal_of</a> entries
/// </pre>
///
/// <pre>
///   -- the entries of all logs, one log after the other
///   abbrev pub <b id="entries_of">entries_of</b> : <a href="../../logic/index.html#List">List</a> (<a href="../../logic/index.html#List">List</a> (Entry C)) → <a href="../../logic/index.html#List">List</a> (Entry C)
///   <a href="#entries_of">entries_of</a> logs = flat_map (λ (log : <a href="../../logic/index.html#List">List</a> (Entry C)). log) logs
/// </pre>
///
/// <pre>
/// abbrev pub <b id="is_reserved">is_reserved</b> : State → <a href="../../logic/index.html#Bool">Bool</a>
/// <a href="#is_reserved">is_reserved</a> Reserved = <a href="../../logic/index.html#true">true</a>
/// <a href="#is_reserved">is_reserved</a> Alive = <a href="../../logic/index.html#false">false</a>
/// <a href="#is_reserved">is_reserved</a> Gone = <a href="../../logic/index.html#false">false</a>
/// </pre>
///
/// <pre>
/// -- the first of these handles that isn't reserved in the allocator
/// abbrev pub <b id="first_unreserved">first_unreserved</b> : <a href="../../ent_alloc/sequential/index.html#Allocator">Allocator</a> → <a href="../../logic/index.html#List">List</a> <a href="../../ent_handle/handle/index.html#Handle">Handle</a> → <a href="../../logic/index.html#Option">Option</a> <a href="../../ent_handle/handle/index.html#Handle">Handle</a>
/// <a href="#first_unreserved">first_unreserved</a> s handles = find (λ (h : <a href="../../ent_handle/handle/index.html#Handle">Handle</a>). not (<a href="#is_reserved">is_reserved</a> (<a href="../../ent_alloc/sequential/index.html#state_of">state_of</a> s h))) handles
/// </pre>
pub mod logs {}

#[doc(alias("refused_by", "returned"))]
/// What a spawn returns of a reservation and enters for a refusal, and what the allocator does that is asked for one.
///
/// <pre>
/// -- the result of a reservation as a spawn returns it
/// abbrev pub <b id="returned">returned</b> : <a href="../../logic/index.html#Result">Result</a> <a href="../../ent_handle/handle/index.html#Handle">Handle</a> Refused → <a href="../../logic/index.html#Result">Result</a> <a href="../../ent_handle/handle/index.html#Handle">Handle</a> ReserveError
/// <a href="#returned">returned</a> (<a href="../../logic/index.html#Ok">Ok</a> h) = <a href="../../logic/index.html#Ok">Ok</a> h
/// <a href="#returned">returned</a> (<a href="../../logic/index.html#Err">Err</a> why) = <a href="../../logic/index.html#Err">Err</a> (<a href="../../ent_alloc/fault/index.html#as_reserve_error">as_reserve_error</a> why)
/// </pre>
///
/// <pre>
/// -- what the log has of a spawn that returned this error
/// abbrev pub <b id="refused_by">refused_by</b> : {C : Type 0} → ReserveError → <a href="../../logic/index.html#List">List</a> (Entry C)
/// <a href="#refused_by">refused_by</a> (failed.Space wanted left) = entry.Refused (refused.Space wanted left) ∷ []
/// <a href="#refused_by">refused_by</a> (failed.Quota left) = entry.Refused (refused.Quota left) ∷ []
/// <a href="#refused_by">refused_by</a> failed.Memory = []
/// </pre>
pub mod spawning {}

#[doc(alias("unreserved_of"))]
/// Why a sync point did not begin.
///
/// <pre>
/// -- the handle that the error names
/// abbrev pub <b id="unreserved_of">unreserved_of</b> : BeginError → <a href="../../logic/index.html#Option">Option</a> <a href="../../ent_handle/handle/index.html#Handle">Handle</a>
/// <a href="#unreserved_of">unreserved_of</a> (NotReserved h) = <a href="../../logic/index.html#Some">Some</a> h
/// <a href="#unreserved_of">unreserved_of</a> Memory = <a href="../../logic/index.html#None">None</a>
/// </pre>
pub mod beginning {}

#[doc(alias("CalledAt", "FailsAt", "Takes", "TakesAll"))]
/// How a closure takes entries in turn, each with the allocator that the one before it left.
///
/// <pre>
/// module _ {C E F : Type 0} (step : F → MutBor <a href="../../ent_alloc/entities/index.html#Entities">Entities</a> → Entry C → <a href="../../logic/index.html#Result">Result</a> (Unit {0}) (Entry C × E)
///     → MutBor <a href="../../ent_alloc/entities/index.html#Entities">Entities</a> → F → Type 0) where
///   -- a call of f with this allocator and entry may return this, and leave this allocator and closure
///   pub record <b id="CalledAt">CalledAt</b> (f : F) (before : <a href="../../ent_alloc/entities/index.html#Entities">Entities</a>) (entry : Entry C)
///       (returned : <a href="../../logic/index.html#Result">Result</a> (Unit {0}) (Entry C × E)) (after : <a href="../../ent_alloc/entities/index.html#Entities">Entities</a>) (next : F) : Type 0 where
///     pub shown : MutBor <a href="../../ent_alloc/entities/index.html#Entities">Entities</a>
///     pub shows : shown.now ≡ before
///     pub left : MutBor <a href="../../ent_alloc/entities/index.html#Entities">Entities</a>
///     pub called : step f shown entry returned left next
///     pub leaves : left.now ≡ after
/// </pre>
///
/// <pre>
///   -- the closure took the entry, and left this closure and allocator
///   abbrev pub <b id="Takes">Takes</b> : F × <a href="../../ent_alloc/entities/index.html#Entities">Entities</a> → Entry C → F × <a href="../../ent_alloc/entities/index.html#Entities">Entities</a> → Type 0
///   <a href="#Takes">Takes</a> before entry after =
///       <a href="#CalledAt">CalledAt</a> before.0 before.1 entry (<a href="../../logic/index.html#Ok">Ok</a> tt) after.1 after.0
/// </pre>
///
/// <pre>
///   -- The closure took all entries in turn, each once, and the allocator is as the last call left it.
///   pub record <b id="TakesAll">TakesAll</b> (f : F) (before : <a href="../../ent_alloc/entities/index.html#Entities">Entities</a>) (entries : <a href="../../logic/index.html#List">List</a> (Entry C)) (after : <a href="../../ent_alloc/entities/index.html#Entities">Entities</a>)
///       : Type 0 where
///     pub last : F
///     pub each : FoldsTo <a href="#Takes">Takes</a> (f, before) entries (last, after)
/// </pre>
///
/// <pre>
///   -- The closure took the first entries in turn, each once, and then failed at one, with this error.
///   -- The entry that it returned is left, with those behind the one at which it failed.
///   pub record <b id="FailsAt">FailsAt</b> (f : F) (before : <a href="../../ent_alloc/entities/index.html#Entities">Entities</a>) (entries : <a href="../../logic/index.html#List">List</a> (Entry C)) (error : E)
///       (left : <a href="../../logic/index.html#List">List</a> (Entry C)) (after : <a href="../../ent_alloc/entities/index.html#Entities">Entities</a>) : Type 0 where
///     pub taken : <a href="../../logic/index.html#List">List</a> (Entry C)
///     pub entry : Entry C
///     pub behind : <a href="../../logic/index.html#List">List</a> (Entry C)
///     pub in_order : entries ≡ taken ++ entry ∷ behind
///     pub between : F × <a href="../../ent_alloc/entities/index.html#Entities">Entities</a>
///     pub each : FoldsTo <a href="#Takes">Takes</a> (f, before) taken between
///     pub returned : Entry C
///     pub last : F
///     pub fails : <a href="#CalledAt">CalledAt</a> between.0 between.1 entry (<a href="../../logic/index.html#Err">Err</a> (returned, error)) after last
///     pub left_is : left ≡ returned ∷ behind
/// </pre>
pub mod handing_on {}
