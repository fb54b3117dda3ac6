// Made of crates/ent_queue/specs by .ci/contracts.py. It isn't edited by hand.

//! The definitions of crate `ent_queue`, in the order in which one reads them:
//! [`command`], [`reserving`], [`issuing`], [`logging`], [`commands`].

#[doc(alias("Command", "Despawn", "Insert", "Refused", "Remove", "Spawn", "SpawnMany"))]
/// Commands: what a system asks of the world. A queue of them represents their list.
///
/// <pre>
/// -- Spawn and SpawnMany give what was reserved its components, Insert sets components of an entity,
/// -- Remove takes one away, Despawn takes the entity. Refused is a request that was refused: for how
/// -- many handles, and why.
/// pub data <b id="Command">Command</b> : Type 0 where
///   <b id="Spawn">Spawn</b> : <a href="../../ent_handle/handle/index.html#Handle">Handle</a> → <a href="../../ent_storage/bundle/index.html#Bundle">Bundle</a> → <a href="#Command">Command</a>
///   <b id="SpawnMany">SpawnMany</b> : <a href="../../logic/index.html#List">List</a> <a href="../../ent_handle/handle/index.html#Handle">Handle</a> → <a href="../../ent_storage/bundle/index.html#Bundle">Bundle</a> → <a href="#Command">Command</a>
///   <b id="Insert">Insert</b> : <a href="../../ent_handle/handle/index.html#Handle">Handle</a> → <a href="../../ent_storage/bundle/index.html#Bundle">Bundle</a> → <a href="#Command">Command</a>
///   <b id="Remove">Remove</b> : <a href="../../ent_handle/handle/index.html#Handle">Handle</a> → ComponentId → <a href="#Command">Command</a>
///   <b id="Despawn">Despawn</b> : <a href="../../ent_handle/handle/index.html#Handle">Handle</a> → <a href="#Command">Command</a>
///   <b id="Refused">Refused</b> : <a href="../../logic/index.html#ℕ">ℕ</a> → Refusal → <a href="#Command">Command</a>
/// </pre>
pub mod command {}

#[doc(alias("FitQuota", "FitsQuota", "Gains", "as_list", "cost", "queued", "refused_by", "requests_of", "stands_for"))]
/// What the commands of a queue have asked of the reserver that was lent.
///
/// <pre>
/// -- the requests that a command represents
/// abbrev pub <b id="requests_of">requests_of</b> : <a href="../command/index.html#Command">Command</a> → <a href="../../logic/index.html#List">List</a> <a href="../../ent_alloc/serving/index.html#Request">Request</a>
/// <a href="#requests_of">requests_of</a> (<a href="../command/index.html#Spawn">Spawn</a> h items) = (1, <a href="../../logic/index.html#Ok">Ok</a> (h ∷ [])) ∷ []
/// <a href="#requests_of">requests_of</a> (<a href="../command/index.html#SpawnMany">SpawnMany</a> hs items) = (<a href="../../logic/index.html#length">length</a> hs, <a href="../../logic/index.html#Ok">Ok</a> hs) ∷ []
/// <a href="#requests_of">requests_of</a> (<a href="../command/index.html#Insert">Insert</a> h items) = []
/// <a href="#requests_of">requests_of</a> (<a href="../command/index.html#Remove">Remove</a> h id) = []
/// <a href="#requests_of">requests_of</a> (<a href="../command/index.html#Despawn">Despawn</a> h) = []
/// <a href="#requests_of">requests_of</a> (<a href="../command/index.html#Refused">Refused</a> wanted why) = (wanted, <a href="../../logic/index.html#Err">Err</a> why) ∷ []
/// </pre>
///
/// <pre>
/// -- those of them that are reservations of a shared allocator: a request for no handle is none, nor
/// -- is one for more than the quota
/// abbrev pub <b id="stands_for">stands_for</b> : <a href="../command/index.html#Command">Command</a> → <a href="../../logic/index.html#List">List</a> (<a href="../../logic/index.html#ℕ">ℕ</a> × <a href="../../logic/index.html#Result">Result</a> (<a href="../../logic/index.html#List">List</a> <a href="../../ent_handle/handle/index.html#Handle">Handle</a>) OutOfSpace)
/// <a href="#stands_for">stands_for</a> (<a href="../command/index.html#Spawn">Spawn</a> h items) = (1, <a href="../../logic/index.html#Ok">Ok</a> (h ∷ [])) ∷ []
/// <a href="#stands_for">stands_for</a> (<a href="../command/index.html#SpawnMany">SpawnMany</a> [] items) = []
/// <a href="#stands_for">stands_for</a> (<a href="../command/index.html#SpawnMany">SpawnMany</a> (h ∷ hs) items) = (<a href="../../logic/index.html#length">length</a> (h ∷ hs), <a href="../../logic/index.html#Ok">Ok</a> (h ∷ hs)) ∷ []
/// <a href="#stands_for">stands_for</a> (<a href="../command/index.html#Insert">Insert</a> h items) = []
/// <a href="#stands_for">stands_for</a> (<a href="../command/index.html#Remove">Remove</a> h id) = []
/// <a href="#stands_for">stands_for</a> (<a href="../command/index.html#Despawn">Despawn</a> h) = []
/// <a href="#stands_for">stands_for</a> (<a href="../command/index.html#Refused">Refused</a> wanted (Space same left)) =
///     (wanted, <a href="../../logic/index.html#Err">Err</a> (record { wanted = same; left = left })) ∷ []
/// <a href="#stands_for">stands_for</a> (<a href="../command/index.html#Refused">Refused</a> wanted (Quota left)) = []
/// </pre>
///
/// <pre>
/// -- how much quota it has cost
/// abbrev pub <b id="cost">cost</b> : <a href="../command/index.html#Command">Command</a> → <a href="../../logic/index.html#ℕ">ℕ</a>
/// <a href="#cost">cost</a> c = sum_by (λ (request : <a href="../../logic/index.html#ℕ">ℕ</a> × <a href="../../logic/index.html#Result">Result</a> (<a href="../../logic/index.html#List">List</a> <a href="../../ent_handle/handle/index.html#Handle">Handle</a>) OutOfSpace). request.0) (<a href="#stands_for">stands_for</a> c)
/// </pre>
///
/// <pre>
/// -- It fits the quota that was left; a refusal for lack of quota says what was left, and more was
/// -- requested.
/// abbrev pub <b id="FitsQuota">FitsQuota</b> : <a href="../../logic/index.html#ℕ">ℕ</a> → <a href="../command/index.html#Command">Command</a> → Type 0
/// <a href="#FitsQuota">FitsQuota</a> left (<a href="../command/index.html#Refused">Refused</a> wanted (Quota rest)) = (rest ≡ left) × (left &lt; wanted)
/// <a href="#FitsQuota">FitsQuota</a> left (<a href="../command/index.html#Refused">Refused</a> wanted (Space same rest)) = wanted ≤ left
/// <a href="#FitsQuota">FitsQuota</a> left (<a href="../command/index.html#Spawn">Spawn</a> h items) = 1 ≤ left
/// <a href="#FitsQuota">FitsQuota</a> left (<a href="../command/index.html#SpawnMany">SpawnMany</a> hs items) = <a href="../../logic/index.html#length">length</a> hs ≤ left
/// <a href="#FitsQuota">FitsQuota</a> left (<a href="../command/index.html#Insert">Insert</a> h items) = Unit {0}
/// <a href="#FitsQuota">FitsQuota</a> left (<a href="../command/index.html#Remove">Remove</a> h id) = Unit {0}
/// <a href="#FitsQuota">FitsQuota</a> left (<a href="../command/index.html#Despawn">Despawn</a> h) = Unit {0}
/// </pre>
///
/// <pre>
/// -- each command at its turn
/// abbrev pub <b id="FitQuota">FitQuota</b> : <a href="../../logic/index.html#ℕ">ℕ</a> → <a href="../../logic/index.html#List">List</a> <a href="../command/index.html#Command">Command</a> → Type 0
/// <a href="#FitQuota">FitQuota</a> left [] = Unit {0}
/// <a href="#FitQuota">FitQuota</a> left (c ∷ cs) = <a href="#FitsQuota">FitsQuota</a> left c × <a href="#FitQuota">FitQuota</a> (left - <a href="#cost">cost</a> c) cs
/// </pre>
///
/// <pre>
/// -- The reserver has gained the reservations of these commands and no others, in order.
/// pub record <b id="Gains">Gains</b> (before : Record) (commands : <a href="../../logic/index.html#List">List</a> <a href="../command/index.html#Command">Command</a>) (after : Record) : Type 0 where
///   pub start : after.start ≡ before.start
///   pub number : after.number ≡ before.number
///   pub reservations : <a href="../../logic/index.html#List">List</a> Reservation
///   pub entries : after.entries ≡ before.entries ++ <a href="../../logic/index.html#map">map</a> Own reservations
///   pub requests : <a href="../../logic/index.html#map">map</a> (λ (r : Reservation). (r.requested, r.reply)) reservations
///       ≡ flat_map <a href="#stands_for">stands_for</a> commands
///   pub callers : <a href="../../logic/index.html#All">All</a> (λ (r : Reservation). r.caller ≡ before.number) reservations
///   pub left : after.left + sum_by <a href="#cost">cost</a> commands ≡ before.left
///   pub within : <a href="#FitQuota">FitQuota</a> before.left commands
/// </pre>
///
/// <pre>
/// -- the result of a reservation as the queue returns it
/// abbrev pub <b id="queued">queued</b> : {X : Type 0} → <a href="../../logic/index.html#Result">Result</a> X Refusal → <a href="../../logic/index.html#Result">Result</a> X QueueFault
/// <a href="#queued">queued</a> (<a href="../../logic/index.html#Ok">Ok</a> x) = <a href="../../logic/index.html#Ok">Ok</a> x
/// <a href="#queued">queued</a> (<a href="../../logic/index.html#Err">Err</a> why) = <a href="../../logic/index.html#Err">Err</a> (<a href="../../ent_alloc/fault/index.html#as_reserve_error">as_reserve_error</a> why)
/// </pre>
///
/// <pre>
/// -- the same with the handles in a vector
/// abbrev pub <b id="as_list">as_list</b> : <a href="../../logic/index.html#Result">Result</a> (Vec <a href="../../ent_handle/handle/index.html#Handle">Handle</a> Global) QueueFault → <a href="../../logic/index.html#Result">Result</a> (<a href="../../logic/index.html#List">List</a> <a href="../../ent_handle/handle/index.html#Handle">Handle</a>) QueueFault
/// <a href="#as_list">as_list</a> (<a href="../../logic/index.html#Ok">Ok</a> handles) = <a href="../../logic/index.html#Ok">Ok</a> handles.items
/// <a href="#as_list">as_list</a> (<a href="../../logic/index.html#Err">Err</a> fault) = <a href="../../logic/index.html#Err">Err</a> fault
/// </pre>
///
/// <pre>
/// -- what a fault adds to the queue
/// abbrev pub <b id="refused_by">refused_by</b> : <a href="../../logic/index.html#ℕ">ℕ</a> → QueueFault → <a href="../../logic/index.html#List">List</a> <a href="../command/index.html#Command">Command</a>
/// <a href="#refused_by">refused_by</a> wanted (fault.Space same left) = <a href="../command/index.html#Refused">Refused</a> wanted (Space same left) ∷ []
/// <a href="#refused_by">refused_by</a> wanted (fault.Quota left) = <a href="../command/index.html#Refused">Refused</a> wanted (Quota left) ∷ []
/// <a href="#refused_by">refused_by</a> wanted fault.Memory = []
/// </pre>
pub mod reserving {}

#[doc(alias("Issues"))]
/// What was added to a queue, and the requests that it represents.
///
/// <pre>
/// -- Commands were added to the queue, which represent exactly these requests.
/// pub record <b id="Issues">Issues</b> (before : <a href="../../logic/index.html#List">List</a> <a href="../command/index.html#Command">Command</a>) (requests : <a href="../../logic/index.html#List">List</a> <a href="../../ent_alloc/serving/index.html#Request">Request</a>) (after : <a href="../../logic/index.html#List">List</a> <a href="../command/index.html#Command">Command</a>) :
///     Type 0 where
///   pub added : <a href="../../logic/index.html#List">List</a> <a href="../command/index.html#Command">Command</a>
///   pub queue : after ≡ before ++ added
///   pub requests_are : requests ≡ flat_map <a href="../reserving/index.html#requests_of">requests_of</a> added
/// </pre>
pub mod issuing {}

#[doc(alias("Logs", "request_of"))]
/// What was added to a log, and the requests that it represents.
///
/// <pre>
/// module _ {C : Type 0} where
///   -- the request that an entry represents: each spawn requests one handle
///   abbrev pub <b id="request_of">request_of</b> : Entry C → <a href="../../logic/index.html#List">List</a> <a href="../../ent_alloc/serving/index.html#Request">Request</a>
///   <a href="#request_of">request_of</a> (Spawn h) = (1, <a href="../../logic/index.html#Ok">Ok</a> (h ∷ [])) ∷ []
///   <a href="#request_of">request_of</a> (Refused why) = (1, <a href="../../logic/index.html#Err">Err</a> why) ∷ []
///   <a href="#request_of">request_of</a> (Command command) = []
/// </pre>
///
/// <pre>
///   -- Entries were added to the log, which represent exactly these requests.
///   pub record <b id="Logs">Logs</b> (before : <a href="../../logic/index.html#List">List</a> (Entry C)) (requests : <a href="../../logic/index.html#List">List</a> <a href="../../ent_alloc/serving/index.html#Request">Request</a>) (after : <a href="../../logic/index.html#List">List</a> (Entry C))
///       : Type 0 where
///     pub added : <a href="../../logic/index.html#List">List</a> (Entry C)
///     pub log : after ≡ before ++ added
///     pub requests_are : requests ≡ flat_map <a href="#request_of">request_of</a> added
/// </pre>
pub mod logging {}

#[doc(alias("Extends", "IsReady", "output_of", "reserver_of", "source_of"))]
/// What a system fills, as it goes: what it has filled so far, the reserver that was lent to it, and the source that serves it.
///
/// <pre>
/// module _ {O S R : Type 0} where
///   abbrev pub <b id="output_of">output_of</b> : Commands O S R → O
///   <a href="#output_of">output_of</a> c = c.output
/// </pre>
///
/// <pre>
///   abbrev pub <b id="reserver_of">reserver_of</b> : Commands O S R → R
///   <a href="#reserver_of">reserver_of</a> c = c.reserver.now
/// </pre>
///
/// <pre>
///   abbrev pub <b id="source_of">source_of</b> : Commands O S R → S
///   <a href="#source_of">source_of</a> c = c.source.now
/// </pre>
///
/// <pre>
///   -- the reserver is one of the source's
///   abbrev pub <b id="IsReady">IsReady</b> : (S → R → Type 0) → Commands O S R → Type 0
///   <a href="#IsReady">IsReady</a> serves c = serves (<a href="#source_of">source_of</a> c) (<a href="#reserver_of">reserver_of</a> c)
/// </pre>
///
/// <pre>
///   -- Something was added, for these requests of the reserver and no others. It is the same reserver
///   -- of the same source.
///   pub record <b id="Extends">Extends</b> (Adds : O → <a href="../../logic/index.html#List">List</a> <a href="../../ent_alloc/serving/index.html#Request">Request</a> → O → Type 0) (serves : S → R → Type 0)
///       (may : S → <a href="../../ent_alloc/serving/index.html#Replying">Replying</a> R) (before after : Commands O S R) : Type 0 where
///     pub same : after.reserver.ghost_name ≡ before.reserver.ghost_name
///     pub source : <a href="#source_of">source_of</a> after ≡ <a href="#source_of">source_of</a> before
///     pub ready : <a href="#IsReady">IsReady</a> serves after
///     pub requests : <a href="../../logic/index.html#List">List</a> <a href="../../ent_alloc/serving/index.html#Request">Request</a>
///     pub adds : Adds (<a href="#output_of">output_of</a> before) requests (<a href="#output_of">output_of</a> after)
///     pub served : <a href="../../ent_alloc/serving/index.html#AreServed">AreServed</a> (may (<a href="#source_of">source_of</a> before)) (<a href="#reserver_of">reserver_of</a> before) requests
///         (<a href="#reserver_of">reserver_of</a> after)
/// </pre>
pub mod commands {}
