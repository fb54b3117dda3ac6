// Made of crates/ent_total/specs by .ci/contracts.py. It isn't edited by hand.

//! The definitions of crate `ent_total`, in the order in which one reads them:
//! [`batch`], [`applying`], [`spawning`], [`closing`], [`phases`], [`issuing`], [`reserving`], [`image`], [`in_world`], [`lending`].

#[doc(alias("IsFinished", "IsLeftUntil", "IsSynced", "IsSyncedUntil", "Queues", "Stopped"))]
/// Queues that are applied together, and where their sync point stopped.
///
/// <pre>
/// -- the number of the world, and the queues in the order of their effect
/// pub record <b id="Queues">Queues</b> : Type 0 where
///   pub world : <a href="../../logic/index.html#ℕ">ℕ</a>
///   pub queues : <a href="../../logic/index.html#List">List</a> (<a href="../../logic/index.html#List">List</a> <a href="../../ent_queue/command/index.html#Command">Command</a>)
/// </pre>
///
/// <pre>
/// -- the queues, where they stopped, and the report so far
/// pub record <b id="Stopped">Stopped</b> : Type 0 where
///   pub queues : <a href="#Queues">Queues</a>
///   pub stop : Stop
///   pub so_far : SyncReport
/// </pre>
///
/// <pre>
/// -- The sync point of the queues was done: the world after it, and what it reports.
/// pub record <b id="IsSynced">IsSynced</b> (queues : <a href="../../logic/index.html#List">List</a> (<a href="../../logic/index.html#List">List</a> <a href="../../ent_queue/command/index.html#Command">Command</a>)) (before after : <a href="../../ent_world/world/index.html#World">World</a>) (r : SyncReport)
///     : Type 0 where
///   pub world : after ≡ (<a href="../../ent_world/sync/index.html#sync">sync</a> queues before).world
///   pub flushed : after.allocator.asked ≡ 0
///   pub born_are : r.born.items ≡ <a href="../../ent_alloc/sequential/index.html#born">born</a> before.allocator
///   pub faults_are : r.faults.items ≡ (<a href="../../ent_world/sync/index.html#sync">sync</a> queues before).faults
/// </pre>
///
/// <pre>
/// -- It stopped there for lack of memory: all births have taken effect, and exactly the commands
/// -- before that point.
/// pub record <b id="IsSyncedUntil">IsSyncedUntil</b> (s : Stop) (queues : <a href="../../logic/index.html#List">List</a> (<a href="../../logic/index.html#List">List</a> <a href="../../ent_queue/command/index.html#Command">Command</a>)) (before after : <a href="../../ent_world/world/index.html#World">World</a>)
///     (r : SyncReport) : Type 0 where
///   pub stop : <a href="../../ent_world/sync/index.html#IsStop">IsStop</a> s.system s.command s.done queues
///   pub world : after ≡ (<a href="../../ent_world/sync/index.html#sync_until">sync_until</a> s.system s.command s.done queues before).world
///   pub flushed : after.allocator.asked ≡ 0
///   pub born_are : r.born.items ≡ <a href="../../ent_alloc/sequential/index.html#born">born</a> before.allocator
///   pub faults_are : r.faults.items
///       ≡ (<a href="../../ent_world/sync/index.html#sync_until">sync_until</a> s.system s.command s.done queues before).faults
///   pub memory : <a href="../../ent_world/memory/index.html#TakesMemoryAt">TakesMemoryAt</a> after s.system s.command s.done queues
/// </pre>
///
/// <pre>
/// -- What was left of the queues after a stop was done. If the sync point of a world had stopped like
/// -- this, the whole of it is done now, and the faults before and after the stop are its faults.
/// pub record <b id="IsFinished">IsFinished</b> (s : Stop) (queues : <a href="../../logic/index.html#List">List</a> (<a href="../../logic/index.html#List">List</a> <a href="../../ent_queue/command/index.html#Command">Command</a>)) (before after : <a href="../../ent_world/world/index.html#World">World</a>)
///     (r : SyncReport) : Type 0 where
///   pub world : after
///       ≡ (<a href="../../ent_world/rest/index.html#after_left">after_left</a> s.system s.command s.done queues (<a href="../../ent_world/effects/index.html#applied">applied</a> before [])).world
///   pub flushed : after.allocator.asked ≡ 0
///   pub born_are : r.born.items ≡ []
///   pub faults_are : r.faults.items
///       ≡ (<a href="../../ent_world/rest/index.html#after_left">after_left</a> s.system s.command s.done queues (<a href="../../ent_world/effects/index.html#applied">applied</a> before [])).faults
///   pub whole_world : (w : <a href="../../ent_world/world/index.html#World">World</a>) (earlier : <a href="../../logic/index.html#List">List</a> Fault)
///       → <a href="../../ent_world/rest/index.html#HasStoppedSo">HasStoppedSo</a> s.system s.command s.done queues w before earlier
///       → after ≡ (<a href="../../ent_world/sync/index.html#sync">sync</a> queues w).world
///   pub whole_faults : (w : <a href="../../ent_world/world/index.html#World">World</a>) (earlier : <a href="../../logic/index.html#List">List</a> Fault)
///       → <a href="../../ent_world/rest/index.html#HasStoppedSo">HasStoppedSo</a> s.system s.command s.done queues w before earlier
///       → earlier ++ r.faults.items ≡ (<a href="../../ent_world/sync/index.html#sync">sync</a> queues w).faults
/// </pre>
///
/// <pre>
/// -- It stopped again, there or later. If the sync point of a world had stopped like this, it has now
/// -- stopped at the later place, with the faults before and after.
/// pub record <b id="IsLeftUntil">IsLeftUntil</b> (s later : Stop) (queues : <a href="../../logic/index.html#List">List</a> (<a href="../../logic/index.html#List">List</a> <a href="../../ent_queue/command/index.html#Command">Command</a>)) (before after : <a href="../../ent_world/world/index.html#World">World</a>)
///     (r : SyncReport) : Type 0 where
///   pub stop : <a href="../../ent_world/sync/index.html#IsStop">IsStop</a> later.system later.command later.done queues
///   pub is_later : <a href="../../ent_world/rest/index.html#IsLater">IsLater</a> s.system s.command s.done later.system later.command later.done
///   pub world : after ≡ (<a href="../../ent_world/rest/index.html#after_left">after_left</a> s.system s.command s.done
///       (<a href="../../ent_world/sync/index.html#cut">cut</a> later.system later.command later.done queues) (<a href="../../ent_world/effects/index.html#applied">applied</a> before [])).world
///   pub flushed : after.allocator.asked ≡ 0
///   pub born_are : r.born.items ≡ []
///   pub faults_are : r.faults.items ≡ (<a href="../../ent_world/rest/index.html#after_left">after_left</a> s.system s.command s.done
///       (<a href="../../ent_world/sync/index.html#cut">cut</a> later.system later.command later.done queues) (<a href="../../ent_world/effects/index.html#applied">applied</a> before [])).faults
///   pub memory : <a href="../../ent_world/memory/index.html#TakesMemoryAt">TakesMemoryAt</a> after later.system later.command later.done queues
///   pub whole_world : (w : <a href="../../ent_world/world/index.html#World">World</a>) (earlier : <a href="../../logic/index.html#List">List</a> Fault)
///       → <a href="../../ent_world/rest/index.html#HasStoppedSo">HasStoppedSo</a> s.system s.command s.done queues w before earlier
///       → after ≡ (<a href="../../ent_world/sync/index.html#sync_until">sync_until</a> later.system later.command later.done queues w).world
///   pub whole_faults : (w : <a href="../../ent_world/world/index.html#World">World</a>) (earlier : <a href="../../logic/index.html#List">List</a> Fault)
///       → <a href="../../ent_world/rest/index.html#HasStoppedSo">HasStoppedSo</a> s.system s.command s.done queues w before earlier
///       → earlier ++ r.faults.items
///       ≡ (<a href="../../ent_world/sync/index.html#sync_until">sync_until</a> later.system later.command later.done queues w).faults
/// </pre>
pub mod batch {}

#[doc(alias("IfStopped", "IsCounted", "IsMemory", "IsOtherWorld", "IsUnbegun", "parts_of", "queues_in"))]
/// What holds of a sync point that wasn\'t completed.
///
/// <pre>
/// -- the queues that come back
/// abbrev pub <b id="queues_in">queues_in</b> : SyncError → <a href="../batch/index.html#Queues">Queues</a>
/// <a href="#queues_in">queues_in</a> (applied.OtherWorld queues) = queues
/// <a href="#queues_in">queues_in</a> (applied.Memory queues) = queues
/// <a href="#queues_in">queues_in</a> (applied.Stopped stopped) = stopped.queues
/// </pre>
///
/// <pre>
/// -- what comes back: the queues if nothing was done, and otherwise where it stopped
/// abbrev pub <b id="parts_of">parts_of</b> : SyncError → <a href="../../logic/index.html#Result">Result</a> <a href="../batch/index.html#Queues">Queues</a> <a href="../batch/index.html#Stopped">Stopped</a>
/// <a href="#parts_of">parts_of</a> (applied.OtherWorld queues) = <a href="../../logic/index.html#Ok">Ok</a> queues
/// <a href="#parts_of">parts_of</a> (applied.Memory queues) = <a href="../../logic/index.html#Ok">Ok</a> queues
/// <a href="#parts_of">parts_of</a> (applied.Stopped stopped) = <a href="../../logic/index.html#Err">Err</a> stopped
/// </pre>
///
/// <pre>
/// -- if it stopped at a command, this is true of the stop
/// abbrev pub <b id="IfStopped">IfStopped</b> : SyncError → (<a href="../batch/index.html#Stopped">Stopped</a> → Type 0) → Type 0
/// <a href="#IfStopped">IfStopped</a> (applied.OtherWorld queues) P = Unit {0}
/// <a href="#IfStopped">IfStopped</a> (applied.Memory queues) P = Unit {0}
/// <a href="#IfStopped">IfStopped</a> (applied.Stopped stopped) P = P stopped
/// </pre>
///
/// <pre>
/// -- nothing was done
/// abbrev pub <b id="IsUnbegun">IsUnbegun</b> : SyncError → Type 0
/// <a href="#IsUnbegun">IsUnbegun</a> (applied.OtherWorld queues) = Unit {0}
/// <a href="#IsUnbegun">IsUnbegun</a> (applied.Memory queues) = Unit {0}
/// <a href="#IsUnbegun">IsUnbegun</a> (applied.Stopped stopped) = ⊥
/// </pre>
///
/// <pre>
/// -- each reason
/// abbrev pub <b id="IsOtherWorld">IsOtherWorld</b> : SyncError → Type 0
/// <a href="#IsOtherWorld">IsOtherWorld</a> (applied.OtherWorld queues) = Unit {0}
/// <a href="#IsOtherWorld">IsOtherWorld</a> (applied.Memory queues) = ⊥
/// <a href="#IsOtherWorld">IsOtherWorld</a> (applied.Stopped stopped) = ⊥
/// </pre>
///
/// <pre>
/// abbrev pub <b id="IsMemory">IsMemory</b> : SyncError → Type 0
/// <a href="#IsMemory">IsMemory</a> (applied.OtherWorld queues) = ⊥
/// <a href="#IsMemory">IsMemory</a> (applied.Memory queues) = Unit {0}
/// <a href="#IsMemory">IsMemory</a> (applied.Stopped stopped) = ⊥
/// </pre>
///
/// <pre>
/// -- How many entities were spawned since the last flush, before and after: none if it flushed, and
/// -- otherwise as many as before.
/// abbrev pub <b id="IsCounted">IsCounted</b> : <a href="../../logic/index.html#Result">Result</a> SyncReport SyncError → <a href="../../logic/index.html#ℕ">ℕ</a> → <a href="../../logic/index.html#ℕ">ℕ</a> → Type 0
/// <a href="#IsCounted">IsCounted</a> (<a href="../../logic/index.html#Ok">Ok</a> report) before after = after ≡ 0
/// <a href="#IsCounted">IsCounted</a> (<a href="../../logic/index.html#Err">Err</a> (applied.OtherWorld queues)) before after = after ≡ before
/// <a href="#IsCounted">IsCounted</a> (<a href="../../logic/index.html#Err">Err</a> (applied.Memory queues)) before after = after ≡ before
/// <a href="#IsCounted">IsCounted</a> (<a href="../../logic/index.html#Err">Err</a> (applied.Stopped stopped)) before after = after ≡ 0
/// </pre>
pub mod applying {}

#[doc(alias("IsSpawnRefused", "next_birth"))]
/// Entities that are spawned outside of phases.
///
/// <pre>
/// -- The birth of the entity that is spawned next: by no system, and it counts those that were spawned
/// -- before it since the last flush.
/// abbrev pub <b id="next_birth">next_birth</b> : World → Birth
/// <a href="#next_birth">next_birth</a> w = record { frame = w.world.phase; system = <a href="../../ent_world/sync/index.html#no_system">no_system</a>; ordinal = w.spawned }
/// </pre>
///
/// <pre>
/// -- When a spawn with that many components is refused, and why. It runs out of memory only if no slot
/// -- waits or there are components, and where no slot is left, only if there are more than four.
/// pub record <b id="IsSpawnRefused">IsSpawnRefused</b> (s : <a href="../../ent_alloc/sequential/index.html#Allocator">Allocator</a>) (components : <a href="../../logic/index.html#ℕ">ℕ</a>) (result : <a href="../../logic/index.html#Result">Result</a> <a href="../../ent_handle/handle/index.html#Handle">Handle</a> AllocFault)
///     : Type 0 where
///   pub needs_flush : <a href="../../logic/index.html#IsErrOf">IsErrOf</a> result fault.NeedsFlush ↔ (0 &lt; s.asked)
///   pub space : <a href="../../logic/index.html#IsErrOf">IsErrOf</a> result fault.Space → (s.asked ≡ 0) × (s.pool ≡ [])
///   pub full : (s.asked ≡ 0) × (s.pool ≡ [])
///       → <a href="../../logic/index.html#IsErrOf">IsErrOf</a> result fault.Space ⊎ (<a href="../../logic/index.html#IsErrOf">IsErrOf</a> result fault.Memory × (4 &lt; components))
///   pub memory : <a href="../../logic/index.html#IsErrOf">IsErrOf</a> result fault.Memory → (<a href="../../ent_alloc/sequential/index.html#top">top</a> s ≡ 0) ⊎ (0 &lt; components)
/// </pre>
pub mod spawning {}

#[doc(alias("IsMissing", "count_missing"))]
/// Why a phase was not closed.
///
/// <pre>
/// -- callers are missing
/// abbrev pub <b id="IsMissing">IsMissing</b> : CloseError → Type 0
/// <a href="#IsMissing">IsMissing</a> (Missing count) = Unit {0}
/// <a href="#IsMissing">IsMissing</a> OtherPhase = ⊥
/// <a href="#IsMissing">IsMissing</a> Order = ⊥
/// <a href="#IsMissing">IsMissing</a> InUse = ⊥
/// </pre>
///
/// <pre>
/// -- how many of them, if that is the error
/// abbrev pub <b id="count_missing">count_missing</b> : CloseError → <a href="../../logic/index.html#ℕ">ℕ</a>
/// <a href="#count_missing">count_missing</a> (Missing count) = count
/// <a href="#count_missing">count_missing</a> OtherPhase = 0
/// <a href="#count_missing">count_missing</a> Order = 0
/// <a href="#count_missing">count_missing</a> InUse = 0
/// </pre>
pub mod closing {}

#[doc(alias("AreOf", "MayReturn", "Phase", "Reserver", "all_returned", "reservers_of"))]
/// What contracts see of a phase and of its reservers, for any source.
///
/// <pre>
/// -- the number that distinguishes phases, the source, and the reservers that are returned
/// pub record <b id="Phase">Phase</b> (S R : Type 0) : Type 0 where
///   pub number : <a href="../../logic/index.html#ℕ">ℕ</a>
///   pub source : S
///   pub returned : <a href="../../logic/index.html#List">List</a> R
/// </pre>
///
/// <pre>
/// -- the number of its phase, the source that it reserves from, and what it reserves with
/// pub record <b id="Reserver">Reserver</b> (S R : Type 0) : Type 0 where
///   pub number : <a href="../../logic/index.html#ℕ">ℕ</a>
///   pub source : S
///   pub reserver : R
/// </pre>
///
/// <pre>
/// module _ {S R : Type 0} where
///   -- what these reservers reserve with
///   abbrev pub <b id="reservers_of">reservers_of</b> : <a href="../../logic/index.html#List">List</a> (<a href="#Reserver">Reserver</a> S R) → <a href="../../logic/index.html#List">List</a> R
///   <a href="#reservers_of">reservers_of</a> reservers = <a href="../../logic/index.html#map">map</a> (λ (r : <a href="#Reserver">Reserver</a> S R). r.reserver) reservers
/// </pre>
///
/// <pre>
///   -- all of them are of the phase of this number
///   abbrev pub <b id="AreOf">AreOf</b> : <a href="../../logic/index.html#ℕ">ℕ</a> → <a href="../../logic/index.html#List">List</a> (<a href="#Reserver">Reserver</a> S R) → Type 0
///   <a href="#AreOf">AreOf</a> number reservers = <a href="../../logic/index.html#All">All</a> (λ (r : <a href="#Reserver">Reserver</a> S R). r.number ≡ number) reservers
/// </pre>
///
/// <pre>
///   -- the reservers returned, and these behind them
///   abbrev pub <b id="all_returned">all_returned</b> : <a href="#Phase">Phase</a> S R → <a href="../../logic/index.html#List">List</a> (<a href="#Reserver">Reserver</a> S R) → <a href="../../logic/index.html#List">List</a> R
///   <a href="#all_returned">all_returned</a> p reservers = p.returned ++ <a href="#reservers_of">reservers_of</a> reservers
/// </pre>
///
/// <pre>
///   -- They are all of this phase, and with those returned no more than it has.
///   abbrev pub <b id="MayReturn">MayReturn</b> : <a href="../../logic/index.html#ℕ">ℕ</a> → <a href="#Phase">Phase</a> S R → <a href="../../logic/index.html#List">List</a> (<a href="#Reserver">Reserver</a> S R) → Type 0
///   <a href="#MayReturn">MayReturn</a> count p reservers =
///       <a href="#AreOf">AreOf</a> p.number reservers × (<a href="../../logic/index.html#length">length</a> (<a href="#all_returned">all_returned</a> p reservers) ≤ count)
/// </pre>
pub mod phases {}

#[doc(alias("Commands", "Extends", "IsRefused", "Issuer", "OpenWorld", "handle_in", "handles_in", "issued", "queue_of", "reserver_of", "shared_of", "view_of", "with_queue"))]
/// What contracts see of a world in a phase, and of its reservers, which issue commands in it.
///
/// <pre>
/// -- the world that is open, its number, and how many entities were spawned in it since the last flush
/// pub record <b id="OpenWorld">OpenWorld</b> : Type 0 where
///   pub world : <a href="../../ent_world/open_world/index.html#OpenWorld">Opened</a>
///   pub of_world : <a href="../../logic/index.html#ℕ">ℕ</a>
///   pub spawned : <a href="../../logic/index.html#ℕ">ℕ</a>
/// </pre>
///
/// <pre>
/// -- what a caller has: its right to reserve, and the commands that it has issued
/// abbrev pub <b id="Issuer">Issuer</b> : Type 0
/// <a href="#Issuer">Issuer</a> = <a href="../../ent_shared/phase/index.html#Reserver">SharedReserver</a> × <a href="../../logic/index.html#List">List</a> <a href="../../ent_queue/command/index.html#Command">Command</a>
/// </pre>
///
/// <pre>
/// -- a reserver of a world's phase
/// abbrev pub <b id="Commands">Commands</b> : Type 0
/// <a href="#Commands">Commands</a> = <a href="../phases/index.html#Reserver">Reserver</a> <a href="#OpenWorld">OpenWorld</a> <a href="#Issuer">Issuer</a>
/// </pre>
///
/// <pre>
/// -- the shared allocator of its world, its own right to reserve from it, and its commands so far
/// abbrev pub <b id="shared_of">shared_of</b> : <a href="#Commands">Commands</a> → <a href="../../ent_shared/phase/index.html#Shared">Shared</a>
/// <a href="#shared_of">shared_of</a> c = c.source.world.shared
/// </pre>
///
/// <pre>
/// abbrev pub <b id="reserver_of">reserver_of</b> : <a href="#Commands">Commands</a> → <a href="../../ent_shared/phase/index.html#Reserver">SharedReserver</a>
/// <a href="#reserver_of">reserver_of</a> c = c.reserver.0
/// </pre>
///
/// <pre>
/// abbrev pub <b id="queue_of">queue_of</b> : <a href="#Commands">Commands</a> → <a href="../../logic/index.html#List">List</a> <a href="../../ent_queue/command/index.html#Command">Command</a>
/// <a href="#queue_of">queue_of</a> c = c.reserver.1
/// </pre>
///
/// <pre>
/// -- the handles that a spawn returned
/// abbrev pub <b id="handle_in">handle_in</b> : {E : Type 0} → <a href="../../logic/index.html#Result">Result</a> <a href="../../ent_handle/handle/index.html#Handle">Handle</a> E → <a href="../../logic/index.html#List">List</a> <a href="../../ent_handle/handle/index.html#Handle">Handle</a>
/// <a href="#handle_in">handle_in</a> (<a href="../../logic/index.html#Ok">Ok</a> h) = h ∷ []
/// <a href="#handle_in">handle_in</a> (<a href="../../logic/index.html#Err">Err</a> why) = []
/// </pre>
///
/// <pre>
/// abbrev pub <b id="handles_in">handles_in</b> : {E : Type 0} → <a href="../../logic/index.html#Result">Result</a> (Vec <a href="../../ent_handle/handle/index.html#Handle">Handle</a> Global) E → <a href="../../logic/index.html#List">List</a> <a href="../../ent_handle/handle/index.html#Handle">Handle</a>
/// <a href="#handles_in">handles_in</a> (<a href="../../logic/index.html#Ok">Ok</a> hs) = hs.items
/// <a href="#handles_in">handles_in</a> (<a href="../../logic/index.html#Err">Err</a> why) = []
/// </pre>
///
/// <pre>
/// -- with these commands instead, or with one more
/// abbrev pub <b id="with_queue">with_queue</b> : <a href="#Commands">Commands</a> → <a href="../../logic/index.html#List">List</a> <a href="../../ent_queue/command/index.html#Command">Command</a> → <a href="#Commands">Commands</a>
/// <a href="#with_queue">with_queue</a> c queue = record c { reserver = (<a href="#reserver_of">reserver_of</a> c, queue) }
/// </pre>
///
/// <pre>
/// abbrev pub <b id="issued">issued</b> : <a href="#Commands">Commands</a> → <a href="../../ent_queue/command/index.html#Command">Command</a> → <a href="#Commands">Commands</a>
/// <a href="#issued">issued</a> c command = <a href="#with_queue">with_queue</a> c (<a href="#queue_of">queue_of</a> c ++ command ∷ [])
/// </pre>
///
/// <pre>
/// -- what systems see of the world
/// abbrev pub <b id="view_of">view_of</b> : <a href="#OpenWorld">OpenWorld</a> → <a href="../../ent_world/open_world/index.html#View">View</a>
/// <a href="#view_of">view_of</a> w = record { phase = w.world.phase; entities = w.world.entities }
/// </pre>
///
/// <pre>
/// -- Commands were added, and the reserver has gained their reservations and no others. Nothing else
/// -- has changed.
/// pub record <b id="Extends">Extends</b> (before after : <a href="#Commands">Commands</a>) : Type 0 where
///   pub number : after.number ≡ before.number
///   pub source : after.source ≡ before.source
///   pub ready : <a href="../../ent_shared/phase/index.html#IsOf">IsOf</a> (<a href="#shared_of">shared_of</a> after) (<a href="#reserver_of">reserver_of</a> after)
///   pub added : <a href="../../logic/index.html#List">List</a> <a href="../../ent_queue/command/index.html#Command">Command</a>
///   pub queue : <a href="#queue_of">queue_of</a> after ≡ <a href="#queue_of">queue_of</a> before ++ added
///   pub gains : <a href="../../ent_queue/reserving/index.html#Gains">Gains</a> (<a href="#reserver_of">reserver_of</a> before).own added (<a href="#reserver_of">reserver_of</a> after).own
/// </pre>
///
/// <pre>
/// -- A refusal is the result of a request for n handles, unless memory ran out before.
/// abbrev pub <b id="IsRefused">IsRefused</b> : <a href="../../ent_shared/phase/index.html#Shared">Shared</a> → <a href="../../ent_shared/phase/index.html#Reserver">SharedReserver</a> → <a href="../../ent_shared/phase/index.html#Reserver">SharedReserver</a> → <a href="../../logic/index.html#ℕ">ℕ</a> → ReserveError → Type 0
/// <a href="#IsRefused">IsRefused</a> shared before after n (fault.Space wanted left) =
///     <a href="../../ent_shared/replies/index.html#IsReturned">IsReturned</a> shared before after n (<a href="../../logic/index.html#Err">Err</a> (Space wanted left))
/// <a href="#IsRefused">IsRefused</a> shared before after n (fault.Quota left) =
///     <a href="../../ent_shared/replies/index.html#IsReturned">IsReturned</a> shared before after n (<a href="../../logic/index.html#Err">Err</a> (Quota left))
/// <a href="#IsRefused">IsRefused</a> shared before after n fault.Memory = Unit {0}
/// </pre>
pub mod issuing {}

#[doc(alias("Fills", "IfRefusal", "Lists", "Replies"))]
/// What a request returns, for any source.
///
/// <pre>
/// -- this is true of the refusal, if it is one of the source
/// abbrev pub <b id="IfRefusal">IfRefusal</b> : ReserveError → (Refused → Type 0) → Type 0
/// <a href="#IfRefusal">IfRefusal</a> (failed.Space wanted left) P = P (refused.Space wanted left)
/// <a href="#IfRefusal">IfRefusal</a> (failed.Quota left) P = P (refused.Quota left)
/// <a href="#IfRefusal">IfRefusal</a> failed.Memory P = ⊥
/// </pre>
///
/// <pre>
/// module _ {S R : Type 0} (may_reply : S → R → R → <a href="../../logic/index.html#ℕ">ℕ</a> → <a href="../../logic/index.html#Result">Result</a> (<a href="../../logic/index.html#List">List</a> <a href="../../ent_handle/handle/index.html#Handle">Handle</a>) Refused → Type 0) where
///   -- This is how the source replied to a request for n handles. Nothing has changed except what the
///   -- reserver reserves with.
///   pub record <b id="Replies">Replies</b> (before after : <a href="../phases/index.html#Reserver">Reserver</a> S R) (n : <a href="../../logic/index.html#ℕ">ℕ</a>) (reply : <a href="../../logic/index.html#Result">Result</a> (<a href="../../logic/index.html#List">List</a> <a href="../../ent_handle/handle/index.html#Handle">Handle</a>) Refused)
///       : Type 0 where
///     pub same : after ≡ record before { reserver = after.reserver }
///     pub replied : may_reply before.source before.reserver after.reserver n reply
/// </pre>
///
/// <pre>
///   -- That many handles were reserved, and the list has them after those that it had before.
///   pub record <b id="Lists">Lists</b> (before after : <a href="../phases/index.html#Reserver">Reserver</a> S R) (n : <a href="../../logic/index.html#ℕ">ℕ</a>) (old new : <a href="../../logic/index.html#List">List</a> <a href="../../ent_handle/handle/index.html#Handle">Handle</a>) : Type 0 where
///     pub given : <a href="../../logic/index.html#List">List</a> <a href="../../ent_handle/handle/index.html#Handle">Handle</a>
///     pub behind : new ≡ old ++ given
///     pub many : <a href="../../logic/index.html#length">length</a> given ≡ n
///     pub replies : <a href="#Replies">Replies</a> before after n (<a href="../../logic/index.html#Ok">Ok</a> given)
/// </pre>
///
/// <pre>
///   -- A log was filled from nothing on. Its spawns are the requests that were made with the reserver,
///   -- one after the other, and nothing has changed except what the reserver reserves with.
///   pub record <b id="Fills">Fills</b> {C : Type 0} (before after : <a href="../phases/index.html#Reserver">Reserver</a> S R) (log : <a href="../../logic/index.html#List">List</a> (Entry C)) : Type 0 where
///     pub same : after ≡ record before { reserver = after.reserver }
///     pub served : <a href="../../ent_alloc/serving/index.html#AreServed">AreServed</a> (may_reply before.source) before.reserver (flat_map <a href="../../ent_queue/logging/index.html#request_of">request_of</a> log)
///         after.reserver
/// </pre>
pub mod reserving {}

#[doc(alias())]
/// The image of a world of the package: that of its world, and how many entities `spawn` made since the last flush.
///
/// <pre>
/// -- the image of the world, and the number in four bytes
/// abbrev pub <b id="image">image</b> : <a href="../../ent_world/world/index.html#World">World</a> → <a href="../../logic/index.html#ℕ">ℕ</a> → <a href="../../logic/index.html#List">List</a> <a href="../../logic/index.html#ℕ">ℕ</a>
/// <a href="#image">image</a> w spawned = <a href="../../ent_world/image/index.html#image">world_image</a> w ++ <a href="../../ent_handle/bytes/index.html#word">word</a> spawned
/// </pre>
pub mod image {}

#[doc(alias("InWorld", "view_in"))]
/// What contracts see of a world in a phase, and of one whose phase has ended.
///
/// <pre>
/// -- what serves the reservers, the rest of the world, by which number queues know it, and how many
/// -- entities were spawned since the last flush
/// pub record <b id="InWorld">InWorld</b> (S : Type 0) : Type 0 where
///   pub source : S
///   pub rest : <a href="../../ent_world/in_blocks/index.html#WorldRest">WorldRest</a>
///   pub of_world : <a href="../../logic/index.html#ℕ">ℕ</a>
///   pub spawned : <a href="../../logic/index.html#ℕ">ℕ</a>
/// </pre>
///
/// <pre>
/// -- what systems see of the world
/// abbrev pub <b id="view_in">view_in</b> : {S : Type 0} → <a href="#InWorld">InWorld</a> S → <a href="../../ent_world/open_world/index.html#View">View</a>
/// <a href="#view_in">view_in</a> w = record { phase = w.rest.phase; entities = w.rest.store.entities }
/// </pre>
pub mod in_world {}

#[doc(alias("AreLent", "lent_out", "returned"))]
/// Reservers of blocks that are lent to a run of systems.
///
/// <pre>
/// module _ {S : Type 0} where
///   -- while its block is away
///   abbrev pub <b id="lent_out">lent_out</b> : <a href="../phases/index.html#Reserver">Reserver</a> S <a href="../../ent_blocks/blocks/index.html#Reserver">BlockReserver</a> → <a href="../phases/index.html#Reserver">Reserver</a> S <a href="../../ent_blocks/blocks/index.html#Reserver">BlockReserver</a>
///   <a href="#lent_out">lent_out</a> r = record r { reserver = <a href="../../ent_blocks/blocks/index.html#used_up">used_up</a> r.reserver }
/// </pre>
///
/// <pre>
///   -- The first ones have these to reserve with, in their order.
///   abbrev pub <b id="returned">returned</b> : <a href="../../logic/index.html#List">List</a> (<a href="../phases/index.html#Reserver">Reserver</a> S <a href="../../ent_blocks/blocks/index.html#Reserver">BlockReserver</a>) → <a href="../../logic/index.html#List">List</a> <a href="../../ent_blocks/blocks/index.html#Reserver">BlockReserver</a>
///       → <a href="../../logic/index.html#List">List</a> (<a href="../phases/index.html#Reserver">Reserver</a> S <a href="../../ent_blocks/blocks/index.html#Reserver">BlockReserver</a>)
///   <a href="#returned">returned</a> reservers [] = reservers
///   <a href="#returned">returned</a> [] (b ∷ back) = []
///   <a href="#returned">returned</a> (r ∷ reservers) (b ∷ back) = record r { reserver = b } ∷ <a href="#returned">returned</a> reservers back
/// </pre>
///
/// <pre>
///   -- A run of systems was lent what these reserve with, and they are the same reservers. They got it
///   -- back if all systems ran, with what these used, and as it was if none ran. What they have is
///   -- used up if the systems were broken off.
///   pub record <b id="AreLent">AreLent</b> {X E : Type 0} (before after : <a href="../../logic/index.html#List">List</a> (<a href="../phases/index.html#Reserver">Reserver</a> S <a href="../../ent_blocks/blocks/index.html#Reserver">BlockReserver</a>))
///       (result : <a href="../../logic/index.html#Result">Result</a> X (RunError E)) : Type 0 where
///     pub same : after ≡ <a href="#returned">returned</a> before (<a href="../phases/index.html#reservers_of">reservers_of</a> after)
///     pub as_they_were : <a href="../../logic/index.html#IfErr">IfErr</a> result (<a href="../../ent_runner/run_errors/index.html#IfNotLost">IfNotLost</a> (after ≡ before))
///     pub <a href="../../ent_blocks/blocks/index.html#used_up">used_up</a> : <a href="../../logic/index.html#IfErr">IfErr</a> result (<a href="../../ent_runner/run_errors/index.html#IfLost">IfLost</a> (λ _. after ≡ <a href="../../logic/index.html#map">map</a> <a href="#lent_out">lent_out</a> before))
/// </pre>
pub mod lending {}
