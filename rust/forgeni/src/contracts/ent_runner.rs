// Made of crates/ent_runner/specs by .ci/contracts.py. It isn't edited by hand.

//! The definitions of crate `ent_runner`, in the order in which one reads them:
//! [`runs`], [`filling`], [`frame`], [`logs`], [`blocks`], [`blocks_refusing`], [`run_errors`].

#[doc(alias("AreRun", "HasReturned", "StopShort", "first_some"))]
/// Which systems workers have run, and how far the systems came if they were broken off.
///
/// <pre>
/// -- For each worker the systems that it ran, in ascending order of number: together they are the
/// -- first ones, each once.
/// pub record <b id="AreRun">AreRun</b> (workers count : <a href="../../logic/index.html#ℕ">ℕ</a>) (ran : <a href="../../logic/index.html#List">List</a> (<a href="../../logic/index.html#List">List</a> <a href="../../logic/index.html#ℕ">ℕ</a>)) : Type 0 where
///   pub each_worker : <a href="../../logic/index.html#length">length</a> ran ≡ workers
///   pub once : IsPermutation (flat_map (λ mine. mine) ran) (range_with_len 0 count)
///   pub rising : <a href="../../logic/index.html#All">All</a> (<a href="../../logic/index.html#AllPairs">AllPairs</a> (λ m n. m &lt; n)) ran
/// </pre>
///
/// <pre>
/// -- the first of these that there is
/// abbrev pub <b id="first_some">first_some</b> : {X : Type 0} → <a href="../../logic/index.html#List">List</a> (<a href="../../logic/index.html#Option">Option</a> X) → <a href="../../logic/index.html#Option">Option</a> X
/// <a href="#first_some">first_some</a> [] = <a href="../../logic/index.html#None">None</a>
/// <a href="#first_some">first_some</a> (<a href="../../logic/index.html#None">None</a> ∷ more) = <a href="#first_some">first_some</a> more
/// <a href="#first_some">first_some</a> (<a href="../../logic/index.html#Some">Some</a> x ∷ more) = <a href="../../logic/index.html#Some">Some</a> x
///
/// module _ {O E : Type 0} (may : <a href="../../logic/index.html#ℕ">ℕ</a> → O → Type 0) (leave : <a href="../../logic/index.html#ℕ">ℕ</a> → O → E → Type 0) (outputs : <a href="../../logic/index.html#List">List</a> O)
///     (empty : O)
///     (errors : <a href="../../logic/index.html#List">List</a> (<a href="../../logic/index.html#Option">Option</a> E)) where
///   -- what the system of this number had added when it ended or stopped
///   abbrev of_system : <a href="../../logic/index.html#ℕ">ℕ</a> → O
///   of_system system = slice_index_or outputs system empty
///
///   -- the error that it returned, if it did
///   abbrev error_of : <a href="../../logic/index.html#ℕ">ℕ</a> → <a href="../../logic/index.html#Option">Option</a> E
///   error_of system = slice_index_or errors system <a href="../../logic/index.html#None">None</a>
/// </pre>
///
/// <pre>
/// module _ {O E : Type 0} (may : <a href="../../logic/index.html#ℕ">ℕ</a> → O → Type 0) (leave : <a href="../../logic/index.html#ℕ">ℕ</a> → O → E → Type 0) (outputs : <a href="../../logic/index.html#List">List</a> O)
///     (empty : O)
///     (errors : <a href="../../logic/index.html#List">List</a> (<a href="../../logic/index.html#Option">Option</a> E)) where
/// </pre>
///
/// <pre>
///   -- It ended as it may, or returned this error and left its output so.
///   abbrev pub <b id="HasReturned">HasReturned</b> : <a href="../../logic/index.html#ℕ">ℕ</a> → <a href="../../logic/index.html#Option">Option</a> E → Type 0
///   <a href="#HasReturned">HasReturned</a> n <a href="../../logic/index.html#None">None</a> = may n (of_system n)
///   <a href="#HasReturned">HasReturned</a> n (<a href="../../logic/index.html#Some">Some</a> error) = leave n (of_system n) error
/// </pre>
///
/// <pre>
///   -- The workers have run the first ones of that many systems, at least one if there are any, and
///   -- stopped. With this error, if there is one.
///   pub record <b id="StopShort">StopShort</b> (systems count : <a href="../../logic/index.html#ℕ">ℕ</a>) (ran : <a href="../../logic/index.html#List">List</a> (<a href="../../logic/index.html#List">List</a> <a href="../../logic/index.html#ℕ">ℕ</a>)) (error : <a href="../../logic/index.html#Option">Option</a> E) : Type 0 where
///     pub within : count ≤ systems
///     pub some : 0 &lt; systems → 0 &lt; count
///     pub each_output : <a href="../../logic/index.html#length">length</a> outputs ≡ count
///     pub each_error : <a href="../../logic/index.html#length">length</a> errors ≡ count
///     pub each_system : (n : <a href="../../logic/index.html#ℕ">ℕ</a>) → n &lt; count → <a href="#HasReturned">HasReturned</a> n (error_of n)
///     -- A worker ran a system after another one only if that one had returned no error.
///     pub ended : (worker : <a href="../../logic/index.html#ℕ">ℕ</a>) (mine : <a href="../../logic/index.html#List">List</a> <a href="../../logic/index.html#ℕ">ℕ</a>) → <a href="../../logic/index.html#slice_get">slice_get</a> ran worker ≡ <a href="../../logic/index.html#Some">Some</a> mine
///         → <a href="../../logic/index.html#AllPairs">AllPairs</a> (λ earlier later. error_of earlier ≡ <a href="../../logic/index.html#None">None</a>) mine
///     -- The error is the first one in the order of the systems. Without one, some are left that no
///     -- worker has room for. If some are left, each worker has run at least one, for whose output it
///     -- had room from the beginning.
///     pub first : error ≡ <a href="#first_some">first_some</a> errors
///     pub left : error ≡ <a href="../../logic/index.html#None">None</a> → count &lt; systems
///     pub busy : count &lt; systems → <a href="../../logic/index.html#All">All</a> (λ mine. 0 &lt; <a href="../../logic/index.html#length">length</a> mine) ran
/// </pre>
pub mod runs {}

#[doc(alias("IsFilled"))]
/// What one system of a run has filled, with a reserver that was lent to it.
///
/// <pre>
/// module _ {O : Type 0} (Adds : O → <a href="../../logic/index.html#List">List</a> <a href="../../ent_alloc/serving/index.html#Request">Request</a> → O → Type 0) (empty : O) where
///   -- The output was filled from nothing on. The reserver has made exactly the requests that the
///   -- output represents, and was `before` first and is `after` now.
///   pub record <b id="IsFilled">IsFilled</b> {R : Type 0} (may : <a href="../../ent_alloc/serving/index.html#Replying">Replying</a> R) (before : R) (output : O) (after : R)
///       : Type 0 where
///     pub requests : <a href="../../logic/index.html#List">List</a> <a href="../../ent_alloc/serving/index.html#Request">Request</a>
///     pub adds : Adds empty requests output
///     pub served : <a href="../../ent_alloc/serving/index.html#AreServed">AreServed</a> may before requests after
/// </pre>
pub mod filling {}

#[doc(alias("SystemMayIssue", "SystemMayLeave"))]
/// A frame: systems run on workers over one shared world, each with a queue of its own, and the sync point applies the queues in the order of the systems.
///
/// <pre>
/// -- the system of this number may issue the commands
/// abbrev pub <b id="SystemMayIssue">SystemMayIssue</b> : {S : Type 0} → (S → <a href="../../ent_world/open_world/index.html#View">View</a> → <a href="../../logic/index.html#List">List</a> <a href="../../ent_queue/command/index.html#Command">Command</a> → Type 0) → <a href="../../logic/index.html#List">List</a> S → <a href="../../ent_world/open_world/index.html#View">View</a> → <a href="../../logic/index.html#ℕ">ℕ</a>
///     → <a href="../../logic/index.html#List">List</a> <a href="../../ent_queue/command/index.html#Command">Command</a> → Type 0
/// <a href="#SystemMayIssue">SystemMayIssue</a> {S} may systems view n queue =
///     (system : S) → <a href="../../logic/index.html#slice_get">slice_get</a> systems n ≡ <a href="../../logic/index.html#Some">Some</a> system → may system view queue
/// </pre>
///
/// <pre>
/// -- it may leave the commands, and return this error
/// abbrev pub <b id="SystemMayLeave">SystemMayLeave</b> : {S E : Type 0} → (S → <a href="../../ent_world/open_world/index.html#View">View</a> → <a href="../../logic/index.html#List">List</a> <a href="../../ent_queue/command/index.html#Command">Command</a> → E → Type 0) → <a href="../../logic/index.html#List">List</a> S → <a href="../../ent_world/open_world/index.html#View">View</a>
///     → <a href="../../logic/index.html#ℕ">ℕ</a> → <a href="../../logic/index.html#List">List</a> <a href="../../ent_queue/command/index.html#Command">Command</a> → E → Type 0
/// <a href="#SystemMayLeave">SystemMayLeave</a> leave systems view n queue error =
///     <a href="#SystemMayIssue">SystemMayIssue</a> (λ system view queue. leave system view queue error) systems view n queue
/// </pre>
pub mod frame {}

#[doc(alias("SystemMayLeave", "SystemMayLog"))]
/// Systems that fill logs: they run on workers, each with a log of its own, over one shared allocator.
///
/// <pre>
/// module _ {C : Type 0} where
/// </pre>
///
/// <pre>
///   -- the system of this number may enter this in its log
///   abbrev pub <b id="SystemMayLog">SystemMayLog</b> : {S : Type 0} → (S → <a href="../../logic/index.html#List">List</a> (Entry C) → Type 0) → <a href="../../logic/index.html#List">List</a> S → <a href="../../logic/index.html#ℕ">ℕ</a>
///       → <a href="../../logic/index.html#List">List</a> (Entry C) → Type 0
///   <a href="#SystemMayLog">SystemMayLog</a> {S} may systems n log =
///       (system : S) → <a href="../../logic/index.html#slice_get">slice_get</a> systems n ≡ <a href="../../logic/index.html#Some">Some</a> system → may system log
/// </pre>
///
/// <pre>
///   -- it may leave this in its log, and return this error
///   abbrev pub <b id="SystemMayLeave">SystemMayLeave</b> : {S E : Type 0} → (S → <a href="../../logic/index.html#List">List</a> (Entry C) → E → Type 0) → <a href="../../logic/index.html#List">List</a> S → <a href="../../logic/index.html#ℕ">ℕ</a>
///       → <a href="../../logic/index.html#List">List</a> (Entry C) → E → Type 0
///   <a href="#SystemMayLeave">SystemMayLeave</a> leave systems n log error =
///       <a href="#SystemMayLog">SystemMayLog</a> (λ system log. leave system log error) systems n log
/// </pre>
pub mod logs {}

#[doc(alias("HaveFilled", "IsBrokenOff"))]
/// Systems that fill outputs, each with handles of a block of its own. What comes of it depends on the blocks and on the systems alone: there is no history. Workers appear only in how far the systems came if they were broken off.
///
/// <pre>
/// module _ {O : Type 0} (Adds : O → <a href="../../logic/index.html#List">List</a> <a href="../../ent_alloc/serving/index.html#Request">Request</a> → O → Type 0) (empty : O) (phase : <a href="../../ent_blocks/blocks/index.html#Blocks">Blocks</a>)
///     (may : <a href="../../logic/index.html#ℕ">ℕ</a> → O → Type 0) where
///   -- All systems have run, and each has an output that it may fill so. The block at the system's
///   -- place served the requests that the output represents, one after the other, and no others: so
///   -- they got its next handles, or were refused since fewer were left.
///   pub record <b id="HaveFilled">HaveFilled</b> (systems : <a href="../../logic/index.html#ℕ">ℕ</a>) (before : <a href="../../logic/index.html#List">List</a> <a href="../../ent_blocks/blocks/index.html#Reserver">Reserver</a>) (outputs : <a href="../../logic/index.html#List">List</a> O)
///       (after : <a href="../../logic/index.html#List">List</a> <a href="../../ent_blocks/blocks/index.html#Reserver">Reserver</a>) : Type 0 where
///     pub each_before : <a href="../../logic/index.html#length">length</a> before ≡ systems
///     pub each_output : <a href="../../logic/index.html#length">length</a> outputs ≡ systems
///     pub each_after : <a href="../../logic/index.html#length">length</a> after ≡ systems
///     pub each_system : (n : <a href="../../logic/index.html#ℕ">ℕ</a>) (output : O) → <a href="../../logic/index.html#slice_get">slice_get</a> outputs n ≡ <a href="../../logic/index.html#Some">Some</a> output → may n output
///     pub each_block : (n : <a href="../../logic/index.html#ℕ">ℕ</a>) (first : <a href="../../ent_blocks/blocks/index.html#Reserver">Reserver</a>) (output : O) (last : <a href="../../ent_blocks/blocks/index.html#Reserver">Reserver</a>)
///         → <a href="../../logic/index.html#slice_get">slice_get</a> before n ≡ <a href="../../logic/index.html#Some">Some</a> first → <a href="../../logic/index.html#slice_get">slice_get</a> outputs n ≡ <a href="../../logic/index.html#Some">Some</a> output
///         → <a href="../../logic/index.html#slice_get">slice_get</a> after n ≡ <a href="../../logic/index.html#Some">Some</a> last → <a href="../filling/index.html#IsFilled">IsFilled</a> Adds empty (<a href="../../ent_blocks/drawing/index.html#IsDrawn">IsDrawn</a> phase) first output last
/// </pre>
///
/// <pre>
///   -- That many workers have run some of the systems, and stopped, with this error if one of them
///   -- returned one.
///   pub record <b id="IsBrokenOff">IsBrokenOff</b> {E : Type 0} (leave : <a href="../../logic/index.html#ℕ">ℕ</a> → O → E → Type 0) (systems workers : <a href="../../logic/index.html#ℕ">ℕ</a>)
///       (before : <a href="../../logic/index.html#List">List</a> <a href="../../ent_blocks/blocks/index.html#Reserver">Reserver</a>) (error : <a href="../../logic/index.html#Option">Option</a> E) : Type 0 where
///     -- for each worker the systems that it ran
///     pub ran : <a href="../../logic/index.html#List">List</a> (<a href="../../logic/index.html#List">List</a> <a href="../../logic/index.html#ℕ">ℕ</a>)
///     pub count : <a href="../../logic/index.html#ℕ">ℕ</a>
///     pub run : <a href="../runs/index.html#AreRun">AreRun</a> workers count ran
///     -- what each of them had filled when it ended or stopped
///     pub outputs : <a href="../../logic/index.html#List">List</a> O
///     -- the error that each of them returned, if it did
///     pub errors : <a href="../../logic/index.html#List">List</a> (<a href="../../logic/index.html#Option">Option</a> E)
///     pub short : <a href="../runs/index.html#StopShort">StopShort</a> may leave outputs empty errors systems count ran error
///     pub each_block : (n : <a href="../../logic/index.html#ℕ">ℕ</a>) (first : <a href="../../ent_blocks/blocks/index.html#Reserver">Reserver</a>) (output : O) → <a href="../../logic/index.html#slice_get">slice_get</a> before n ≡ <a href="../../logic/index.html#Some">Some</a> first
///         → <a href="../../logic/index.html#slice_get">slice_get</a> outputs n ≡ <a href="../../logic/index.html#Some">Some</a> output
///         → (last : <a href="../../ent_blocks/blocks/index.html#Reserver">Reserver</a>) × <a href="../filling/index.html#IsFilled">IsFilled</a> Adds empty (<a href="../../ent_blocks/drawing/index.html#IsDrawn">IsDrawn</a> phase) first output last
/// </pre>
pub mod blocks {}

#[doc(alias("IsRefused"))]
/// When systems in blocks are refused before any of them runs, as one fact.
///
/// <pre>
/// -- That many systems run on that many workers, with so many reservers, which are of the phase if
/// -- that is so. The run is refused for an error if this holds of it.
/// pub record <b id="IsRefused">IsRefused</b> {E : Type 0} (workers systems reservers : <a href="../../logic/index.html#ℕ">ℕ</a>) (AreOf : Type 0)
///     (refuses : RunError E → Type 0) : Type 0 where
///   pub workers_are : refuses failed.Workers ↔ ((workers ≡ 0) ⊎ (64 &lt; workers))
///   pub systems_are : refuses failed.Systems
///       ↔ ((0 &lt; workers) × (workers ≤ 64) × (2 ^ 16 &lt; systems))
///   pub reservers_are : refuses failed.Reservers
///       ↔ ((0 &lt; workers) × (workers ≤ 64) × (systems ≤ 2 ^ 16) × (reservers ≢ systems))
///   pub other_phase : refuses failed.OtherPhase
///       ↔ ((0 &lt; workers) × (workers ≤ 64) × (systems ≤ 2 ^ 16) × (reservers ≡ systems)
///       × ¬ AreOf)
///   pub memory_some : refuses failed.Memory → 0 &lt; systems
///   pub not_needs_flush : ¬ refuses failed.NeedsFlush
///   pub not_unborn : ¬ refuses failed.Unborn
/// </pre>
pub mod blocks_refusing {}

#[doc(alias("IfLost", "IfNotLost"))]
/// How a run of systems fails.
///
/// <pre>
/// -- what holds if the systems were broken off, with this error if there is one
/// abbrev pub <b id="IfLost">IfLost</b> : {E : Type 0} → (<a href="../../logic/index.html#Option">Option</a> E → Type 0) → RunError E → Type 0
/// <a href="#IfLost">IfLost</a> P (failed.Lost error) = P error
/// <a href="#IfLost">IfLost</a> P _ = Unit {0}
/// </pre>
///
/// <pre>
/// -- what holds of another error
/// abbrev pub <b id="IfNotLost">IfNotLost</b> : {E : Type 0} → Type 0 → RunError E → Type 0
/// <a href="#IfNotLost">IfNotLost</a> P (failed.Lost error) = Unit {0}
/// <a href="#IfNotLost">IfNotLost</a> P _ = P
/// </pre>
pub mod run_errors {}
