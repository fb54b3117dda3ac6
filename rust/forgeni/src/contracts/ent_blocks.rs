// Made of crates/ent_blocks/specs by .ci/contracts.py. It isn't edited by hand.

//! The definitions of crate `ent_blocks`, in the order in which one reads them:
//! [`blocks`], [`drawing`], [`ending`].

#[doc(alias("Block", "Blocks", "Reserver", "after_blocks", "after_refusal", "after_use", "blocks_from", "dealt", "handles_of", "lesser", "portion_of", "portions_of", "rest_of", "used_of", "used_up"))]
/// Handles in blocks: the front of the pool is dealt to callers, and each gets the handles of its own block, in the pool\'s order, whatever the others do.
///
/// <pre>
/// -- A block of the pool: how many handles come before it, how many it has, and how many of them were
/// -- used.
/// pub record <b id="Block">Block</b> : Type 0 where
///   pub before : <a href="../../logic/index.html#ℕ">ℕ</a>
///   pub size : <a href="../../logic/index.html#ℕ">ℕ</a>
///   pub used : <a href="../../logic/index.html#ℕ">ℕ</a>
/// </pre>
///
/// <pre>
/// -- its handles, those that were used, and the rest
/// abbrev pub <b id="handles_of">handles_of</b> : <a href="../../logic/index.html#List">List</a> <a href="../../ent_handle/handle/index.html#Handle">Handle</a> → <a href="#Block">Block</a> → <a href="../../logic/index.html#List">List</a> <a href="../../ent_handle/handle/index.html#Handle">Handle</a>
/// <a href="#handles_of">handles_of</a> pool b = <a href="../../logic/index.html#take">take</a> b.size (<a href="../../logic/index.html#drop">drop</a> b.before pool)
/// </pre>
///
/// <pre>
/// abbrev pub <b id="used_of">used_of</b> : <a href="../../logic/index.html#List">List</a> <a href="../../ent_handle/handle/index.html#Handle">Handle</a> → <a href="#Block">Block</a> → <a href="../../logic/index.html#List">List</a> <a href="../../ent_handle/handle/index.html#Handle">Handle</a>
/// <a href="#used_of">used_of</a> pool b = <a href="../../logic/index.html#take">take</a> b.used (<a href="#handles_of">handles_of</a> pool b)
/// </pre>
///
/// <pre>
/// abbrev pub <b id="rest_of">rest_of</b> : <a href="../../logic/index.html#List">List</a> <a href="../../ent_handle/handle/index.html#Handle">Handle</a> → <a href="#Block">Block</a> → <a href="../../logic/index.html#List">List</a> <a href="../../ent_handle/handle/index.html#Handle">Handle</a>
/// <a href="#rest_of">rest_of</a> pool b = <a href="../../logic/index.html#drop">drop</a> b.used (<a href="#handles_of">handles_of</a> pool b)
/// </pre>
///
/// <pre>
/// -- how many handles the blocks have in all
/// abbrev pub <b id="dealt">dealt</b> : <a href="../../logic/index.html#List">List</a> <a href="#Block">Block</a> → <a href="../../logic/index.html#ℕ">ℕ</a>
/// <a href="#dealt">dealt</a> [] = 0
/// <a href="#dealt">dealt</a> (b ∷ blocks) = b.size + <a href="#dealt">dealt</a> blocks
/// </pre>
///
/// <pre>
/// -- Opening: a block for each size, one after the other from the pool's front, smaller where the pool
/// -- ends.
/// abbrev pub <b id="lesser">lesser</b> : <a href="../../logic/index.html#ℕ">ℕ</a> → <a href="../../logic/index.html#ℕ">ℕ</a> → <a href="../../logic/index.html#ℕ">ℕ</a>
/// <a href="#lesser">lesser</a> n left = if nat_le n left then n else left
/// </pre>
///
/// <pre>
/// abbrev pub <b id="blocks_from">blocks_from</b> : <a href="../../logic/index.html#ℕ">ℕ</a> → <a href="../../logic/index.html#ℕ">ℕ</a> → <a href="../../logic/index.html#List">List</a> <a href="../../logic/index.html#ℕ">ℕ</a> → <a href="../../logic/index.html#List">List</a> <a href="#Block">Block</a>
/// <a href="#blocks_from">blocks_from</a> before left [] = []
/// <a href="#blocks_from">blocks_from</a> before left (n ∷ sizes) =
///     record { before = before; size = <a href="#lesser">lesser</a> n left; used = 0 }
///     ∷ <a href="#blocks_from">blocks_from</a> (before + <a href="#lesser">lesser</a> n left) (left - <a href="#lesser">lesser</a> n left) sizes
/// </pre>
///
/// <pre>
/// -- the blocks as portions of the pool's front, one after the other
/// abbrev pub <b id="portion_of">portion_of</b> : <a href="#Block">Block</a> → Portion
/// <a href="#portion_of">portion_of</a> b = record { size = b.size; used = b.used }
/// </pre>
///
/// <pre>
/// abbrev pub <b id="portions_of">portions_of</b> : <a href="../../logic/index.html#List">List</a> <a href="#Block">Block</a> → <a href="../../logic/index.html#List">List</a> Portion
/// <a href="#portions_of">portions_of</a> = <a href="../../logic/index.html#map">map</a> <a href="#portion_of">portion_of</a>
/// </pre>
///
/// <pre>
/// -- Closing: what was used of the blocks is taken, in the order of the callers. The pool is what is
/// -- left of the blocks, followed by what was not dealt, in its own order. If something is left before
/// -- the last handle that was used, the slots up to that handle are made. So a fresh slot among them
/// -- that wasn't used waits, with generation 1.
/// abbrev pub <b id="after_blocks">after_blocks</b> : <a href="../../ent_alloc/sequential/index.html#Allocator">Allocator</a> → <a href="../../logic/index.html#List">List</a> <a href="#Block">Block</a> → <a href="../../ent_alloc/sequential/index.html#Allocator">Allocator</a>
/// <a href="#after_blocks">after_blocks</a> s blocks = record s {
///   taken = flat_map (<a href="#used_of">used_of</a> s.pool) blocks;
///   pool = flat_map (<a href="#rest_of">rest_of</a> s.pool) blocks ++ <a href="../../logic/index.html#drop">drop</a> (<a href="#dealt">dealt</a> blocks) s.pool;
///   made = s.made + <a href="../../ent_alloc/portions/index.html#made_for">made_for</a> s (<a href="#portions_of">portions_of</a> blocks);
///   asked = <a href="../../logic/index.html#length">length</a> (flat_map (<a href="#used_of">used_of</a> s.pool) blocks);
/// }
/// </pre>
///
/// <pre>
/// -- after that many more were used
/// abbrev pub <b id="after_use">after_use</b> : <a href="#Block">Block</a> → <a href="../../logic/index.html#ℕ">ℕ</a> → <a href="#Block">Block</a>
/// <a href="#after_use">after_use</a> b n = record b { used = b.used + n }
/// </pre>
///
/// <pre>
/// -- the allocator as it was when the phase was opened, the rows that are kept with its living
/// -- handles, and the blocks as they were dealt
/// pub record <b id="Blocks">Blocks</b> : Type 0 where
///   pub start : <a href="../../ent_alloc/sequential/index.html#Allocator">Allocator</a>
///   pub rows : <a href="../../logic/index.html#FinMap.FinMap">maps.FinMap</a> <a href="../../ent_handle/handle/index.html#handle_cmp">handle_cmp</a> <a href="../../logic/index.html#ℕ">ℕ</a>
///   pub blocks : <a href="../../logic/index.html#List">List</a> <a href="#Block">Block</a>
/// </pre>
///
/// <pre>
/// -- the block of a reserver, and how many handles the largest of its refused requests was for
/// pub record <b id="Reserver">Reserver</b> : Type 0 where
///   pub block : <a href="#Block">Block</a>
///   pub refused : <a href="../../logic/index.html#ℕ">ℕ</a>
/// </pre>
///
/// <pre>
/// -- after a request for that many, which the block didn't have
/// abbrev pub <b id="after_refusal">after_refusal</b> : <a href="#Reserver">Reserver</a> → <a href="../../logic/index.html#ℕ">ℕ</a> → <a href="#Reserver">Reserver</a>
/// <a href="#after_refusal">after_refusal</a> r n = record r { refused = <a href="../../logic/index.html#max">max</a> r.refused n }
/// </pre>
///
/// <pre>
/// -- nothing is left of its block
/// abbrev pub <b id="used_up">used_up</b> : <a href="#Reserver">Reserver</a> → <a href="#Reserver">Reserver</a>
/// <a href="#used_up">used_up</a> r = record r { block = record r.block { used = r.block.size } }
/// </pre>
pub mod blocks {}

#[doc(alias("IsDrawn", "left_of"))]
/// What a request for handles of a block returns, and what it leaves.
///
/// <pre>
/// -- how many handles of a block are left
/// abbrev pub <b id="left_of">left_of</b> : <a href="../blocks/index.html#Block">Block</a> → <a href="../../logic/index.html#ℕ">ℕ</a>
/// <a href="#left_of">left_of</a> b = b.size - b.used
/// </pre>
///
/// <pre>
/// -- The reply to a request for n handles of a block: the next ones, listed as every reply lists them.
/// -- If fewer are left, there are none, and the reserver remembers how many were requested.
/// pub record <b id="IsDrawn">IsDrawn</b> (phase : <a href="../blocks/index.html#Blocks">Blocks</a>) (before after : <a href="../blocks/index.html#Reserver">Reserver</a>) (n : <a href="../../logic/index.html#ℕ">ℕ</a>)
///     (reply : <a href="../../logic/index.html#Result">Result</a> (<a href="../../logic/index.html#List">List</a> <a href="../../ent_handle/handle/index.html#Handle">Handle</a>) Refused) : Type 0 where
///   pub given : <a href="../../logic/index.html#IfOk">IfOk</a> reply (λ handles. handles
///       ≡ <a href="../../ent_alloc/sequential/index.html#listed">listed</a> phase.start.made (<a href="../../logic/index.html#take">take</a> n (<a href="../blocks/index.html#rest_of">rest_of</a> phase.start.pool before.block)))
///   pub number : <a href="../../logic/index.html#IfOk">IfOk</a> reply (λ handles. <a href="../../logic/index.html#length">length</a> handles ≡ n)
///   pub used : <a href="../../logic/index.html#OnOk">OnOk</a> reply (after ≡ record before { block = <a href="../blocks/index.html#after_use">after_use</a> before.block n })
///   pub refused : <a href="../../logic/index.html#IfErr">IfErr</a> reply (λ why.
///       (why ≡ Space n (<a href="#left_of">left_of</a> before.block)) × (<a href="#left_of">left_of</a> before.block &lt; n))
///   pub within : <a href="../../logic/index.html#OnErr">OnErr</a> reply (before.block.used ≤ before.block.size)
///   pub remembers : <a href="../../logic/index.html#OnErr">OnErr</a> reply (after ≡ <a href="../blocks/index.html#after_refusal">after_refusal</a> before n)
/// </pre>
pub mod drawing {}

#[doc(alias("TakesAnew"))]
/// What a phase in blocks ends with. For a phase of blocks that go on see `PastEnding`.
///
/// <pre>
/// -- No handle was taken twice, and none was alive. A flush brings to life exactly what was taken.
/// pub record <b id="TakesAnew">TakesAnew</b> (start after : <a href="../../ent_alloc/sequential/index.html#Allocator">Allocator</a>) : Type 0 where
///   pub distinct : <a href="../../logic/index.html#AllPairs">AllPairs</a> (λ g h. g ≢ h) after.taken
///   pub not_live : <a href="../../logic/index.html#All">All</a> (λ h. ¬ (<a href="../../ent_alloc/sound/index.html#IsLive">IsLive</a> start h)) after.taken
///   pub brings_to_life : (h : <a href="../../ent_handle/handle/index.html#Handle">Handle</a>) → <a href="../../ent_alloc/sound/index.html#IsLive">IsLive</a> (<a href="../../ent_alloc/sequential/index.html#after_flush">after_flush</a> after) h
///       ↔ (<a href="../../ent_alloc/sound/index.html#IsLive">IsLive</a> start h ⊎ <a href="../../logic/index.html#Contains">Contains</a> after.taken h)
/// </pre>
pub mod ending {}
