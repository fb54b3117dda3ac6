// Made of crates/ent_replay/specs by .ci/contracts.py. It isn't edited by hand.

//! The definitions of crate `ent_replay`, in the order in which one reads them:
//! [`trace`], [`checker`], [`logs`], [`recording`], [`lending`].

#[doc(alias("Agrees", "AreAnswered", "Fits", "FitsBorn", "FitsFreed", "FitsReserved", "IsAlone", "IsOrderOf", "MayPass", "after_front", "after_line", "after_lines", "alloc_reply", "answered_line", "free_reply", "freed_reply", "front_reply", "reserve_reply"))]
/// Traces: what was called and what was answered, and when one sequential allocator could have answered so.
///
/// <pre>
/// abbrev pub <b id="front_reply">front_reply</b> : <a href="../../logic/index.html#List">List</a> <a href="../../ent_handle/handle/index.html#Handle">Handle</a> → AllocReply
/// <a href="#front_reply">front_reply</a> [] = alloc.Space
/// <a href="#front_reply">front_reply</a> (h ∷ pool) = alloc.Handle h
/// </pre>
///
/// <pre>
/// abbrev pub <b id="alloc_reply">alloc_reply</b> : <a href="../../ent_alloc/sequential/index.html#Allocator">Allocator</a> → AllocReply
/// <a href="#alloc_reply">alloc_reply</a> s = if nat_lt 0 s.asked then alloc.NeedsFlush else <a href="#front_reply">front_reply</a> s.pool
/// </pre>
///
/// <pre>
/// abbrev pub <b id="freed_reply">freed_reply</b> : <a href="../../logic/index.html#Option">Option</a> <a href="../../ent_handle/handle/index.html#Handle">Handle</a> → FreeReply
/// <a href="#freed_reply">freed_reply</a> <a href="../../logic/index.html#None">None</a> = free.Retired
/// <a href="#freed_reply">freed_reply</a> (<a href="../../logic/index.html#Some">Some</a> h) = free.Next h
/// </pre>
///
/// <pre>
/// abbrev pub <b id="free_reply">free_reply</b> : <a href="../../ent_alloc/sequential/index.html#Allocator">Allocator</a> → <a href="../../ent_handle/handle/index.html#Handle">Handle</a> → FreeReply
/// <a href="#free_reply">free_reply</a> s h =
///     if nat_lt 0 s.asked then free.NeedsFlush else
///     (if <a href="../../logic/index.html#FinSet.contains">set.contains</a> s.live h then <a href="#freed_reply">freed_reply</a> (<a href="../../ent_alloc/sequential/index.html#next">next</a> s.limits h) else free.NotAlive)
/// </pre>
///
/// <pre>
/// -- the state after the front of the pool came to life
/// abbrev pub <b id="after_front">after_front</b> : <a href="../../ent_alloc/sequential/index.html#Allocator">Allocator</a> → <a href="../../logic/index.html#List">List</a> <a href="../../ent_handle/handle/index.html#Handle">Handle</a> → <a href="../../ent_alloc/sequential/index.html#Allocator">Allocator</a>
/// <a href="#after_front">after_front</a> s [] = s
/// <a href="#after_front">after_front</a> s (h ∷ pool) = <a href="../../ent_alloc/sequential/index.html#after_alloc">after_alloc</a> s h
/// </pre>
///
/// <pre>
/// abbrev pub <b id="after_line">after_line</b> : <a href="../../ent_alloc/sequential/index.html#Allocator">Allocator</a> → Call → <a href="../../ent_alloc/sequential/index.html#Allocator">Allocator</a>
/// <a href="#after_line">after_line</a> s (line.Alloc told) = if nat_lt 0 s.asked then s else <a href="#after_front">after_front</a> s s.pool
/// <a href="#after_line">after_line</a> s (line.Free h told) =
///     if nat_lt 0 s.asked then s else (if <a href="../../logic/index.html#FinSet.contains">set.contains</a> s.live h then <a href="../../ent_alloc/sequential/index.html#after_free">after_free</a> s h else s)
/// <a href="#after_line">after_line</a> s (line.Flush told) = <a href="../../ent_alloc/sequential/index.html#after_flush">after_flush</a> s
/// <a href="#after_line">after_line</a> s (line.Reserve r) = <a href="../../ent_alloc/sequential/index.html#after_take">after_take</a> s r.requested
/// <a href="#after_line">after_line</a> s (line.State h told) = s
/// <a href="#after_line">after_line</a> s (line.Len told) = s
/// </pre>
///
/// <pre>
/// -- `freed` alone says nothing about the next handle
/// abbrev pub <b id="FitsFreed">FitsFreed</b> : FreeReply → FreeReply → Type 0
/// <a href="#FitsFreed">FitsFreed</a> free.Freed (free.Next h) = Unit {0}
/// <a href="#FitsFreed">FitsFreed</a> free.Freed free.Retired = Unit {0}
/// <a href="#FitsFreed">FitsFreed</a> free.Freed other = ⊥
/// <a href="#FitsFreed">FitsFreed</a> told given = told ≡ given
/// </pre>
///
/// <pre>
/// -- a list, or how long it is
/// abbrev pub <b id="FitsBorn">FitsBorn</b> : FlushReply → <a href="../../logic/index.html#List">List</a> <a href="../../ent_handle/handle/index.html#Handle">Handle</a> → Type 0
/// <a href="#FitsBorn">FitsBorn</a> (flush.Born told) given = told ≡ given
/// <a href="#FitsBorn">FitsBorn</a> (flush.Count told) given = told ≡ <a href="../../logic/index.html#length">length</a> given
/// </pre>
///
/// <pre>
/// -- a list, or a refusal, perhaps with how many were left
/// abbrev pub <b id="FitsReserved">FitsReserved</b> : ReserveReply → <a href="../../logic/index.html#Result">Result</a> (<a href="../../logic/index.html#List">List</a> <a href="../../ent_handle/handle/index.html#Handle">Handle</a>) Space → Type 0
/// <a href="#FitsReserved">FitsReserved</a> (reserve.Handles told) (<a href="../../logic/index.html#Ok">Ok</a> given) = told ≡ given
/// <a href="#FitsReserved">FitsReserved</a> (reserve.Handles told) (<a href="../../logic/index.html#Err">Err</a> space) = ⊥
/// <a href="#FitsReserved">FitsReserved</a> reserve.Space (<a href="../../logic/index.html#Ok">Ok</a> given) = ⊥
/// <a href="#FitsReserved">FitsReserved</a> reserve.Space (<a href="../../logic/index.html#Err">Err</a> space) = Unit {0}
/// <a href="#FitsReserved">FitsReserved</a> (reserve.SpaceLeft told) (<a href="../../logic/index.html#Ok">Ok</a> given) = ⊥
/// <a href="#FitsReserved">FitsReserved</a> (reserve.SpaceLeft told) (<a href="../../logic/index.html#Err">Err</a> space) = told ≡ space.left
/// </pre>
///
/// <pre>
/// -- The answer that a line has is the allocator's. A line may have no answer.
/// abbrev pub <b id="Fits">Fits</b> : <a href="../../ent_alloc/sequential/index.html#Allocator">Allocator</a> → Call → Type 0
/// <a href="#Fits">Fits</a> s (line.Alloc told) = <a href="../../logic/index.html#IfSome">IfSome</a> told (λ reply. reply ≡ <a href="#alloc_reply">alloc_reply</a> s)
/// <a href="#Fits">Fits</a> s (line.Free h told) = <a href="../../logic/index.html#IfSome">IfSome</a> told (λ reply. <a href="#FitsFreed">FitsFreed</a> reply (<a href="#free_reply">free_reply</a> s h))
/// <a href="#Fits">Fits</a> s (line.Flush told) = <a href="../../logic/index.html#IfSome">IfSome</a> told (λ reply. <a href="#FitsBorn">FitsBorn</a> reply (<a href="../../ent_alloc/sequential/index.html#born">born</a> s))
/// <a href="#Fits">Fits</a> s (line.Reserve r) = <a href="#FitsReserved">FitsReserved</a> r.reply (<a href="../../ent_alloc/sequential/index.html#reply_to">reply_to</a> s r.requested)
/// <a href="#Fits">Fits</a> s (line.State h told) = <a href="../../logic/index.html#IfSome">IfSome</a> told (λ state. state ≡ <a href="../../ent_alloc/sequential/index.html#state_of">state_of</a> s h)
/// <a href="#Fits">Fits</a> s (line.Len told) = <a href="../../logic/index.html#IfSome">IfSome</a> told (λ len. len ≡ <a href="../../logic/index.html#FinSet.len">set.len</a> s.live)
/// </pre>
///
/// <pre>
/// abbrev pub <b id="reserve_reply">reserve_reply</b> : <a href="../../logic/index.html#Result">Result</a> (<a href="../../logic/index.html#List">List</a> <a href="../../ent_handle/handle/index.html#Handle">Handle</a>) Space → ReserveReply
/// <a href="#reserve_reply">reserve_reply</a> (<a href="../../logic/index.html#Ok">Ok</a> given) = reserve.Handles given
/// <a href="#reserve_reply">reserve_reply</a> (<a href="../../logic/index.html#Err">Err</a> space) = reserve.SpaceLeft space.left
/// </pre>
///
/// <pre>
/// -- the same call with what the allocator answers
/// abbrev pub <b id="answered_line">answered_line</b> : <a href="../../ent_alloc/sequential/index.html#Allocator">Allocator</a> → Call → Call
/// <a href="#answered_line">answered_line</a> s (line.Alloc told) = line.Alloc (<a href="../../logic/index.html#Some">Some</a> (<a href="#alloc_reply">alloc_reply</a> s))
/// <a href="#answered_line">answered_line</a> s (line.Free h told) = line.Free h (<a href="../../logic/index.html#Some">Some</a> (<a href="#free_reply">free_reply</a> s h))
/// <a href="#answered_line">answered_line</a> s (line.Flush told) = line.Flush (<a href="../../logic/index.html#Some">Some</a> (flush.Born (<a href="../../ent_alloc/sequential/index.html#born">born</a> s)))
/// <a href="#answered_line">answered_line</a> s (line.Reserve r) =
///     line.Reserve (record r { reply = <a href="#reserve_reply">reserve_reply</a> (<a href="../../ent_alloc/sequential/index.html#reply_to">reply_to</a> s r.requested) })
/// <a href="#answered_line">answered_line</a> s (line.State h told) = line.State h (<a href="../../logic/index.html#Some">Some</a> (<a href="../../ent_alloc/sequential/index.html#state_of">state_of</a> s h))
/// <a href="#answered_line">answered_line</a> s (line.Len told) = line.Len (<a href="../../logic/index.html#Some">Some</a> (<a href="../../logic/index.html#FinSet.len">set.len</a> s.live))
/// </pre>
///
/// <pre>
/// -- each line in turn fits
/// abbrev pub <b id="AreAnswered">AreAnswered</b> : <a href="../../ent_alloc/sequential/index.html#Allocator">Allocator</a> → <a href="../../logic/index.html#List">List</a> Call → Type 0
/// <a href="#AreAnswered">AreAnswered</a> s [] = Unit {0}
/// <a href="#AreAnswered">AreAnswered</a> s (l ∷ lines) = <a href="#Fits">Fits</a> s l × <a href="#AreAnswered">AreAnswered</a> (<a href="#after_line">after_line</a> s l) lines
/// </pre>
///
/// <pre>
/// abbrev pub <b id="after_lines">after_lines</b> : <a href="../../ent_alloc/sequential/index.html#Allocator">Allocator</a> → <a href="../../logic/index.html#List">List</a> Call → <a href="../../ent_alloc/sequential/index.html#Allocator">Allocator</a>
/// <a href="#after_lines">after_lines</a> s [] = s
/// <a href="#after_lines">after_lines</a> s (l ∷ lines) = <a href="#after_lines">after_lines</a> (<a href="#after_line">after_line</a> s l) lines
/// </pre>
///
/// <pre>
/// -- nothing overlaps this line
/// abbrev pub <b id="IsAlone">IsAlone</b> : Call → Type 0
/// <a href="#IsAlone">IsAlone</a> (line.Reserve r) = ⊥
/// <a href="#IsAlone">IsAlone</a> other = Unit {0}
/// </pre>
///
/// <pre>
/// -- The first may have come before the second, although it is listed after it: both are reservations,
/// -- of different callers.
/// abbrev pub <b id="MayPass">MayPass</b> : Call → Call → Type 0
/// <a href="#MayPass">MayPass</a> (line.Reserve r) (line.Reserve before) = before.caller ≢ r.caller
/// <a href="#MayPass">MayPass</a> (line.Reserve r) other = ⊥
/// <a href="#MayPass">MayPass</a> l other = ⊥
/// </pre>
///
/// <pre>
/// -- The second list has the lines of the first in an order that they may have come in: each is taken
/// -- out of what is left, past lines that it may pass.
/// abbrev pub <b id="IsOrderOf">IsOrderOf</b> : <a href="../../logic/index.html#List">List</a> Call → <a href="../../logic/index.html#List">List</a> Call → Type 0
/// <a href="#IsOrderOf">IsOrderOf</a> lines [] = lines ≡ []
/// <a href="#IsOrderOf">IsOrderOf</a> lines (l ∷ order) =
///     (before : <a href="../../logic/index.html#List">List</a> Call) × (after : <a href="../../logic/index.html#List">List</a> Call) × (lines ≡ before ++ l ∷ after)
///     × AllByRecursion (<a href="#MayPass">MayPass</a> l) before
///     × <a href="#IsOrderOf">IsOrderOf</a> (before ++ after) order
/// </pre>
///
/// <pre>
/// -- A trace agrees with the sequential allocator in this state: in some order of its lines each
/// -- reply is the allocator's.
/// pub record <b id="Agrees">Agrees</b> (s : <a href="../../ent_alloc/sequential/index.html#Allocator">Allocator</a>) (lines : <a href="../../logic/index.html#List">List</a> Call) : Type 0 where
///   pub order : <a href="../../logic/index.html#List">List</a> Call
///   pub is_order : <a href="#IsOrderOf">IsOrderOf</a> lines order
///   pub answered : <a href="#AreAnswered">AreAnswered</a> s order
/// </pre>
pub mod trace {}

#[doc(alias("AgreesWith", "Checked", "Differs", "Follows", "HasNoOrder", "IfReserve", "IsSettled", "IsStuck", "IsTooMany", "IsTooManyIn", "NoneFollows", "OnDiffers", "OnTooMany", "Reaches", "Shows", "number_of", "requested_in", "reserve_lines"))]
/// What a checker represents, and what it reports about a trace that doesn\'t agree.
///
/// <pre>
/// -- the allocator after all lines but the last reservations, which are not placed yet
/// pub record <b id="Checked">Checked</b> : Type 0 where
///   pub allocator : <a href="../../ent_alloc/sequential/index.html#Allocator">Allocator</a>
///   pub run : <a href="../../logic/index.html#List">List</a> Reservation
/// </pre>
///
/// <pre>
/// -- reservations as lines
/// abbrev pub <b id="reserve_lines">reserve_lines</b> : <a href="../../logic/index.html#List">List</a> Reservation → <a href="../../logic/index.html#List">List</a> Call
/// <a href="#reserve_lines">reserve_lines</a> run = <a href="../../logic/index.html#map">map</a> line.Reserve run
/// </pre>
///
/// <pre>
/// -- these lines may follow those that were checked
/// abbrev pub <b id="AgreesWith">AgreesWith</b> : <a href="#Checked">Checked</a> → <a href="../../logic/index.html#List">List</a> Call → Type 0
/// <a href="#AgreesWith">AgreesWith</a> c rest = <a href="../trace/index.html#Agrees">Agrees</a> c.allocator (<a href="#reserve_lines">reserve_lines</a> c.run ++ rest)
/// </pre>
///
/// <pre>
/// -- before and after a line: the same lines may follow
/// pub record <b id="Follows">Follows</b> (old : <a href="#Checked">Checked</a>) (l : Call) (new : <a href="#Checked">Checked</a>) : Type 0 where
///   pub sound : (rest : <a href="../../logic/index.html#List">List</a> Call) → <a href="#AgreesWith">AgreesWith</a> new rest → <a href="#AgreesWith">AgreesWith</a> old (l ∷ rest)
///   pub complete : (rest : <a href="../../logic/index.html#List">List</a> Call) → <a href="#AgreesWith">AgreesWith</a> old (l ∷ rest) → <a href="#AgreesWith">AgreesWith</a> new rest
/// </pre>
///
/// <pre>
/// -- In some order all reservations of the run were answered like this, and this is the state after
/// -- them, as after any such order.
/// pub record <b id="IsSettled">IsSettled</b> (c : <a href="#Checked">Checked</a>) (after : <a href="../../ent_alloc/sequential/index.html#Allocator">Allocator</a>) : Type 0 where
///   pub order : <a href="../../logic/index.html#List">List</a> Call
///   pub is_order : <a href="../trace/index.html#IsOrderOf">IsOrderOf</a> (<a href="#reserve_lines">reserve_lines</a> c.run) order
///   pub answered : <a href="../trace/index.html#AreAnswered">AreAnswered</a> c.allocator order
///   pub after_is : after ≡ <a href="../trace/index.html#after_lines">after_lines</a> c.allocator order
///   pub only : (other : <a href="../../logic/index.html#List">List</a> Call) → <a href="../trace/index.html#IsOrderOf">IsOrderOf</a> (<a href="#reserve_lines">reserve_lines</a> c.run) other
///       → <a href="../trace/index.html#AreAnswered">AreAnswered</a> c.allocator other → <a href="../trace/index.html#after_lines">after_lines</a> c.allocator other ≡ after
/// </pre>
///
/// <pre>
/// -- The state after a line: a reservation joins the run, and any other call is made in the state
/// -- after the run, where its reply fits.
/// abbrev pub <b id="Reaches">Reaches</b> : <a href="#Checked">Checked</a> → Call → <a href="#Checked">Checked</a> → Type 0
/// <a href="#Reaches">Reaches</a> old (line.Reserve r) new = new ≡ record old { run = old.run ++ r ∷ [] }
/// <a href="#Reaches">Reaches</a> old l new =
///     (at : <a href="../../ent_alloc/sequential/index.html#Allocator">Allocator</a>) × <a href="#IsSettled">IsSettled</a> old at × <a href="../trace/index.html#Fits">Fits</a> at l
///     × (new ≡ record { allocator = <a href="../trace/index.html#after_line">after_line</a> at l; run = [] })
/// </pre>
///
/// <pre>
/// -- what a stop for a difference reports
/// abbrev pub <b id="OnDiffers">OnDiffers</b> : CheckError → (Difference → Type 0) → Type 0
/// <a href="#OnDiffers">OnDiffers</a> (stop.Differs d) P = P d
/// <a href="#OnDiffers">OnDiffers</a> other P = Unit {0}
/// </pre>
///
/// <pre>
/// -- a reservation has its own number, and any other line has the one that comes with it
/// abbrev pub <b id="number_of">number_of</b> : <a href="../../logic/index.html#ℕ">ℕ</a> → Call → <a href="../../logic/index.html#ℕ">ℕ</a>
/// <a href="#number_of">number_of</a> number (line.Reserve r) = r.number
/// <a href="#number_of">number_of</a> number other = number
/// </pre>
///
/// <pre>
/// -- The line's reply isn't the allocator's in this state. The difference says what it is, and which
/// -- one is the allocator's, and shows the state: the front of the pool, and the cursor.
/// pub record <b id="Differs">Differs</b> (s : <a href="../../ent_alloc/sequential/index.html#Allocator">Allocator</a>) (number : <a href="../../logic/index.html#ℕ">ℕ</a>) (l : Call) (d : Difference) : Type 0 where
///   pub unlike : ¬ (<a href="../trace/index.html#Fits">Fits</a> s l)
///   pub expected : d.expected ≡ <a href="../trace/index.html#answered_line">answered_line</a> s l
///   pub number_is : d.number ≡ <a href="#number_of">number_of</a> number l
///   pub told_is : d.told ≡ l
///   pub front_is : d.front ≡ <a href="../../logic/index.html#take">take</a> 8 s.pool
///   pub cursor_is : d.cursor ≡ <a href="../../ent_alloc/sequential/index.html#cursor">cursor</a> s
/// </pre>
///
/// <pre>
/// -- there is no order in which the reservations of the run were answered like this
/// abbrev pub <b id="HasNoOrder">HasNoOrder</b> : <a href="#Checked">Checked</a> → Type 0
/// <a href="#HasNoOrder">HasNoOrder</a> c = (order : <a href="../../logic/index.html#List">List</a> Call) → <a href="../trace/index.html#IsOrderOf">IsOrderOf</a> (<a href="#reserve_lines">reserve_lines</a> c.run) order
///     → <a href="../trace/index.html#AreAnswered">AreAnswered</a> c.allocator order → ⊥
/// </pre>
///
/// <pre>
/// -- what has to hold if the line is a reservation
/// abbrev pub <b id="IfReserve">IfReserve</b> : Call → Type 0 → Type 0
/// <a href="#IfReserve">IfReserve</a> (line.Reserve r) P = P
/// <a href="#IfReserve">IfReserve</a> other P = Unit {0}
/// </pre>
///
/// <pre>
/// -- no line that may come next after these fits
/// abbrev pub <b id="IsStuck">IsStuck</b> : <a href="../../ent_alloc/sequential/index.html#Allocator">Allocator</a> → <a href="../../logic/index.html#List">List</a> Call → <a href="../../logic/index.html#List">List</a> Call → Type 0
/// <a href="#IsStuck">IsStuck</a> s lines placed = (next : Call) (left : <a href="../../logic/index.html#List">List</a> Call)
///     → <a href="../trace/index.html#IsOrderOf">IsOrderOf</a> lines (placed ++ next ∷ left) → ¬ (<a href="../trace/index.html#Fits">Fits</a> (<a href="../trace/index.html#after_lines">after_lines</a> s placed) next)
/// </pre>
///
/// <pre>
/// -- The lines may have come in this order, in which some agree and the next one doesn't. After those
/// -- that agree no line that may come next does. It is a reservation only if the run agrees in no
/// -- order.
/// pub record <b id="Shows">Shows</b> (c : <a href="#Checked">Checked</a>) (number : <a href="../../logic/index.html#ℕ">ℕ</a>) (rest : <a href="../../logic/index.html#List">List</a> Call) (d : Difference) : Type 0 where
///   pub placed : <a href="../../logic/index.html#List">List</a> Call
///   pub next : Call
///   pub left : <a href="../../logic/index.html#List">List</a> Call
///   pub is_order : <a href="../trace/index.html#IsOrderOf">IsOrderOf</a> (<a href="#reserve_lines">reserve_lines</a> c.run ++ rest) (placed ++ next ∷ left)
///   pub answered : <a href="../trace/index.html#AreAnswered">AreAnswered</a> c.allocator placed
///   pub differs : <a href="#Differs">Differs</a> (<a href="../trace/index.html#after_lines">after_lines</a> c.allocator placed) number next d
///   pub stuck : <a href="#IsStuck">IsStuck</a> c.allocator (<a href="#reserve_lines">reserve_lines</a> c.run ++ rest) placed
///   pub blamed : <a href="#IfReserve">IfReserve</a> next (<a href="#HasNoOrder">HasNoOrder</a> c)
/// </pre>
///
/// <pre>
/// -- no trace that goes on with this line agrees
/// abbrev pub <b id="NoneFollows">NoneFollows</b> : <a href="#Checked">Checked</a> → Call → Type 0
/// <a href="#NoneFollows">NoneFollows</a> c l = (rest : <a href="../../logic/index.html#List">List</a> Call) → <a href="#AgreesWith">AgreesWith</a> c (l ∷ rest) → ⊥
/// </pre>
///
/// <pre>
/// -- what a stop for too many requests reports
/// abbrev pub <b id="OnTooMany">OnTooMany</b> : CheckError → Type 0 → Type 0
/// <a href="#OnTooMany">OnTooMany</a> stop.TooMany P = P
/// <a href="#OnTooMany">OnTooMany</a> other P = Unit {0}
/// </pre>
///
/// <pre>
/// abbrev pub <b id="requested_in">requested_in</b> : <a href="../../logic/index.html#List">List</a> Reservation → <a href="../../logic/index.html#ℕ">ℕ</a>
/// <a href="#requested_in">requested_in</a> run = sum_by (λ (r : Reservation). r.requested) run
/// </pre>
///
/// <pre>
/// -- with this reservation more than 2^50 handles were requested since the last flush
/// abbrev pub <b id="IsTooManyIn">IsTooManyIn</b> : <a href="#Checked">Checked</a> → Reservation → Type 0
/// <a href="#IsTooManyIn">IsTooManyIn</a> c r = 2 ^ 50 &lt; c.allocator.asked + <a href="#requested_in">requested_in</a> c.run + r.requested
/// </pre>
///
/// <pre>
/// -- the line is such a reservation
/// abbrev pub <b id="IsTooMany">IsTooMany</b> : <a href="#Checked">Checked</a> → Call → Type 0
/// <a href="#IsTooMany">IsTooMany</a> c (line.Reserve r) = <a href="#IsTooManyIn">IsTooManyIn</a> c r
/// <a href="#IsTooMany">IsTooMany</a> c other = ⊥
/// </pre>
pub mod checker {}

#[doc(alias("Log", "emptied", "new_logs"))]
/// The logs of callers.
///
/// <pre>
/// -- what one caller reserved, in its order
/// pub record <b id="Log">Log</b> : Type 0 where
///   pub caller : <a href="../../logic/index.html#ℕ">ℕ</a>
///   pub reservations : <a href="../../logic/index.html#List">List</a> Reservation
/// </pre>
///
/// <pre>
/// -- the same caller's log without its reservations
/// abbrev pub <b id="emptied">emptied</b> : <a href="#Log">Log</a> → <a href="#Log">Log</a>
/// <a href="#emptied">emptied</a> log = record log { reservations = [] }
/// </pre>
///
/// <pre>
/// -- the empty logs of the callers below this number
/// abbrev pub <b id="new_logs">new_logs</b> : <a href="../../logic/index.html#ℕ">ℕ</a> → <a href="../../logic/index.html#List">List</a> <a href="#Log">Log</a>
/// <a href="#new_logs">new_logs</a> zero = []
/// <a href="#new_logs">new_logs</a> (suc n) = <a href="#new_logs">new_logs</a> n ++ record { caller = n; reservations = [] } ∷ []
/// </pre>
pub mod logs {}

#[doc(alias("Answers", "Closes", "Compares", "Ends", "EndsRun", "Finishes", "IsCopyOf", "Takes", "TakesAll", "TakesRun", "difference_of", "error_in", "lines_in", "lines_in_all", "numbered", "one_more", "reservation_of"))]
/// A checker that numbers its calls and keeps what it found, and the logs that are joined to it.
///
/// <pre>
/// -- a reservation that has no number yet
/// abbrev pub <b id="reservation_of">reservation_of</b> : <a href="../../logic/index.html#ℕ">ℕ</a> → <a href="../../logic/index.html#ℕ">ℕ</a> → ReserveReply → Reservation
/// <a href="#reservation_of">reservation_of</a> caller requested reply =
///     record { number = 0; caller = caller; requested = requested; reply = reply }
/// </pre>
///
/// <pre>
/// -- the call, and if it is a reservation, with this number
/// abbrev pub <b id="numbered">numbered</b> : <a href="../../logic/index.html#ℕ">ℕ</a> → Call → Call
/// <a href="#numbered">numbered</a> n (line.Reserve r) = line.Reserve (record r { number = n })
/// <a href="#numbered">numbered</a> n other = other
/// </pre>
///
/// <pre>
/// -- how many calls there are with one more, as far as it is counted
/// abbrev pub <b id="one_more">one_more</b> : <a href="../../logic/index.html#ℕ">ℕ</a> → <a href="../../logic/index.html#ℕ">ℕ</a>
/// <a href="#one_more">one_more</a> n = <a href="../../logic/index.html#min">min</a> (n + 1) (2 ^ 64 - 1)
/// </pre>
///
/// <pre>
/// -- Nothing is wrong with the call, or why the checker stops at it.
/// pub record <b id="Compares">Compares</b> (old : <a href="../checker/index.html#Checked">Checked</a>) (number : <a href="../../logic/index.html#ℕ">ℕ</a>) (l : Call) (new : <a href="../../logic/index.html#Result">Result</a> <a href="../checker/index.html#Checked">Checked</a> CheckError)
///     : Type 0 where
///   pub follows : <a href="../../logic/index.html#IfOk">IfOk</a> new (<a href="../checker/index.html#Follows">Follows</a> old l)
///   pub reaches : <a href="../../logic/index.html#IfOk">IfOk</a> new (<a href="../checker/index.html#Reaches">Reaches</a> old l)
///   pub differs : <a href="../../logic/index.html#IfErr">IfErr</a> new (λ e. <a href="../checker/index.html#OnDiffers">OnDiffers</a> e (<a href="../checker/index.html#Shows">Shows</a> old number (l ∷ [])))
///   pub none : <a href="../../logic/index.html#IfErr">IfErr</a> new (λ e. <a href="../checker/index.html#OnDiffers">OnDiffers</a> e (λ d. <a href="../checker/index.html#NoneFollows">NoneFollows</a> old l))
///   pub alone : <a href="../../logic/index.html#IfErr">IfErr</a> new (λ e. <a href="../checker/index.html#OnDiffers">OnDiffers</a> e (λ d. <a href="../trace/index.html#IsAlone">IsAlone</a> l))
///   pub too_many : <a href="../../logic/index.html#IfErr">IfErr</a> new (λ e. <a href="../checker/index.html#OnTooMany">OnTooMany</a> e (<a href="../checker/index.html#IsTooMany">IsTooMany</a> old l))
///   pub few : <a href="../../logic/index.html#OnOk">OnOk</a> new (¬ (<a href="../checker/index.html#IsTooMany">IsTooMany</a> old l))
/// </pre>
///
/// <pre>
/// -- The call is counted, and compared under its number. A checker that has stopped stays as it is.
/// pub record <b id="Takes">Takes</b> (old : Checker) (l : Call) (new : Checker) : Type 0 where
///   pub counted : <a href="../../logic/index.html#OnOk">OnOk</a> old.comparer (new.calls ≡ <a href="#one_more">one_more</a> old.calls)
///   pub compared : <a href="../../logic/index.html#IfOk">IfOk</a> old.comparer (λ c.
///       <a href="#Compares">Compares</a> c new.calls (<a href="#numbered">numbered</a> new.calls l) new.comparer)
///   pub stopped : <a href="../../logic/index.html#OnErr">OnErr</a> old.comparer (new ≡ old)
/// </pre>
///
/// <pre>
/// -- these calls, one after the other
/// abbrev pub <b id="TakesAll">TakesAll</b> : Checker → <a href="../../logic/index.html#List">List</a> Call → Checker → Type 0
/// <a href="#TakesAll">TakesAll</a> old [] new = new ≡ old
/// <a href="#TakesAll">TakesAll</a> old (l ∷ lines) new = (next : Checker) × <a href="#Takes">Takes</a> old l next × <a href="#TakesAll">TakesAll</a> next lines new
/// </pre>
///
/// <pre>
/// -- The reservations of the run agree, or why not.
/// pub record <b id="Closes">Closes</b> {A : Type 0} (old : <a href="../checker/index.html#Checked">Checked</a>) (answer : <a href="../../logic/index.html#Result">Result</a> A CheckError) : Type 0 where
///   pub agrees : <a href="../../logic/index.html#OnOk">OnOk</a> answer (<a href="../checker/index.html#AgreesWith">AgreesWith</a> old [])
///   pub differs : <a href="../../logic/index.html#IfErr">IfErr</a> answer (λ e. <a href="../checker/index.html#OnDiffers">OnDiffers</a> e (<a href="../checker/index.html#Shows">Shows</a> old 0 []))
///   pub none : <a href="../../logic/index.html#IfErr">IfErr</a> answer (λ e. <a href="../checker/index.html#OnDiffers">OnDiffers</a> e (λ d. <a href="../checker/index.html#AgreesWith">AgreesWith</a> old [] → ⊥))
///   pub few : <a href="../../logic/index.html#IfErr">IfErr</a> answer (λ e. <a href="../checker/index.html#OnTooMany">OnTooMany</a> e ⊥)
/// </pre>
///
/// <pre>
/// -- The same, and then the allocator is in the state after the run.
/// pub record <b id="Ends">Ends</b> (old : <a href="../checker/index.html#Checked">Checked</a>) (new : <a href="../../logic/index.html#Result">Result</a> <a href="../checker/index.html#Checked">Checked</a> CheckError) : Type 0 where
///   pub settled : <a href="../../logic/index.html#IfOk">IfOk</a> new (λ next. <a href="../checker/index.html#IsSettled">IsSettled</a> old next.allocator × (next.run ≡ []))
///   pub closes : <a href="#Closes">Closes</a> old new
/// </pre>
///
/// <pre>
/// -- The run is compared. A checker that has stopped stays as it is.
/// pub record <b id="EndsRun">EndsRun</b> (old new : Checker) : Type 0 where
///   pub counted : new.calls ≡ old.calls
///   pub compared : <a href="../../logic/index.html#IfOk">IfOk</a> old.comparer (λ c. <a href="#Ends">Ends</a> c new.comparer)
///   pub stopped : <a href="../../logic/index.html#OnErr">OnErr</a> old.comparer (new ≡ old)
/// </pre>
///
/// <pre>
/// -- these reservations, compared at once
/// abbrev pub <b id="TakesRun">TakesRun</b> : Checker → <a href="../../logic/index.html#List">List</a> Reservation → Checker → Type 0
/// <a href="#TakesRun">TakesRun</a> old run new =
///     (taken : Checker) × <a href="#TakesAll">TakesAll</a> old (<a href="../checker/index.html#reserve_lines">reserve_lines</a> run) taken × <a href="#EndsRun">EndsRun</a> taken new
/// </pre>
///
/// <pre>
/// -- these calls, and no more
/// abbrev pub <b id="Finishes">Finishes</b> : {A : Type 0} → Checker → <a href="../../logic/index.html#List">List</a> Call → <a href="../../logic/index.html#Result">Result</a> A CheckError → Type 0
/// <a href="#Finishes">Finishes</a> old lines answer = (taken : Checker) × <a href="#TakesAll">TakesAll</a> old lines taken
///     × <a href="../../logic/index.html#IfOk">IfOk</a> taken.comparer (λ c. <a href="#Closes">Closes</a> c answer) × <a href="../../logic/index.html#IfErr">IfErr</a> taken.comparer (λ e. answer ≡ <a href="../../logic/index.html#Err">Err</a> e)
/// </pre>
///
/// <pre>
/// -- the error, or that there is no memory for a copy of it
/// abbrev pub <b id="IsCopyOf">IsCopyOf</b> : CheckError → CheckError → Type 0
/// <a href="#IsCopyOf">IsCopyOf</a> (error.Differs d) copy = (copy ≡ error.Differs d) ⊎ (copy ≡ error.Memory)
/// <a href="#IsCopyOf">IsCopyOf</a> other copy = copy ≡ other
/// </pre>
///
/// <pre>
/// -- nothing is wrong so far, or the error that is kept
/// abbrev pub <b id="Answers">Answers</b> : {A B : Type 0} → <a href="../../logic/index.html#Result">Result</a> A CheckError → <a href="../../logic/index.html#Result">Result</a> B CheckError → Type 0
/// <a href="#Answers">Answers</a> (<a href="../../logic/index.html#Ok">Ok</a> x) answer = <a href="../../logic/index.html#IsOk">IsOk</a> answer
/// <a href="#Answers">Answers</a> (<a href="../../logic/index.html#Err">Err</a> e) (<a href="../../logic/index.html#Ok">Ok</a> x) = ⊥
/// <a href="#Answers">Answers</a> (<a href="../../logic/index.html#Err">Err</a> e) (<a href="../../logic/index.html#Err">Err</a> copy) = <a href="#IsCopyOf">IsCopyOf</a> e copy
/// </pre>
///
/// <pre>
/// abbrev pub <b id="difference_of">difference_of</b> : CheckError → <a href="../../logic/index.html#Option">Option</a> Difference
/// <a href="#difference_of">difference_of</a> (error.Differs d) = <a href="../../logic/index.html#Some">Some</a> d
/// <a href="#difference_of">difference_of</a> other = <a href="../../logic/index.html#None">None</a>
/// </pre>
///
/// <pre>
/// abbrev pub <b id="error_in">error_in</b> : {A : Type 0} → <a href="../../logic/index.html#Result">Result</a> A CheckError → <a href="../../logic/index.html#Option">Option</a> CheckError
/// <a href="#error_in">error_in</a> (<a href="../../logic/index.html#Ok">Ok</a> x) = <a href="../../logic/index.html#None">None</a>
/// <a href="#error_in">error_in</a> (<a href="../../logic/index.html#Err">Err</a> e) = <a href="../../logic/index.html#Some">Some</a> e
/// </pre>
///
/// <pre>
/// -- what a log has, as calls
/// abbrev pub <b id="lines_in">lines_in</b> : <a href="../logs/index.html#Log">Log</a> → <a href="../../logic/index.html#List">List</a> Call
/// <a href="#lines_in">lines_in</a> log = <a href="../checker/index.html#reserve_lines">reserve_lines</a> log.reservations
/// </pre>
///
/// <pre>
/// -- what logs have, one log after the other
/// abbrev pub <b id="lines_in_all">lines_in_all</b> : <a href="../../logic/index.html#List">List</a> <a href="../logs/index.html#Log">Log</a> → <a href="../../logic/index.html#List">List</a> Call
/// <a href="#lines_in_all">lines_in_all</a> logs = flat_map <a href="#lines_in">lines_in</a> logs
/// </pre>
pub mod recording {}

#[doc(alias("LendsLogs", "with_logs"))]
/// What a recorder is after its logs were lent.
///
/// <pre>
/// abbrev pub <b id="with_logs">with_logs</b> : Recorder → <a href="../../logic/index.html#List">List</a> <a href="../logs/index.html#Log">Log</a> → Recorder
/// <a href="#with_logs">with_logs</a> recorder logs = record recorder { logs = with_items recorder.logs logs }
/// </pre>
///
/// <pre>
/// -- it ends with the logs that the borrow leaves
/// abbrev pub <b id="LendsLogs">LendsLogs</b> : MutBor Recorder → MutBor (<a href="../../logic/index.html#List">List</a> <a href="../logs/index.html#Log">Log</a>) → Fml
/// <a href="#LendsLogs">LendsLogs</a> recorder lent = Lends the_row (Array log.the_row 0) recorder lent (<a href="#with_logs">with_logs</a> recorder.now)
/// </pre>
pub mod lending {}
