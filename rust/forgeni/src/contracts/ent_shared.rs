// Made of crates/ent_shared/specs by .ci/contracts.py. It isn't edited by hand.

//! The definitions of crate `ent_shared`, in the order in which one reads them:
//! [`record`], [`moves`], [`phase`], [`order`], [`replies`].

#[doc(alias("after_reservation", "known_reservations", "low", "own_reservations", "requested_by", "reservation_at", "reservations_in"))]
/// What one reserver has done in a phase, and how a reservation adds to it.
///
/// <pre>
/// -- the cursor that a reservation leaves
/// abbrev pub <b id="low">low</b> : Reservation → <a href="../../logic/index.html#ℤ">ℤ</a>
/// <a href="#low">low</a> reservation = reservation.high -<a href="../../logic/index.html#ℤ">ℤ</a> pos reservation.requested
/// </pre>
///
/// <pre>
/// -- the reservations that an entry speaks of
/// abbrev pub <b id="reservations_in">reservations_in</b> : RecordEntry → <a href="../../logic/index.html#List">List</a> Reservation
/// <a href="#reservations_in">reservations_in</a> (Own reservation) = reservation ∷ []
/// <a href="#reservations_in">reservations_in</a> (Met reservations) = reservations
/// </pre>
///
/// <pre>
/// -- the reservations that a reserver made itself
/// abbrev pub <b id="own_reservations">own_reservations</b> : <a href="../../logic/index.html#List">List</a> RecordEntry → <a href="../../logic/index.html#List">List</a> Reservation
/// <a href="#own_reservations">own_reservations</a> [] = []
/// <a href="#own_reservations">own_reservations</a> (Own reservation ∷ entries) = reservation ∷ <a href="#own_reservations">own_reservations</a> entries
/// <a href="#own_reservations">own_reservations</a> (Met reservations ∷ entries) = <a href="#own_reservations">own_reservations</a> entries
/// </pre>
///
/// <pre>
/// -- all reservations that it made itself or learned of
/// abbrev pub <b id="known_reservations">known_reservations</b> : <a href="../../logic/index.html#List">List</a> RecordEntry → <a href="../../logic/index.html#List">List</a> Reservation
/// <a href="#known_reservations">known_reservations</a> [] = []
/// <a href="#known_reservations">known_reservations</a> (entry ∷ entries) = <a href="#reservations_in">reservations_in</a> entry ++ <a href="#known_reservations">known_reservations</a> entries
/// </pre>
///
/// <pre>
/// -- how many handles a reserver has requested, served or not
/// abbrev pub <b id="requested_by">requested_by</b> : Record → <a href="../../logic/index.html#ℕ">ℕ</a>
/// <a href="#requested_by">requested_by</a> r = sum_by (λ (c : Reservation). c.requested) (<a href="#own_reservations">own_reservations</a> r.entries)
/// </pre>
///
/// <pre>
/// -- this reserver's reservation of n handles if the cursor is high
/// abbrev pub <b id="reservation_at">reservation_at</b> : Record → <a href="../../logic/index.html#ℤ">ℤ</a> → <a href="../../logic/index.html#ℕ">ℕ</a> → Reservation
/// <a href="#reservation_at">reservation_at</a> r high n = record {
///   caller = r.number;
///   high = high;
///   requested = n;
///   reply = <a href="../../ent_alloc/sequential/index.html#reply_from">reply_from</a> r.start.made (<a href="../../ent_alloc/sequential/index.html#pool_at">pool_at</a> r.start high) n;
/// }
/// </pre>
///
/// <pre>
/// -- the record after it
/// abbrev pub <b id="after_reservation">after_reservation</b> : Record → <a href="../../logic/index.html#ℤ">ℤ</a> → <a href="../../logic/index.html#ℕ">ℕ</a> → Record
/// <a href="#after_reservation">after_reservation</a> r high n = record r {
///   entries = r.entries ++ Own (<a href="#reservation_at">reservation_at</a> r high n) ∷ [];
///   left = r.left - n;
///   mark = high -<a href="../../logic/index.html#ℤ">ℤ</a> pos n;
///   floor = if nat_le n (<a href="../../logic/index.html#length">length</a> (<a href="../../ent_alloc/sequential/index.html#pool_at">pool_at</a> r.start high)) then high -<a href="../../logic/index.html#ℤ">ℤ</a> pos n else r.floor;
/// }
/// </pre>
pub mod record {}

#[doc(alias("after_meeting"))]
/// What a meeting adds to a record.
///
/// <pre>
/// -- the record of a reserver after it met another one
/// abbrev pub <b id="after_meeting">after_meeting</b> : Record → Record → Record
/// <a href="#after_meeting">after_meeting</a> r met = record r {
///   entries = r.entries ++ Met (<a href="../record/index.html#known_reservations">known_reservations</a> met.entries) ∷ [];
///   mark = int_min r.mark met.mark;
/// }
/// </pre>
pub mod moves {}

#[doc(alias("IsBelow", "IsOf", "Reserver", "Shared"))]
/// What contracts see of a shared allocator and of its reservers.
///
/// <pre>
/// -- which atomic word it is, the allocator as it was shared, the rows that are kept with its living
/// -- handles, and how many reservers there are
/// pub record <b id="Shared">Shared</b> : Type 0 where
///   pub word : TableId
///   pub start : <a href="../../ent_alloc/sequential/index.html#Allocator">Allocator</a>
///   pub rows : <a href="../../logic/index.html#FinMap.FinMap">maps.FinMap</a> <a href="../../ent_handle/handle/index.html#handle_cmp">handle_cmp</a> <a href="../../logic/index.html#ℕ">ℕ</a>
///   pub count : <a href="../../logic/index.html#ℕ">ℕ</a>
/// </pre>
///
/// <pre>
/// -- which word it reserves from, and what it has done
/// pub record <b id="Reserver">Reserver</b> : Type 0 where
///   pub word : TableId
///   pub own : Record
/// </pre>
///
/// <pre>
/// -- The reserver is one of those that came with this allocator.
/// pub record <b id="IsOf">IsOf</b> (shared : <a href="#Shared">Shared</a>) (r : <a href="#Reserver">Reserver</a>) : Type 0 where
///   pub word : r.word ≡ shared.word
///   pub start : r.own.start ≡ shared.start
///   pub number : r.own.number &lt; shared.count
///   -- the quota adds up from what is left and what it has requested
///   pub <a href="../../ent_alloc/limits/index.html#quota">quota</a> : r.own.left + <a href="../record/index.html#requested_by">requested_by</a> r.own ≡ <a href="../../ent_alloc/limits/index.html#quota">quota</a>
/// </pre>
///
/// <pre>
/// -- the mark is at or below the end of every reservation of which these entries speak
/// abbrev pub <b id="IsBelow">IsBelow</b> : <a href="../../logic/index.html#ℤ">ℤ</a> → <a href="../../logic/index.html#List">List</a> RecordEntry → Type 0
/// <a href="#IsBelow">IsBelow</a> mark entries = <a href="../../logic/index.html#All">All</a> (λ (c : Reservation). mark ≤<a href="../../logic/index.html#ℤ">ℤ</a> <a href="../record/index.html#low">low</a> c) (<a href="../record/index.html#known_reservations">known_reservations</a> entries)
/// </pre>
pub mod phase {}

#[doc(alias("as_call", "handles_given", "handles_of"))]
/// The one history of all reservers\' reservations, and what it respects.
///
/// <pre>
/// -- a reservation as the sequential allocator sees it
/// abbrev pub <b id="as_call">as_call</b> : Reservation → <a href="../../ent_alloc/history/index.html#Call">history.Call</a>
/// <a href="#as_call">as_call</a> c = record { caller = c.caller; requested = c.requested; reply = c.reply }
/// </pre>
///
/// <pre>
/// -- the handles that these reservations were given
/// abbrev pub <b id="handles_of">handles_of</b> : <a href="../../logic/index.html#List">List</a> Reservation → <a href="../../logic/index.html#List">List</a> <a href="../../ent_handle/handle/index.html#Handle">Handle</a>
/// <a href="#handles_of">handles_of</a> reservations = <a href="../../ent_alloc/history/index.html#given_in">history.given_in</a> (<a href="../../logic/index.html#map">map</a> <a href="#as_call">as_call</a> reservations)
/// </pre>
///
/// <pre>
/// -- the handles that a reserver was given, in the order of its reservations
/// abbrev pub <b id="handles_given">handles_given</b> : Record → <a href="../../logic/index.html#List">List</a> <a href="../../ent_handle/handle/index.html#Handle">Handle</a>
/// <a href="#handles_given">handles_given</a> r = <a href="#handles_of">handles_of</a> (<a href="../record/index.html#own_reservations">own_reservations</a> r.entries)
/// </pre>
pub mod order {}

#[doc(alias("IsReturned", "Reserves", "Tells"))]
/// What a reservation returns.
///
/// <pre>
/// -- the result says what the reply says
/// abbrev pub <b id="Tells">Tells</b> : <a href="../../logic/index.html#Result">Result</a> (<a href="../../logic/index.html#List">List</a> <a href="../../ent_handle/handle/index.html#Handle">Handle</a>) Refused → <a href="../../logic/index.html#Result">Result</a> (<a href="../../logic/index.html#List">List</a> <a href="../../ent_handle/handle/index.html#Handle">Handle</a>) Space → Type 0
/// <a href="#Tells">Tells</a> (<a href="../../logic/index.html#Ok">Ok</a> handles) reply = reply ≡ <a href="../../logic/index.html#Ok">Ok</a> handles
/// <a href="#Tells">Tells</a> (<a href="../../logic/index.html#Err">Err</a> (OutOfSpace wanted left)) reply = reply ≡ <a href="../../logic/index.html#Err">Err</a> (record { wanted = wanted; left = left })
/// <a href="#Tells">Tells</a> (<a href="../../logic/index.html#Err">Err</a> (Quota left)) reply = ⊥
/// </pre>
///
/// <pre>
/// -- A reserver has made one more reservation, of n handles.
/// pub record <b id="Reserves">Reserves</b> (shared : <a href="../phase/index.html#Shared">Shared</a>) (old new : <a href="../phase/index.html#Reserver">Reserver</a>) (n : <a href="../../logic/index.html#ℕ">ℕ</a>)
///     (returned : <a href="../../logic/index.html#Result">Result</a> (<a href="../../logic/index.html#List">List</a> <a href="../../ent_handle/handle/index.html#Handle">Handle</a>) Refused) : Type 0 where
///   -- the cursor that its step found, which is the mark or lower
///   pub high : <a href="../../logic/index.html#ℤ">ℤ</a>
///   pub at_mark : high ≤<a href="../../logic/index.html#ℤ">ℤ</a> old.own.mark
///   -- the record ends with it, and nothing else has changed
///   pub after : new ≡ record old { own = <a href="../record/index.html#after_reservation">after_reservation</a> old.own high n }
///   -- the result is the reply that is recorded
///   pub recorded : <a href="#Tells">Tells</a> returned (<a href="../record/index.html#reservation_at">reservation_at</a> old.own high n).reply
///   -- and that is the reply of an allocator whose cursor is there
///   pub reply : (<a href="../record/index.html#reservation_at">reservation_at</a> old.own high n).reply
///       ≡ <a href="../../ent_alloc/sequential/index.html#reply_from">reply_from</a> shared.start.made (<a href="../../ent_alloc/sequential/index.html#pool_at">pool_at</a> shared.start high) n
/// </pre>
///
/// <pre>
/// -- The result is that of a request for n handles.
/// pub record <b id="IsReturned">IsReturned</b> (shared : <a href="../phase/index.html#Shared">Shared</a>) (before after : <a href="../phase/index.html#Reserver">Reserver</a>) (n : <a href="../../logic/index.html#ℕ">ℕ</a>)
///     (reply : <a href="../../logic/index.html#Result">Result</a> (<a href="../../logic/index.html#List">List</a> <a href="../../ent_handle/handle/index.html#Handle">Handle</a>) Refused) : Type 0 where
///   pub quota : before.own.left &lt; n → (reply ≡ <a href="../../logic/index.html#Err">Err</a> (Quota before.own.left)) × (after ≡ before)
///   pub nothing : n ≡ 0 → (reply ≡ <a href="../../logic/index.html#Ok">Ok</a> []) × (after ≡ before)
///   pub gains : 0 &lt; n → n ≤ before.own.left → <a href="#Reserves">Reserves</a> shared before after n reply
/// </pre>
pub mod replies {}
