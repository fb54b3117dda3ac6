// Made of crates/ent_handle/specs by .ci/contracts.py. It isn't edited by hand.

//! The definitions of crate `ent_handle`, in the order in which one reads them:
//! [`handle`], [`birth`], [`bytes`], [`component`], [`text`], [`handed_back`].

#[doc(alias("Handle", "IsHandle", "bits", "handle_cmp", "handle_cmp_total", "placeholder"))]
/// Handles: a slot of the allocator, and one of its occupants.
///
/// <pre>
/// -- the slot's index, and the generation that tells its occupants apart
/// pub record <b id="Handle">Handle</b> : Type 0 where
///   pub index : <a href="../../logic/index.html#ℕ">ℕ</a>
///   pub generation : <a href="../../logic/index.html#ℕ">ℕ</a>
/// </pre>
///
/// <pre>
/// -- the ranges of the two numbers
/// pub record <b id="IsHandle">IsHandle</b> (h : <a href="#Handle">Handle</a>) : Type 0 where
///   pub index : h.index &lt; 2 ^ 32 - 1
///   pub least : 1 ≤ h.generation
///   pub greatest : h.generation &lt; 2 ^ 31
/// </pre>
///
/// <pre>
/// -- the greatest handle
/// abbrev pub <b id="placeholder">placeholder</b> : <a href="#Handle">Handle</a>
/// <a href="#placeholder">placeholder</a> = record { index = 2 ^ 32 - 2; generation = 2 ^ 31 - 1 }
/// </pre>
///
/// <pre>
/// -- the two numbers in one: the generation above the index
/// abbrev pub <b id="bits">bits</b> : <a href="#Handle">Handle</a> → <a href="../../logic/index.html#ℕ">ℕ</a>
/// <a href="#bits">bits</a> h = h.generation * 2 ^ 32 + h.index
/// </pre>
///
/// <pre>
/// -- by index, then by generation
/// abbrev pub <b id="handle_cmp">handle_cmp</b> : <a href="#Handle">Handle</a> → <a href="#Handle">Handle</a> → Ordering
/// <a href="#handle_cmp">handle_cmp</a> = then_cmp (on (λ h. h.index) <a href="../../logic/index.html#nat_cmp">nat_cmp</a>) (on (λ h. h.generation) <a href="../../logic/index.html#nat_cmp">nat_cmp</a>)
/// </pre>
///
/// <pre>
/// pub <b id="handle_cmp_total">handle_cmp_total</b> : IsTotalOrder <a href="#handle_cmp">handle_cmp</a>
/// <a href="#handle_cmp_total">handle_cmp_total</a> =
///     then_total (on_total (λ (h : <a href="#Handle">Handle</a>). h.index) nat_cmp_total)
///     (on_total (λ (h : <a href="#Handle">Handle</a>). h.generation) nat_cmp_total)
/// </pre>
pub mod handle {}

#[doc(alias("birth_cmp"))]
/// The order of births, and how a birth is stored.
///
/// <pre>
/// -- by frame, then by system, then by ordinal
/// abbrev pub <b id="birth_cmp">birth_cmp</b> : Birth → Birth → Ordering
/// <a href="#birth_cmp">birth_cmp</a> =
///     then_cmp (on (λ b. b.frame) <a href="../../logic/index.html#nat_cmp">nat_cmp</a>)
///     (then_cmp (on (λ b. b.system) <a href="../../logic/index.html#nat_cmp">nat_cmp</a>) (on (λ b. b.ordinal) <a href="../../logic/index.html#nat_cmp">nat_cmp</a>))
/// </pre>
pub mod birth {}

#[doc(alias("long", "word"))]
/// Numbers in bytes, the lowest first.
///
/// <pre>
/// -- a number below 2^32 in four bytes
/// unfoldable pub <b id="word">word</b> : <a href="../../logic/index.html#ℕ">ℕ</a> → <a href="../../logic/index.html#List">List</a> <a href="../../logic/index.html#ℕ">ℕ</a>
/// <a href="#word">word</a> n = to_le_bytes w32 n
/// </pre>
///
/// <pre>
/// -- a number below 2^64 in eight
/// unfoldable pub <b id="long">long</b> : <a href="../../logic/index.html#ℕ">ℕ</a> → <a href="../../logic/index.html#List">List</a> <a href="../../logic/index.html#ℕ">ℕ</a>
/// <a href="#long">long</a> n = to_le_bytes w64 n
/// </pre>
pub mod bytes {}

#[doc(alias("component_cmp"))]
/// The order of component numbers, and how one is stored.
///
/// <pre>
/// -- by number
/// abbrev pub <b id="component_cmp">component_cmp</b> : ComponentId → ComponentId → Ordering
/// <a href="#component_cmp">component_cmp</a> = on (λ c. c.0) <a href="../../logic/index.html#nat_cmp">nat_cmp</a>
/// </pre>
pub mod component {}

#[doc(alias("HasHandleForm", "IsDecimal", "handle_of", "handle_of_parts", "handle_text", "is_decimal", "is_handle", "written"))]
/// Decimals, the texts of handles, and what a text is read as.
///
/// <pre>
/// -- `0`, or digits of which the first is not `0`
/// abbrev pub <b id="is_decimal">is_decimal</b> : <a href="../../logic/index.html#List">List</a> <a href="../../logic/index.html#ℕ">ℕ</a> → <a href="../../logic/index.html#Bool">Bool</a>
/// <a href="#is_decimal">is_decimal</a> [] = <a href="../../logic/index.html#false">false</a>
/// <a href="#is_decimal">is_decimal</a> (first ∷ others) =
///     if first == 48 then <a href="../../logic/index.html#length">length</a> others == 0 else list_all is_ascii_digit (first ∷ others)
/// </pre>
///
/// <pre>
/// abbrev pub <b id="IsDecimal">IsDecimal</b> : <a href="../../logic/index.html#List">List</a> <a href="../../logic/index.html#ℕ">ℕ</a> → Type 0
/// <a href="#IsDecimal">IsDecimal</a> bytes = <a href="../../logic/index.html#IsTrue">IsTrue</a> (<a href="#is_decimal">is_decimal</a> bytes)
/// </pre>
///
/// <pre>
/// -- a handle's index, the letter `v`, and its generation
/// abbrev pub <b id="handle_text">handle_text</b> : <a href="../handle/index.html#Handle">Handle</a> → <a href="../../logic/index.html#List">List</a> <a href="../../logic/index.html#ℕ">ℕ</a>
/// <a href="#handle_text">handle_text</a> h = <a href="../../logic/index.html#decimal">decimal</a> h.index ++ 118 ∷ <a href="../../logic/index.html#decimal">decimal</a> h.generation
/// </pre>
///
/// <pre>
/// -- a decimal, the letter `v`, and a decimal, however large the numbers are
/// abbrev pub <b id="HasHandleForm">HasHandleForm</b> : <a href="../../logic/index.html#List">List</a> <a href="../../logic/index.html#ℕ">ℕ</a> → Type 0
/// <a href="#HasHandleForm">HasHandleForm</a> bytes =
///     (index : <a href="../../logic/index.html#List">List</a> <a href="../../logic/index.html#ℕ">ℕ</a>) × (generation : <a href="../../logic/index.html#List">List</a> <a href="../../logic/index.html#ℕ">ℕ</a>)
///     × <a href="#IsDecimal">IsDecimal</a> index × <a href="#IsDecimal">IsDecimal</a> generation × (bytes ≡ index ++ 118 ∷ generation)
/// </pre>
///
/// <pre>
/// -- the two numbers are those of a handle
/// abbrev pub <b id="is_handle">is_handle</b> : <a href="../handle/index.html#Handle">Handle</a> → <a href="../../logic/index.html#Bool">Bool</a>
/// <a href="#is_handle">is_handle</a> h = nat_lt h.index (2 ^ 32 - 1) &amp;&amp; nat_le 1 h.generation &amp;&amp; nat_lt h.generation (2 ^ 31)
/// </pre>
///
/// <pre>
/// -- the numbers that two decimals write
/// abbrev pub <b id="written">written</b> : <a href="../../logic/index.html#List">List</a> <a href="../../logic/index.html#ℕ">ℕ</a> → <a href="../../logic/index.html#List">List</a> <a href="../../logic/index.html#ℕ">ℕ</a> → <a href="../handle/index.html#Handle">Handle</a>
/// <a href="#written">written</a> index generation =
///     record { index = <a href="../../logic/index.html#digits_value">digits_value</a> 10 index; generation = <a href="../../logic/index.html#digits_value">digits_value</a> 10 generation }
/// </pre>
///
/// <pre>
/// -- the handle of the parts between the letters `v`: two decimals, with the numbers of a handle
/// abbrev pub <b id="handle_of_parts">handle_of_parts</b> : <a href="../../logic/index.html#List">List</a> (<a href="../../logic/index.html#List">List</a> <a href="../../logic/index.html#ℕ">ℕ</a>) → <a href="../../logic/index.html#Result">Result</a> <a href="../handle/index.html#Handle">Handle</a> TextFault
/// <a href="#handle_of_parts">handle_of_parts</a> (index ∷ generation ∷ []) =
///     if <a href="#is_decimal">is_decimal</a> index &amp;&amp; <a href="#is_decimal">is_decimal</a> generation
///     then (if <a href="#is_handle">is_handle</a> (<a href="#written">written</a> index generation) then <a href="../../logic/index.html#Ok">Ok</a> (<a href="#written">written</a> index generation) else <a href="../../logic/index.html#Err">Err</a> Range)
///     else <a href="../../logic/index.html#Err">Err</a> Shape
/// <a href="#handle_of_parts">handle_of_parts</a> _ = <a href="../../logic/index.html#Err">Err</a> Shape
/// </pre>
///
/// <pre>
/// -- the handle of a text
/// abbrev pub <b id="handle_of">handle_of</b> : <a href="../../logic/index.html#List">List</a> <a href="../../logic/index.html#ℕ">ℕ</a> → <a href="../../logic/index.html#Result">Result</a> <a href="../handle/index.html#Handle">Handle</a> TextFault
/// <a href="#handle_of">handle_of</a> bytes = <a href="#handle_of_parts">handle_of_parts</a> (slice_split (λ b. b == 118) bytes)
/// </pre>
pub mod text {}

#[doc(alias("HandedBack"))]
/// What was handed in, and why it was not taken.
///
/// <pre>
/// -- What was handed in, and why it was not taken.
/// pub record <b id="HandedBack">HandedBack</b> (T E : Type 0) : Type 0 where
///   pub value : T
///   pub error : E
/// </pre>
pub mod handed_back {}
