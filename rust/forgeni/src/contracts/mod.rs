// Made of crates/*/specs by .ci/contracts.py. It isn't edited by hand.

//! What the contracts in these docs mean: the definitions that they cite, as they were proved.
//!
//! There are 460, and each one cites only what comes before it. To understand a contract, follow its links. To read them all,
//! begin here:
//!
//! - [`logic`]: Rattle's own words and signs.
//! - [`ent_handle`]: [`handle`](ent_handle::handle), [`birth`](ent_handle::birth), [`bytes`](ent_handle::bytes), [`component`](ent_handle::component), [`text`](ent_handle::text), [`handed_back`](ent_handle::handed_back)
//! - [`ent_alloc`]: [`limits`](ent_alloc::limits), [`sequential`](ent_alloc::sequential), [`roster`](ent_alloc::roster), [`sound`](ent_alloc::sound), [`entities`](ent_alloc::entities), [`portions`](ent_alloc::portions), [`image`](ent_alloc::image), [`first_fault`](ent_alloc::first_fault), [`fault`](ent_alloc::fault), [`spent`](ent_alloc::spent), [`history`](ent_alloc::history), [`runs`](ent_alloc::runs), [`serving`](ent_alloc::serving), [`within`](ent_alloc::within)
//! - [`ent_log`]: [`logs`](ent_log::logs), [`spawning`](ent_log::spawning), [`beginning`](ent_log::beginning), [`handing_on`](ent_log::handing_on)
//! - [`ent_replay`]: [`trace`](ent_replay::trace), [`checker`](ent_replay::checker), [`logs`](ent_replay::logs), [`recording`](ent_replay::recording), [`lending`](ent_replay::lending)
//! - [`ent_shared`]: [`record`](ent_shared::record), [`moves`](ent_shared::moves), [`phase`](ent_shared::phase), [`order`](ent_shared::order), [`replies`](ent_shared::replies)
//! - [`ent_blocks`]: [`blocks`](ent_blocks::blocks), [`drawing`](ent_blocks::drawing), [`ending`](ent_blocks::ending)
//! - [`ent_storage`]: [`bundle`](ent_storage::bundle), [`components`](ent_storage::components), [`entity_map`](ent_storage::entity_map), [`birth_order`](ent_storage::birth_order), [`places`](ent_storage::places), [`handle_map`](ent_storage::handle_map), [`lends`](ent_storage::lends), [`entry`](ent_storage::entry), [`retained`](ent_storage::retained), [`image`](ent_storage::image), [`sparse_map`](ent_storage::sparse_map), [`sparse_entry`](ent_storage::sparse_entry), [`sparse_lends`](ent_storage::sparse_lends)
//! - [`ent_queue`]: [`command`](ent_queue::command), [`reserving`](ent_queue::reserving), [`issuing`](ent_queue::issuing), [`logging`](ent_queue::logging), [`commands`](ent_queue::commands)
//! - [`ent_world`]: [`world`](ent_world::world), [`image`](ent_world::image), [`open_world`](ent_world::open_world), [`effects`](ent_world::effects), [`sync`](ent_world::sync), [`rest`](ent_world::rest), [`memory`](ent_world::memory), [`in_blocks`](ent_world::in_blocks)
//! - [`ent_runner`]: [`runs`](ent_runner::runs), [`filling`](ent_runner::filling), [`frame`](ent_runner::frame), [`logs`](ent_runner::logs), [`blocks`](ent_runner::blocks), [`blocks_refusing`](ent_runner::blocks_refusing), [`run_errors`](ent_runner::run_errors)
//! - [`ent_total`]: [`batch`](ent_total::batch), [`applying`](ent_total::applying), [`spawning`](ent_total::spawning), [`closing`](ent_total::closing), [`phases`](ent_total::phases), [`issuing`](ent_total::issuing), [`reserving`](ent_total::reserving), [`image`](ent_total::image), [`in_world`](ent_total::in_world), [`lending`](ent_total::lending)
//!
//! A definition is a statement or a function of values as contracts see them: a `Vec` is a list, an `Entities` a record. It
//! is never run.

/// The words of the logic, a line each, and its signs.
///
/// | Sign | Means |
/// |---|---|
/// | `a ≡ b` | they are equal; `a ≢ b`: they aren't |
/// | `A → B` | if `A` holds, then `B` does. Of types: the functions from `A` to `B` |
/// | `A × B` | both hold. Of types: the pairs |
/// | `A ⊎ B` | one of them holds |
/// | `A ↔ B` | one holds if and only if the other does |
/// | `(x : A) → B` | for each `x` of `A`, `B` holds |
/// | `(x : A) × B` | for an `x` of `A`, `B` holds |
/// | `f a b` | the function `f` at `a` and `b` |
///
/// | Word | Means |
/// |---|---|
/// | <b id="ensures"><code>ensures</code></b> | what holds when the call returns. Its name, if it has one, is that of the clause. |
/// | <b id="requires"><code>requires</code></b> | what has to hold when the call is made. |
/// | <b id="result"><code>result</code></b> | what the call returns. |
/// | <b id="old"><code>old</code></b> | the value before a call, of something that the call changes: `self.old`. |
/// | <b id="new"><code>new</code></b> | the value after a call, of something that the call changes: `self.new`. |
/// | <b id="now"><code>now</code></b> | the value of something that is only borrowed: `self.now` is the value that the call looks at. |
/// | <b id="λ"><code>λ</code></b> | a function: `λ x. t` maps `x` to `t`. |
/// | <b id="record"><code>record</code></b> | a value with named fields: `record { index = 0; generation = 1 }`. |
/// | <b id="Type"><code>Type</code></b> | the type of types. A statement is a type as well, and is true if that has a value. |
/// | <b id="ℕ"><code>ℕ</code></b> | the natural numbers: 0, 1, 2 and so on. A difference of them is 0 where it would be negative. |
/// | <b id="ℤ"><code>ℤ</code></b> | the integers. Their operators are those of ℕ with a ℤ, as in `a +ℤ b`; `pos n` is the number `n`. |
/// | <b id="Bool"><code>Bool</code></b> | the truth values, `true` and `false`. |
/// | <b id="true"><code>true</code></b> | the value `true` of Rust's `bool`. |
/// | <b id="false"><code>false</code></b> | the value `false` of Rust's `bool`. |
/// | <b id="IsTrue"><code>IsTrue</code></b> | the value is `true`. |
/// | <b id="IsFalse"><code>IsFalse</code></b> | the value is `false`. |
/// | <b id="T"><code>T</code></b> | the statement that a truth value is `true`. |
/// | <b id="List"><code>List</code></b> | the lists: `[]` is empty, `x ∷ xs` begins with `x`, and `xs ++ ys` is one after the other. Contracts see a `Vec` as one. |
/// | <b id="length"><code>length</code></b> | how many items a list has. |
/// | <b id="take"><code>take</code></b> | the first so many items of a list, or all if there are fewer. |
/// | <b id="drop"><code>drop</code></b> | the list without its first so many items. |
/// | <b id="reverse"><code>reverse</code></b> | the list from its end to its beginning. |
/// | <b id="map"><code>map</code></b> | the list of what a function returns for each item. |
/// | <b id="filter"><code>filter</code></b> | the items of a list that pass a test. |
/// | <b id="slice_get"><code>slice_get</code></b> | the item at a position of a list, if there is one. |
/// | <b id="All"><code>All</code></b> | a statement holds for each item of a list. |
/// | <b id="AllPairs"><code>AllPairs</code></b> | a relation holds between each item and each later one. |
/// | <b id="AllZip"><code>AllZip</code></b> | a relation holds between the items of two lists at the same position. The lists have the same length. |
/// | <b id="Contains"><code>Contains</code></b> | the list has this item. |
/// | <b id="SomeIndex"><code>SomeIndex</code></b> | a statement holds for some position of the list. |
/// | <b id="min"><code>min</code></b> | the lesser of two numbers. |
/// | <b id="max"><code>max</code></b> | the greater of two numbers. |
/// | <b id="Option"><code>Option</code></b> | Rust's `Option`. |
/// | <b id="Some"><code>Some</code></b> | Rust's `Some`. |
/// | <b id="None"><code>None</code></b> | Rust's `None`. |
/// | <b id="IsSome"><code>IsSome</code></b> | there is a value. |
/// | <b id="IfSome"><code>IfSome</code></b> | a statement of the value, if there is one. |
/// | <b id="IfNone"><code>IfNone</code></b> | a statement that holds if there is no value. |
/// | <b id="OnSome"><code>OnSome</code></b> | a statement that holds if there is a value. |
/// | <b id="is_some"><code>is_some</code></b> | Rust's `is_some`. |
/// | <b id="unwrap_or"><code>unwrap_or</code></b> | the value, or another one if there is none. |
/// | <b id="UnwrapsOrElse"><code>UnwrapsOrElse</code></b> | the value, or one for which a statement holds if there is none. |
/// | <b id="option_map"><code>option_map</code></b> | Rust's `Option::map`. |
/// | <b id="option_copied"><code>option_copied</code></b> | Rust's `Option::copied`: the value behind the reference. |
/// | <b id="option_copied_mut"><code>option_copied_mut</code></b> | the value behind the mutable reference. |
/// | <b id="Result"><code>Result</code></b> | Rust's `Result`. |
/// | <b id="Ok"><code>Ok</code></b> | Rust's `Ok`. |
/// | <b id="Err"><code>Err</code></b> | Rust's `Err`. |
/// | <b id="IsOk"><code>IsOk</code></b> | there is no error. |
/// | <b id="IfOk"><code>IfOk</code></b> | a statement of the value, if there is no error. |
/// | <b id="IfErr"><code>IfErr</code></b> | a statement of the error, if there is one. |
/// | <b id="OnOk"><code>OnOk</code></b> | a statement that holds if there is no error. |
/// | <b id="OnErr"><code>OnErr</code></b> | a statement that holds if there is an error. |
/// | <b id="IsErrOf"><code>IsErrOf</code></b> | there is an error, and it is this one. |
/// | <b id="IsErrAnd"><code>IsErrAnd</code></b> | there is an error, and a statement holds for it. |
/// | <b id="vec_len"><code>vec_len</code></b> | how many items the vector has. |
/// | <b id="vec_capacity"><code>vec_capacity</code></b> | the number of items that the vector has room for. |
/// | <b id="sem"><code>sem</code></b> | what is behind a reference. |
/// | <b id="ModifiesValue"><code>ModifiesValue</code></b> | a call of the closure changes the first of two values into the second. |
/// | <b id="nat_cmp"><code>nat_cmp</code></b> | Rust's `cmp` of two unsigned numbers. |
/// | <b id="ordering_then"><code>ordering_then</code></b> | Rust's `Ordering::then`. |
/// | <b id="decimal"><code>decimal</code></b> | the text of a number in decimal. |
/// | <b id="digits_value"><code>digits_value</code></b> | the number that digits write. |
/// | <b id="FinMap.FinMap"><code>FinMap.FinMap</code></b> | the finite maps with keys in this order. |
/// | <b id="FinMap.empty"><code>FinMap.empty</code></b> | the map without keys. |
/// | <b id="FinMap.get"><code>FinMap.get</code></b> | the value of a key, if the map has it. |
/// | <b id="FinMap.contains_key"><code>FinMap.contains_key</code></b> | whether the map has a key. |
/// | <b id="FinMap.insert"><code>FinMap.insert</code></b> | the map with one more key, or with another value of that key. |
/// | <b id="FinMap.remove"><code>FinMap.remove</code></b> | the map without a key. |
/// | <b id="FinMap.len"><code>FinMap.len</code></b> | how many keys the map has. |
/// | <b id="FinMap.keys"><code>FinMap.keys</code></b> | the keys of the map, in their order. |
/// | <b id="FinMap.values"><code>FinMap.values</code></b> | the values of the map, in the order of their keys. |
/// | <b id="FinMap.entries"><code>FinMap.entries</code></b> | the keys of the map with their values, in the order of the keys. |
/// | <b id="FinMap.is_sorted"><code>FinMap.is_sorted</code></b> | whether the keys of a list of entries are in strictly ascending order. |
/// | <b id="FinMap.put"><code>FinMap.put</code></b> | the list of entries with one more, at its place. |
/// | <b id="FinMap.find"><code>FinMap.find</code></b> | the value of the first entry with a key. |
/// | <b id="FinSet.FinSet"><code>FinSet.FinSet</code></b> | the finite sets of values in this order. |
/// | <b id="FinSet.empty"><code>FinSet.empty</code></b> | the set without values. |
/// | <b id="FinSet.contains"><code>FinSet.contains</code></b> | whether the set has a value. |
/// | <b id="FinSet.insert"><code>FinSet.insert</code></b> | the set with one more value. |
/// | <b id="FinSet.remove"><code>FinSet.remove</code></b> | the set without a value. |
/// | <b id="FinSet.len"><code>FinSet.len</code></b> | how many values the set has. |
/// | <b id="FinSet.from_list"><code>FinSet.from_list</code></b> | the set of the values of a list. |
pub mod logic {}

pub mod ent_handle;
pub mod ent_alloc;
pub mod ent_log;
pub mod ent_replay;
pub mod ent_shared;
pub mod ent_blocks;
pub mod ent_storage;
pub mod ent_queue;
pub mod ent_world;
pub mod ent_runner;
pub mod ent_total;
