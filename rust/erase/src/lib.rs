//! Takes what is ghost out of proved sources, so that plain Rust is left.
//!
//! A proved source is Rust with more in it: contracts, terms for proofs, and words to the prover.
//! None of that runs. [`erase`] takes it out and rewrites the few forms in which the kit of the
//! proofs is not Rust. It knows each form by name ([`forms`]), and refuses a source with any other.
//! What a person reads stays: comments, layout, and the clauses, as comments below a signature or
//! in its docs.
//!
//! Whether the result is the source less what is ghost is tested apart from that, on the tokens of
//! both ([`audit`]).
//!
//! # What it does
//!
//! A proved source is Rust with contracts, terms for proofs, and words to the prover. The eraser
//! takes these out. What is left is plain Rust, in `rust/forgeni/src/proved`.
//!
//! - **It copies nothing that it doesn't know.** It reads tokens, item by item. Each form that it
//!   removes, rewrites or keeps is in a list (`src/forms.rs`). Any other form is an error with file
//!   and line. If it means the same in Rust as in Rattle, add it to the list. `src/plan.rs` lists
//!   the crates, `src/host.rs` and `src/programs.rs` what tests and programs may use besides.
//! - **It resolves names.** A name in code must be declared in the sources (`src/names.rs`), bound
//!   or imported in its file (`src/scope.rs`), or in a list. No source may give another meaning to
//!   a name that the eraser acts on or that Rust's prelude has. Each `impl` is for a type of the
//!   sources. A method whose name std has too (`src/std_methods.txt`) must be in a list, or its
//!   receiver must.
//! - **Forms that could become another program have tests**, one a file of `tests/forms`.
//! - **Each result is audited.** `src/audit.rs` shares the lexer with the eraser, but knows nothing
//!   of how a result is written. It refuses a result whose tokens and comments aren't the source's
//!   less what is ghost, plus what `differences.txt` and the following list say.
//!
//! # What it changes
//!
//! - `requires` and `ensures` become comments, and those of a public function with docs become part
//!   of its docs, below "Contract". Links of docs to `forgeni::` lead to what the package itself
//!   shows.
//! - A function with a `requires` is `pub(crate)`, and so is its import, so it needs a `pub use` of
//!   its own. That a closure may be called is no such condition, since any may. A `clone` that
//!   calls `again` returns no `Result`, and no other `clone` is known.
//! - `alloc: Global` goes, as a parameter and a field, in literals, patterns, arguments and types
//!   (`src/memory.rs`). A trait with ghost members only is ghost, and so is a type parameter that
//!   it alone bounds, with its `PhantomData` and the argument `Brand` (`src/ghost_types.rs`).
//! - A list is Rust's own. A call that Rattle's list has otherwise becomes one of the trait
//!   `FallibleVec`: `push_fallibly`. So a declaration has to show whether a value is a list
//!   (`src/lists.rs`). Otherwise it is refused.
//! - The last two parameters of `System` and `LogSystem` have defaults: the shared allocator, and
//!   out of memory.
//! - A `Reserver` and a `Log` are aligned to 128 bytes. What the `fmt` of `Handle` writes keeps a
//!   width (`padded!`). `format!(in alloc; ..)` of the programs becomes a `format!` of the
//!   package's kit.

pub mod arranging;
mod attributes;
pub mod audit;
mod code;
mod conditions;
mod contracts;
pub mod crates;
pub mod edit;
mod erase;
pub mod forms;
mod functions;
mod ghost_types;
pub mod host;
mod items;
pub mod lex;
mod lists;
mod memory;
mod messages;
mod names;
pub mod naming;
mod paths;
pub mod plan;
pub mod programs;
mod scope;
pub mod source;
mod types;
mod walk;

pub use erase::{erase, header};
pub use names::Names;
