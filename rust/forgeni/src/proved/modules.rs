// The proved crates of this repository as plain Rust, each a module of the package that includes
// this file.
//
// `rust/erase` makes all files here of the sources below `crates/`. What is ghost is taken out, and
// the clauses of a contract go to the docs of a public call, and else stay as comments. None of
// these files is edited by hand: the gate makes them anew and compares. The modules, and some
// items, have other names than in the sources, by the table `rust/erase/names.txt`.
//
// The proofs are of the sources, before that.
//
// What a clause alone reads isn't used here, and the package doesn't call all that is proved. How
// the sources are written is up to them: they have labels where a proof names a loop, and values
// for the case that a call fails.

#[allow(dead_code, unused_assignments, unused_imports, unused_labels, unused_variables, clippy::all)]
#[path = "ent_handle/mod.rs"]
mod handles;

#[allow(dead_code, unused_assignments, unused_imports, unused_labels, unused_variables, clippy::all)]
#[path = "ent_alloc/mod.rs"]
mod allocator;

#[allow(dead_code, unused_assignments, unused_imports, unused_labels, unused_variables, clippy::all)]
#[path = "ent_blocks/mod.rs"]
mod in_blocks;

#[allow(dead_code, unused_assignments, unused_imports, unused_labels, unused_variables, clippy::all)]
#[path = "ent_shared/mod.rs"]
mod reserving;

#[allow(dead_code, unused_assignments, unused_imports, unused_labels, unused_variables, clippy::all)]
#[path = "ent_storage/mod.rs"]
mod components;

#[allow(dead_code, unused_assignments, unused_imports, unused_labels, unused_variables, clippy::all)]
#[path = "ent_log/mod.rs"]
mod logs;

#[allow(dead_code, unused_assignments, unused_imports, unused_labels, unused_variables, clippy::all)]
#[path = "ent_queue/mod.rs"]
mod commands;

#[allow(dead_code, unused_assignments, unused_imports, unused_labels, unused_variables, clippy::all)]
#[path = "ent_world/mod.rs"]
mod worlds;

#[allow(dead_code, unused_assignments, unused_imports, unused_labels, unused_variables, clippy::all)]
#[path = "ent_runner/mod.rs"]
mod running;

#[allow(dead_code, unused_assignments, unused_imports, unused_labels, unused_variables, clippy::all)]
#[path = "ent_total/mod.rs"]
mod phases;

#[allow(dead_code, unused_assignments, unused_imports, unused_labels, unused_variables, clippy::all)]
#[path = "ent_replay/mod.rs"]
mod traces;

#[cfg(feature = "programs")]
#[allow(dead_code, unused_assignments, unused_imports, unused_labels, unused_variables, clippy::all)]
#[path = "cli/mod.rs"]
mod cli;

#[cfg(feature = "programs")]
#[allow(dead_code, unused_assignments, unused_imports, unused_labels, unused_variables, clippy::all)]
#[path = "ent_script/mod.rs"]
mod scripts;

#[cfg(feature = "programs")]
#[allow(dead_code, unused_assignments, unused_imports, unused_labels, unused_variables, clippy::all)]
#[path = "spawnrun_lib/mod.rs"]
mod spawnrun_lib;

#[cfg(feature = "programs")]
#[allow(dead_code, unused_assignments, unused_imports, unused_labels, unused_variables, clippy::all)]
#[path = "spawnrun/mod.rs"]
mod spawnrun;

#[cfg(feature = "programs")]
#[allow(dead_code, unused_assignments, unused_imports, unused_labels, unused_variables, clippy::all)]
#[path = "tracecheck/mod.rs"]
mod tracecheck;
