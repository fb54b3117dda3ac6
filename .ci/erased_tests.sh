#!/bin/sh
# The repository's own tests of the proved crates, on the erased sources; and 20,000 random schedules, which the erased code and the program
# of crates/spawnrun have to replay to the same bytes. The gate has built the program before. The benchmark's `replay` in plain Rust has to
# do what the program does on an example. All is built once, as optimised code with debug assertions in which no sum may wrap: so one build
# shows what a debug build and a release build show each.
set -eu
cd "$(dirname "$0")/.."
SPAWNRUN=$PWD/crates/spawnrun/out/spawnrun
[ -x "$SPAWNRUN" ] || { echo "$SPAWNRUN isn't there: rt ci, or rt run in its folder, makes it"; exit 1; }
export SPAWNRUN
cargo run --offline --quiet --manifest-path rust/erase/Cargo.toml -- --tests
cd rust/erased_tests
cargo test --offline --quiet -- --include-ignored
cargo build --offline --quiet --bin replay
example=../../examples/one_caller.txt
"$SPAWNRUN" replay <"$example" >target/replayed
target/debug/replay <"$example" | cmp - target/replayed
