#!/usr/bin/env bash
# The package in plain Rust: its tests, its docs with their examples and links, the names in them and in what the compiler says of mistakes,
# and its lints, with the standard library and without it, and each example, which must print
# what its first comment says. Cargo has no network and an empty folder of its own, as for somebody who has the repository and nothing else.
# So have a package that depends on this one, and `cargo install`. The package's own folder needs the index of crates.io, so all runs in
# rust/offline.
set -eu
cd "$(dirname "$0")/../rust/offline"
empty=$(mktemp -d)
trap 'rm -rf "$empty"' EXIT
export CARGO_HOME=$empty/home
# Only the allocator of the tests has any, since Rust's trait of allocators requires it.
if grep -rnw unsafe --include=*.rs --exclude=refusing_allocator.rs .. | grep -v "forbid(unsafe_code)"; then
    echo "rust: unsafe code"
    exit 1
fi
for test in ../forgeni/tests/*.rs; do
    name=$(basename "$test" .rs)
    grep -qx "mod $name;" ../forgeni/tests/all.rs || grep -qx "name = \"$name\"" Cargo.toml || {
        echo "$test is neither in tests/all.rs nor a program of its own in Cargo.toml, so it isn't run"
        exit 1
    }
done
cargo test --offline --locked
# The stand-ins for the kit, as optimised code that checks for overflow.
CARGO_PROFILE_RELEASE_OVERFLOW_CHECKS=true ../../.ci/tested.sh .ci/forgeni.sh --release --lib kit::
# In a new folder, where no page is one of an earlier run.
RUSTDOCFLAGS="-D warnings" cargo doc --offline --no-deps --target-dir "$empty/docs"
../../.ci/shown_docs.py "$empty/docs/doc"
(cd ../.. && .ci/contracts.py check "$empty/docs/doc")
printf '%s\n' ../forgeni/tests/ui/*.rs | sed 's,.*/,,' | python3 ../../.ci/picks.py .ci/forgeni.sh mistakes
python3 ../../.ci/names.py "$empty/docs/doc"
if cargo clippy --version >/dev/null 2>&1; then
    cargo clippy --offline --all-targets -- -D warnings
    cargo clippy --offline --all-targets --no-default-features -- -D warnings
fi
printf '%s\n' ../forgeni/examples/*.rs | sed 's,.*/,,' | python3 ../../.ci/picks.py .ci/forgeni.sh examples
for example in ../forgeni/examples/*.rs; do
    name=$(basename "$example" .rs)
    diff <(sed -n '/^\/\/! ```text$/,/^\/\/! ```$/p' "$example" | sed '1d; $d; s,^//! \{0\,1\},,') \
        <(cargo run --quiet --offline --example "$name")
    echo "rust/forgeni: the example $name prints what its comment says"
done
cargo test --offline --no-default-features

cargo new --quiet --vcs none "$empty/dependent"
echo "forgeni = { path = \"$PWD/../forgeni\" }" >>"$empty/dependent/Cargo.toml"
cp ../forgeni/examples/first.rs "$empty/dependent/src/main.rs"
(cd "$empty/dependent" && cargo run --offline --quiet | grep -qx "4000 alive")
cargo install --offline --quiet --debug --path . --features programs --root "$empty/installed" 2>"$empty/printed" || {
    cat "$empty/printed"
    exit 1
}
"$empty/installed/bin/spawnrun" replay <../../examples/one_caller.txt | grep -qx "born 2v1 0v2"
echo "rust/forgeni: a package that depends on it, and cargo install, need no network"
