#!/usr/bin/env bash
# The archives of the package and of the eraser, as crates.io would have them, in an empty folder: they build by themselves, and their tests
# pass, the package's with its programs. Then its features `serde` and `rayon`: a check of all features in a
# workspace of others, their operations on `usize`, their docs and their lints, a build without the standard library, and the tests of
# rust/serde_tests and rust/rayon_tests, which depend on the archive. The crates of others are Debian's, of other versions than those of the
# lock file, so each build is without it.
set -eu
cd "$(dirname "$0")/.."
top=$PWD
.ci/debian.sh
empty=$(mktemp -d)
trap 'rm -rf "$empty"' EXIT

# Cargo, with Debian's crates and no network.
debian() {
    command=$1
    shift
    cargo "$command" --config "$top/.ci/debian.toml" --offline --quiet "$@"
}

cargo package --offline --no-verify --allow-dirty --quiet --manifest-path rust/erase/Cargo.toml --target-dir "$empty/packed"
tar -xzf "$empty"/packed/package/erase-*.crate -C "$empty"
(cd "$empty"/erase-* && cargo test --offline --quiet)
echo "rust/erase: its archive builds by itself, and its tests pass"

mkdir "$empty/others"
tar -cf - --exclude=forgeni/target --exclude=forgeni/Cargo.lock -C rust forgeni | tar -xf - -C "$empty/others"
printf '[workspace]\nmembers = ["forgeni"]\nresolver = "3"\n' >"$empty/others/Cargo.toml"
(cd "$empty/others/forgeni" && debian check --all-features --all-targets)
echo "rust/forgeni: all features are checked in a workspace"

python3 .ci/empty_crates.py rust/forgeni "$empty/crates"
cargo package --config "$empty/crates/config.toml" --offline --locked --quiet --no-verify --allow-dirty \
    --manifest-path rust/forgeni/Cargo.toml --target-dir "$empty/packed"
tar -xzf "$empty"/packed/package/forgeni-*.crate -C "$empty"
mv "$empty"/forgeni-* "$empty/forgeni"
cd "$empty/forgeni"
rm Cargo.lock
debian test --features programs
echo alloc | debian run --features programs --bin spawnrun -- replay | grep -qx 0v1
echo "rust/forgeni: its archive builds by itself, and its tests pass"

python3 "$top/.ci/usize.py" "$PWD"
RUSTDOCFLAGS="-D warnings" debian doc --no-deps --features serde,rayon
debian build --no-default-features --features serde
lints() {
    if cargo clippy --version >/dev/null 2>&1; then
        debian clippy --all-targets "$@" -- -D warnings
    fi
}
lints --features serde,rayon
lints --no-default-features --features serde

# feature NAME: the tests of rust/NAME_tests.
feature() {
    cp -r "$top/rust/$1_tests" "$empty/$1_tests"
    cd "$empty/$1_tests"
    rm -rf Cargo.lock target
    export CARGO_TARGET_DIR=$top/rust/$1_tests/target
    debian test
    lints
}
feature rayon
echo "rust/rayon_tests: the tests of the feature rayon pass"
debian run --release
feature serde
diff <(sed -n '/^\/\/! ```text$/,/^\/\/! ```$/p' src/main.rs | sed '1d; $d; s,^//! \{0\,1\},,') <(debian run)
echo "rust/serde_tests: the tests of the feature serde pass, and the example prints what its comment says"
