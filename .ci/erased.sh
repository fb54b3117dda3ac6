#!/bin/sh
# The proved sources as plain Rust: the eraser's own tests, and then the erased sources of the package. They are made anew, and compared with
# those that are there. The script fails if one byte differs, or if a source has a form that the eraser doesn't know. A second eraser, by
# another author, makes them by itself, and compares token by token. It must find 500 changed tokens, and each wrong result of small crates
# that are easy to erase wrongly. Each crate is in the package but those that are listed here.
set -eu
cd "$(dirname "$0")/.."
cargo test --offline --quiet --manifest-path rust/erase/Cargo.toml
if cargo clippy --version >/dev/null 2>&1; then
    cargo clippy --offline --quiet --all-targets --manifest-path rust/erase/Cargo.toml -- -D warnings
fi
cargo run --offline --quiet --manifest-path rust/erase/Cargo.toml -- --check
python3 .ci/second_eraser.py --mutate 500
python3 .ci/erase_holes.py
# Those are tests, which .ci/erased_tests.sh has erased.
apart="cases_and_examples ent_tests"
for crate in $(sed -n 's/^\([a-z_]*\)[ :].*/\1/p' crates.txt) $apart; do
    case " $apart " in *" $crate "*) wanted=no ;; *) wanted=yes ;; esac
    if [ -d "rust/forgeni/src/proved/$crate" ]; then found=yes; else found=no; fi
    [ -d "crates/$crate" ] && [ "$found" = "$wanted" ] || { echo "crates/$crate: in the package: $found, and .ci/erased.sh says: $wanted"; exit 1; }
done
echo "crates that aren't in the package: $apart"
