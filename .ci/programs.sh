#!/usr/bin/env bash
# The programs `spawnrun` and `tracecheck` as cargo builds them, without a network: their kit beside an independent reader of JSON, their
# cases, the changed answers, the pictures that they draw, and the scripts of examples/ that run a program. `spawnrun run` has to print the
# same as its peer in docs/PERFORMANCE.md, which is built with Debian's crates.
#
#     programs.sh [CASES]     so many random cases for each comparison, by default 600
set -eu
cd "$(dirname "$0")/.."
cases=${1:-600}
cargo build --offline --quiet --profile programs --features programs --manifest-path rust/offline/Cargo.toml
# README's first commands.
(
    cd rust/offline
    cargo run --offline --quiet --release --features programs --bin spawnrun -- replay < ../../examples/one_caller.txt |
        tail -n 1 | grep -qx 'born 2v1 0v2'
    cargo run --offline --quiet --release --features programs --bin spawnrun -- run --show handles < ../../examples/data/reuse.json |
        tail -n 1 | grep -qx 'alive 4'
    # That of docs/FORMATS.md.
    cargo run --offline --quiet --release --features programs --bin spawnrun -- draw < ../../examples/two_callers.txt |
        cmp - ../../docs/pictures/two_callers.svg
)
(cd rust/offline && ../../.ci/tested.sh .ci/programs.sh --features programs --lib -- drawing:: kit::)
if cargo clippy --version >/dev/null 2>&1; then
    (cd rust/offline && cargo clippy --offline --quiet --all-targets --features programs -- -D warnings)
fi
python3 .ci/tokens.py --texts $((cases < 5000 ? 5000 : cases))
export PROGRAMS=$PWD/rust/offline/target/programs
python3 .ci/cases.py --program "$PROGRAMS/spawnrun"
python3 .ci/scripts_in_blocks.py --program "$PROGRAMS/spawnrun"
python3 .ci/cases.py --crate tracecheck --program "$PROGRAMS/tracecheck"
python3 .ci/changed_replies.py --program "$PROGRAMS/tracecheck"
python3 .ci/changed_answers.py --program "$PROGRAMS/tracecheck"
python3 .ci/pictures.py --check
.ci/debian.sh
peer() {
    command=$1
    shift
    cargo "$command" --config .ci/debian.toml --offline --quiet --manifest-path crates/spawnrun/bench/script/peer/Cargo.toml \
        --target-dir rust/offline/target/peer "$@"
}
peer build
if cargo clippy --version >/dev/null 2>&1; then
    peer clippy -- -D warnings
fi
python3 .ci/peer.py --program "$PROGRAMS/spawnrun" --peer rust/offline/target/peer/debug/peer
scripts=$(grep -l 'PROGRAMS:-' examples/*.sh)
printf '%s\n' "$scripts" | sed 's,.*/,,' | python3 .ci/picks.py .ci/programs.sh scripts
for script in $scripts; do
    echo "== $script"
    sh "$script"
done
