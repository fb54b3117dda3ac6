#!/bin/sh
# Runs `spawnrun replay` on schedules of several lengths and shapes, and prints the table of times and memory, of the kit's build and of that
# by cargo. The first is that of crates/spawnrun as the gate built it, or it is built. An outcome that is not what the model in schedule.py
# says ends it. ROUNDS is how often each runs, by default 10.
# It needs `rt`, `cargo` and `python3` on the path, the /proc of Linux, and 70 MB for temporary files.
set -eu
here=$(cd "$(dirname "$0")" && pwd)
crate=$here/../..
rust=$here/../../../../rust/offline
out=$(mktemp -d)
trap 'rm -rf "$out"' EXIT

row() {
    python3 "$here/schedule.py" "$2" "$1" --outcomes "$out/outcomes" >"$out/schedule"
    python3 "$here/measure.py" "$crate/out/spawnrun" "$rust/target/programs/spawnrun" "$1" "$out/schedule" "$out/outcomes"
}

[ -x "$crate/out/spawnrun" ] || (cd "$crate" && rt run -- replay </dev/null >"$out/log" 2>&1) || { tail -5 "$out/log"; exit 1; }
cargo build --offline --quiet --profile programs --features programs --manifest-path "$rust/Cargo.toml"
echo "| Schedule | Lines | Input bytes | Output bytes | ms | ns a line | Peak MiB | Peak bytes a line | ms by cargo | Ratio | Peak MiB by cargo |"
echo "|---|---|---|---|---|---|---|---|---|---|---|"
row mixed 10000
row mixed 100000
row mixed 1000000
# The look-up of a caller's call is no scan, and nothing walks the list of the slots that wait.
row callers-16 1000000
row callers-1024 1000000
row waiting 1000000
