#!/bin/sh
# Runs `tracecheck` on traces of several lengths, and prints the table of times and memory, of the kit's build and of that by cargo. The first
# is that of crates/tracecheck as the gate built it, or it is built. A trace that doesn't agree ends it. LONGEST is the number of lines of the
# longest trace, by default 100,000,000.
# It needs `rt`, `cargo` and `python3` on the path, and the /proc of Linux.
set -eu
here=$(cd "$(dirname "$0")" && pwd)
crate=$here/..
rust=$here/../../../rust/offline
[ -x "$crate/out/tracecheck" ] || (cd "$crate" && rt run </dev/null) >/dev/null 2>&1
cargo build --offline --quiet --profile programs --features programs --manifest-path "$rust/Cargo.toml"
echo "| Trace | Lines | Bytes | s | ns a line | Peak MiB | s by cargo | Ratio | Peak MiB by cargo |"
echo "|---|---|---|---|---|---|---|---|---|"
longest=${LONGEST:-100000000}
row() {
    [ "$2" -gt "$longest" ] || python3 "$here/measure.py" "$crate/out/tracecheck" "$rust/target/programs/tracecheck" "$1" "$2"
}
row threads 1000000
# Memory grows with the longest run, and not with the trace.
row short 1000000
row short 10000000
row short 100000000
