#!/bin/sh
# Runs `spawnrun run` on scripts of several lengths and shapes, and prints the table of times and memory, of the kit's build
# and of that by cargo. The first is that of crates/spawnrun as the gate built it, or it is built. A report that is not what the
# model in script.py says ends it. Then it runs texts of the greatest length, of which two are no scripts, and prints the table of
# these. ROUNDS is how often each script runs, by default 7.
# It needs `rt`, `cargo` and `python3` on the path, Linux, and 300 MB for temporary files.
set -eu
here=$(cd "$(dirname "$0")" && pwd)
crate=$here/../..
rust=$here/../../../../rust/offline
by_cargo=$rust/target/programs/spawnrun
out=$(mktemp -d)
trap 'rm -rf "$out"' EXIT

# A shape, how many commands at least, and the numbers of workers.
row() {
    shape=$1 least=$2
    shift 2
    commands=$(python3 "$here/script.py" "$least" "$shape" --report "$out/report" 2>&1 >"$out/script")
    python3 "$here/measure.py" "$crate/out/spawnrun" "$by_cargo" "$shape" "$commands" "$out/script" "$out/report" "$@"
}

echo '{"components":[],"frames":[]}' >"$out/empty"
[ -x "$crate/out/spawnrun" ] || (cd "$crate" && rt run -- run <"$out/empty" >"$out/log" 2>&1) || { tail -5 "$out/log"; exit 1; }
cargo build --offline --quiet --profile programs --features programs --manifest-path "$rust/Cargo.toml"
echo "| Script | Workers | Commands | Input bytes | Output bytes | ms | ns a command | Peak MiB | Peak bytes a command | ms by cargo | Ratio | Peak MiB by cargo |"
echo "|---|---|---|---|---|---|---|---|---|---|---|---|"
row mixed 10000 1
row mixed 100000 1
row mixed 1000000 1 2 4
# Texts of one command an operation, of a thousand commands an operation, and a world of half a million.
row names 1000000 1
row each 1000000 1
row crowd 1000000 1 4
# A frame of 128 systems that spawn ten thousand entities each, one by one and all at once.
row spawns 1280000 1 2 4
row flocks 1280000 1 2 4
# Worlds in which one system names ten thousand entities by their births.
row births 1000 1
row births 100000 1
row births 1000000 1
echo
python3 "$here/long.py" "$crate/out/spawnrun" "$by_cargo"
