#!/bin/sh
# Runs `spawnrun run`, as cargo builds it, beside the peer of ./peer on eight works, and prints the table of their times and memory. ROUNDS
# is how often each runs, by default 9.
# It needs `cargo`, `python3`, Linux, 200 MB for temporary files, and the crates of .ci/debian.sh.
set -eu
here=$(cd "$(dirname "$0")" && pwd)
top=$here/../../../..
target=$top/rust/offline/target
cargo build --offline --quiet --profile programs --features programs --manifest-path "$top/rust/offline/Cargo.toml"
cargo build --offline --quiet --release --config "$top/.ci/debian.toml" --manifest-path "$here/peer/Cargo.toml" --target-dir "$target/peer"
python3 "$here/beside_peer.py" "$target/programs/spawnrun" "$target/peer/release/peer"
