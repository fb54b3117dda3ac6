#!/bin/sh
# Prints the tables of `cargo bench`, beside the crates slotmap and sharded-slab. These are Debian's packages librust-slotmap-dev and
# librust-sharded-slab-dev; one that is missing is left out. It needs `cargo` and `rustc` on the path. Words behind it name the tables
# that are wanted: calls, kinds, clones, images, births, components, walks, logs, threads, frames; or blocks, layouts, memory, which aren't
# printed else.
# `FORGENI_ROUNDS=3` makes it short, and its figures rough.
set -eu
package=$(cd "$(dirname "$0")/.." && pwd)
registry=/usr/share/cargo/registry
out=$(mktemp -d)
trap 'rm -rf "$out"' EXIT

flags="-L $out"

# Builds the crate $1, whose source lies in the folder $2, with the words that follow.
library() {
    name=$1 source=$2
    shift 2
    rustc -C opt-level=3 --crate-type rlib --edition 2018 --cap-lints allow -L "$out" "$@" \
        --crate-name "$name" -o "$out/lib$name.rlib" "$source/src/lib.rs"
    flags="$flags --extern $name=$out/lib$name.rlib"
}

slots=$(ls -d "$registry"/slotmap-1.* 2>/dev/null | tail -1)
if [ -n "$slots" ]; then
    library slotmap "$slots" --cfg 'feature="std"'
    flags="$flags --cfg slotmap"
else
    echo "run.sh: the slot map is left out; apt-get install librust-slotmap-dev brings it" >&2
fi
slab=$(ls -d "$registry"/sharded-slab-* 2>/dev/null | tail -1)
if [ -n "$slab" ]; then
    library lazy_static "$(ls -d "$registry"/lazy_static-1.* | tail -1)"
    library sharded_slab "$slab" --extern lazy_static
    flags="$flags --cfg sharded_slab"
else
    echo "run.sh: the sharded slab is left out; apt-get install librust-sharded-slab-dev brings it" >&2
fi
cd "$package/../offline"
RUSTFLAGS="$flags" CARGO_TARGET_DIR="$out/target" cargo bench --offline --quiet -- "$@"
