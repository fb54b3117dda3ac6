#!/bin/sh
# Prints the table of how large both programs are, as the kit and as cargo build them, in bytes: as they are, and without symbols.
# It needs `cargo` and `strip` on the path, and the kit's programs as the gate built them, or `rt`, which then builds them.
set -eu
here=$(cd "$(dirname "$0")" && pwd)
top=$here/../../../..
out=$(mktemp -d)
trap 'rm -rf "$out"' EXIT

# bytes FILE: its length, and that without symbols.
bytes() {
    strip -o "$out/stripped" "$1"
    echo "$(wc -c <"$1") | $(wc -c <"$out/stripped")"
}

cargo build --offline --quiet --profile programs --features programs --manifest-path "$top/rust/offline/Cargo.toml"
echo "| Program | Bytes | Without symbols | By cargo | Without symbols |"
echo "|---|---|---|---|---|"
for name in spawnrun tracecheck; do
    program=$top/crates/$name/out/$name
    [ -x "$program" ] || (cd "$top/crates/$name" && rt run </dev/null >"$out/log" 2>&1) || { tail -5 "$out/log"; exit 1; }
    echo "| \`$name\` | $(bytes "$program") | $(bytes "$top/rust/offline/target/programs/$name") |"
done
