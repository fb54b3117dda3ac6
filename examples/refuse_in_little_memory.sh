#!/bin/sh
# Runs `spawnrun run` under a limit on its address space, on texts of about 4 MB that are no scripts: a list of small objects, objects that
# nest, a script with a key too many, and one whose last operation means nothing. Each must be refused by its line, within five seconds of the
# processor, in eight bytes of memory for each byte of text beside what the program takes anyway. It needs `timeout` and `awk` on the path,
# a shell with `ulimit -v`, and the program as `.ci/run` or `prove.sh` built it. If it wasn't built, `rt`, which then proves it first.
set -eu
here=$(cd "$(dirname "$0")" && pwd)
out=$(mktemp -d)
trap 'rm -rf "$out"' EXIT

program=${PROGRAMS:-$here/../crates/spawnrun/out}/spawnrun
[ -x "$program" ] || (cd "$here/../crates/spawnrun" && rt run -- run <"$here/two_callers.txt" >"$out/built" 2>&1) || true

# list FRONT ITEM COUNT BACK
list() {
    awk -v front="$1" -v item="$2" -v count="$3" -v back="$4" \
        'BEGIN { printf "%s%s", front, item; for (i = 1; i < count; i++) printf ",%s", item; print back }'
}

# refused TEXT LINE
refused() {
    bytes=$(wc -c <"$out/$1")
    limit=$((65536 + 8 * bytes / 1024))
    status=0
    (
        ulimit -v "$limit"
        ulimit -t 5
        exec timeout 120 "$program" run
    ) <"$out/$1" >"$out/printed" 2>"$out/said" || status=$?
    if [ "$status" = 1 ] && [ "$(cat "$out/printed")" = "$2" ]; then
        echo "$1, $bytes bytes under $limit KiB: $2"
    else
        echo "$1, $bytes bytes under $limit KiB: wrong, status $status"
        exit 1
    fi
}

deep=0
for _ in 1 2 3 4 5 6 7 8 9 10; do
    deep="{\"a\":{\"a\":{\"a\":{\"a\":{\"a\":{\"a\":{\"a\":{\"a\":{\"a\":{\"a\":$deep}}}}}}}}}}"
done
system=$(list '[' '{"spawn":{"a":0}}' 5000 ']')
list '[' '{"":0}' 600000 ']' >"$out/list"
list '{"frames":[' "$deep" 7000 ']}' >"$out/nested"
list '{"components":["a"],"key":[' '[]' 1400000 '],"frames":[]}' >"$out/key"
list '{"components":["a"],"frames":[[' "$system" 40 ',[7]]]}' >"$out/operation"
refused list 'refused script top'
refused nested 'refused script components'
refused key 'refused script key'
refused operation 'refused operation 0 40 0 shape'
