#!/bin/sh
# Proves the program and all crates below it, and builds and runs it, as the gate does, but without mutants, tests and other crates.
# With arguments it takes these crates in place of the program. What it builds stands in crates/NAME/out/NAME. It works on a copy, needs `rt`
# on the path, and ends with 0 exactly if all is proved.
set -eu
top=$(cd "$(dirname "$0")" && pwd)
[ $# -gt 0 ] || set -- spawnrun
copy=$(mktemp -d)
trap 'rm -rf "$copy"' EXIT
trap 'exit 1' HUP INT TERM

for crate in "$@"; do
    grep -q "^$crate[: ]" "$top/crates.txt" || { echo "crates.txt names no crate $crate"; exit 1; }
done
# The lines of these crates, and of all that they use.
awk -F: -v wanted="$*" '
    function take(name, used, count, i) {
        if (!(name in line) || name in taken) return
        taken[name]
        count = split(uses[name], used, " ")
        for (i = 1; i <= count; i++) take(used[i])
        print line[name]
    }
    { sub(/#.*/, "") }
    NF > 1 { split($1, head, " "); line[head[1]] = $0; uses[head[1]] = $2 }
    END { count = split(wanted, names, " "); for (i = 1; i <= count; i++) take(names[i]) }
' "$top/crates.txt" >"$copy/crates.txt"
cp "$top/HANDLES" "$copy"
mkdir "$copy/crates"
for crate in $(sed 's/[: ].*//' "$copy/crates.txt"); do
    cp -R "$top/crates/$crate" "$copy/crates"
    rm -rf "$copy/crates/$crate/out" "$copy/crates/$crate/mutants"
done

(cd "$copy" && rt ci)
for crate in "$@"; do
    if [ -f "$copy/crates/$crate/out/$crate" ]; then
        mkdir -p "$top/crates/$crate/out"
        cp "$copy/crates/$crate/out/$crate" "$top/crates/$crate/out"
    fi
done
