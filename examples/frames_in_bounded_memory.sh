#!/bin/sh
# Runs 100,000 frames, each in a world of its own, under a limit on the address space: what a hundred of them take, which is measured first,
# and 1 MiB more. So frames give back the memory that they took, also those that are lost. If each kept one piece of memory, they would take
# 3 MB more. It needs `timeout` on the path, a shell with `ulimit -v`, and the program of the cases as `.ci/run` built it.
set -eu
here=$(cd "$(dirname "$0")" && pwd)
program=$here/../crates/cases_and_examples/out/cases_and_examples
[ -x "$program" ] || { echo "the cases are not built, .ci/run builds them"; exit 1; }
out=$(mktemp -d)
trap 'rm -rf "$out"' EXIT
program=$(cd "$(dirname "$program")" && pwd)/cases_and_examples
cd "$out"

# frames COUNT END ANSWER: a file of so many frames, whose second system ends so.
frames() {
    printf '%s\n' "for n in 0..$1" 'world 4294967295 2147483647 => done' 'system spawn 0=5 => done' "system spawn 0=7$2 => done" \
        "frame 1 => $3" end >"frames_$1"
}

# run KIBIBYTES COUNT: so many frames under that limit. It sets status.
run() {
    status=0
    (
        ulimit -v "$1"
        exec timeout 300 "$program" "frames_$2"
    ) >printed 2>said || status=$?
}

# given_back END ANSWER
given_back() {
    frames 100 "$1" "$2"
    frames 100000 "$1" "$2"
    # The least limit under which a hundred run, to 16 KiB.
    low=0 least=65536
    while [ $((least - low)) -gt 16 ]; do
        middle=$(((low + least) / 2))
        run "$middle" 100
        if [ "$status" = 0 ]; then least=$middle; else low=$middle; fi
    done
    run $((least + 1024)) 100000
    [ "$status" = 0 ] || { echo "frames keep memory: status $status"; tail -n 1 printed said; exit 1; }
    echo "100,000 frames, $2: at most 1024 KiB more than 100"
}

given_back '' done
given_back '; stop' 'out of memory while the systems ran'
