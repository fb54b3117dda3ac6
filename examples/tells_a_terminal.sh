#!/bin/sh
# Runs the programs with a terminal as standard error and without one. `spawnrun` gets a schedule and a script that come late. Its run takes
# more than a second, so a terminal must show how far it is, in a line that is empty in the end. `tracecheck` gets long traces. A terminal
# must show after each million lines how many were read, and nothing for a shorter trace. Anything that isn't a terminal must get nothing.
# In both cases the output must be the same. No contract says what `main` takes for a terminal. The script needs `script` of util-linux for a
# terminal, without which it shows nothing, and the programs as `.ci/run` or `prove.sh` built them. If one wasn't built, it needs `rt`, which
# then proves it first.
set -eu
here=$(cd "$(dirname "$0")" && pwd)
out=$(mktemp -d)
trap 'rm -rf "$out"' EXIT

command -v script >/dev/null || { echo "there is no script of util-linux, so no terminal"; exit 0; }

# built NAME: the program of that crate.
built() {
    program=${PROGRAMS:-$here/../crates/$1/out}/$1
    [ -x "$program" ] || (cd "$here/../crates/$1" && rt run >"$out/built" 2>&1)
}

# tells WHAT SEEN INPUT WORDS..: if the command INPUT makes the input, a terminal must show SEEN.
tells() {
    what=$1 input=$3
    printf "$2" >"$out/wanted"
    shift 3
    sh -c "$input" | "$program" "$@" >"$out/plain" 2>"$out/said"
    script -qec "($input) | '$program' $* >'$out/printed'" "$out/typescript" </dev/null >"$out/seen"
    if [ -s "$out/said" ] || ! cmp "$out/plain" "$out/printed" || ! cmp "$out/wanted" "$out/seen"; then
        echo "$what: standard error, and a terminal, had"
        od -c "$out/said"
        od -c "$out/seen"
        exit 1
    fi
    echo "$what: a terminal sees $(wc -c <"$out/seen") bytes"
}

built spawnrun
schedule="cat '$here/one_caller.txt'"
frames="cat '$here/data/reuse.json'"
tells 'a schedule' '' "$schedule" replay
tells 'a script' '' "$frames" run
tells 'a script in blocks' '' "$frames" run --blocks 64
tells 'a schedule after 1.1 seconds' '\r0 of 7 done\r\033[K' "sleep 1.1; $schedule" replay
tells 'a script after 1.1 seconds' '\r0 of 3 done\r\033[K' "sleep 1.1; $frames" run
tells 'a script in blocks after 1.1 seconds' '\r0 of 3 done\r\033[K' "sleep 1.1; $frames" run --blocks 64

# A terminal writes each line feed as a carriage return and a line feed.
built tracecheck
lines() {
    echo "yes len | head -n $1"
}
tells 'a trace of 999,999 lines' '' "$(lines 999999)"
tells 'a trace of a million lines' '1 million lines\r\n' "$(lines 1000000)"
tells 'a trace of 2,999,999 lines' '1 million lines\r\n2 million lines\r\n' "$(lines 2999999)"
