#!/bin/sh
# Runs a long script of long frames on eight workers, in blocks too, with each of its threads refused in turn, and with all of them. Each
# run must end as one on one worker does: a worker whose thread can't be started runs on another thread, and the report doesn't tell. There
# must be just as many threads as the text, the systems and the report need, since no contract says that `run` starts any. It needs `cc` on
# the path, and the program as `.ci/run` or `prove.sh` built it. If it wasn't built, `rt`, which then proves it first.
set -eu
here=$(cd "$(dirname "$0")" && pwd)
room=$(mktemp -d)
trap 'rm -rf "$room"' EXIT
program=${PROGRAMS:-$here/../crates/spawnrun/out}/spawnrun
script=$room/script
[ -x "$program" ] || (cd "$here/../crates/spawnrun" && rt run >"$room/built" 2>&1)
cc -O2 -shared -fPIC -o "$room/refuse.so" "$here/refuse_thread.c" -ldl

# A system of so many commands that a frame of it and others starts threads.
system() {
    awk 'BEGIN {
        printf "[{\"spawn\":{},\"as\":\"a\"}"
        for (i = 0; i < 9000; i++) printf ",{\"insert\":{\"hp\":%d},\"on\":{\"name\":\"a\"}}", i
        printf "]"
    }'
}
one=$(system)
many='[{"spawn_many":40000}]'
echo "{\"components\":[\"hp\"],\"frames\":[[$many],[$one,$one,$one],[$one],[$one,$one]]}" >"$script"

# run NUMBER WORDS..: the script with that thread refused. It makes the file refused if it came so far.
run() {
    number=$1
    shift
    rm -f "$room/refused"
    LD_PRELOAD=$room/refuse.so REFUSE=$number REFUSED=$room/refused "$program" run "$@" <"$script" >"$room/printed"
    cmp "$room/printed" "$room/wanted"
}

# each WHAT WORDS..: the script with each of its threads refused in turn, and with all. Eight workers read it, and one of them is there
# already. Its frames have 1, 3, 1 and 2 systems, and need a thread for each system but one. Five workers write the 40,006 entities.
each() {
    what=$1 threads=$((7 + 2 + 1 + 4))
    shift
    "$program" run "$@" <"$script" >"$room/wanted"
    for thread in $(seq "$threads"); do
        run "$thread" "$@" --workers 8
        [ -e "$room/refused" ] || { echo "$what: there is no thread $thread"; exit 1; }
    done
    run $((threads + 1)) "$@" --workers 8
    [ ! -e "$room/refused" ] || { echo "$what: there are more than $threads threads"; exit 1; }
    run all "$@" --workers 8
    echo "$what: each of $threads threads refused in turn, and all: undisturbed"
}

each 'a script'
each 'a script in blocks' --blocks 40064
each 'a script in blocks, with handles' --blocks 40064 --show handles
