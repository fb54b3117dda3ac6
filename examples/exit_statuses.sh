#!/bin/sh
# Runs the program until it has ended with each of its exit statuses but 3, which `refuse_at_once.sh` shows: on input that is accepted and
# input that is refused, on words that are no command line, on a folder, which can't be read, into a device that is full, and into a pipe that
# nobody reads, of which it must say nothing. The input is also a file that the last word names. No contract says what `main` makes of the
# status that `start` gives, or what `start` takes for the input, so this is what tells. It needs `/dev/full`, and the program as `.ci/run` or
# `prove.sh` built it. If it wasn't built, `rt`, which then proves it first.
set -eu
here=$(cd "$(dirname "$0")" && pwd)
out=$(mktemp -d)
trap 'rm -rf "$out"' EXIT

program=${PROGRAMS:-$here/../crates/spawnrun/out}/spawnrun
scripts=$here/data
[ -x "$program" ] || (cd "$here/../crates/spawnrun" && rt run >"$out/built" 2>&1)
: >"$out/nothing"

# ends STATUS PRINTED SAID INPUT WORDS..: the program with this input and these words ends so, and what begins its output and its standard
# error are these texts. One without a text must be empty.
ends() {
    wanted=$1 printed=$2 said=$3 input=$4
    shift 4
    status=0
    "$program" "$@" <"$input" >"$out/printed" 2>"$out/said" || status=$?
    [ "$status" = "$wanted" ] && begins "$out/printed" "$printed" && begins "$out/said" "$said" || {
        echo "spawnrun $* ended with $status, and printed:"
        cat "$out/printed" "$out/said"
        exit 1
    }
    echo "$status: spawnrun $*"
}

# begins FILE TEXT
begins() {
    [ -n "$2" ] || [ ! -s "$1" ] || return 1
    case $(cat "$1") in "$2"*) ;; *) return 1 ;; esac
}

ends 0 '' '' "$out/nothing" replay
ends 0 'frame 0' '' "$scripts/spawners.json" run
ends 0 'frame 0' '' "$scripts/spawners.json" run --workers 64 --show handles

echo '{}' >"$out/object"
ends 1 'refused line 1 word' 'a line must be ' "$out/object" replay
ends 1 'refused script components' "'components' must be " "$out/object" run

# Words that are refused use no device: nothing is printed, though the input is one that would be accepted.
ends 2 '' 'error: ' "$here/one_caller.txt"
ends 2 '' 'error: ' "$here/one_caller.txt" rerun
ends 2 '' 'error: ' "$here/one_caller.txt" replay once again
ends 2 '' 'error: ' "$here/one_caller.txt" replay --slots
ends 2 '' 'error: ' "$here/one_caller.txt" replay --slots 0
ends 2 '' 'error: ' "$here/one_caller.txt" replay --slots 4294967296
ends 2 '' 'error: ' "$here/one_caller.txt" replay --slots 2 --slots 3
ends 2 '' 'error: ' "$here/one_caller.txt" replay --workers 1
ends 2 '' 'error: ' "$scripts/spawners.json" run --workers 0
ends 2 '' 'error: ' "$scripts/spawners.json" run --workers 65
ends 2 '' 'error: ' "$scripts/spawners.json" run --show rows
ends 2 '' 'Runs schedules and scripts ' "$here/one_caller.txt" --help
ends 2 '' 'Runs the schedule ' "$here/one_caller.txt" replay --help
ends 2 '' 'Runs the script ' "$scripts/spawners.json" run --help

ends 2 '' 'spawnrun ' "$here/one_caller.txt" --version

ends 4 '' 'device' "$here" replay
ends 4 '' 'device' "$here" run

# A file that the last word names is the input, and standard input isn't read. Such a file has to be there, and can be opened.
ends 0 '0v1' '' "$out/object" replay "$here/one_caller.txt"
ends 0 '0v1' '' "$out/object" replay --slots 4 "$here/one_caller.txt"
ends 0 'frame 0' '' "$out/object" run --workers=2 "$scripts/spawners.json"
ends 1 'refused line 1 word' 'a line must be ' "$here/one_caller.txt" replay "$out/object"
ends 4 '' "spawnrun: no such file: $out/none" "$here/one_caller.txt" replay "$out/none"
ends 4 '' "spawnrun: can't be opened: $out/" "$here/one_caller.txt" replay "$out/$(printf '%0300d' 0)"
ends 2 '' 'error: ' "$here/one_caller.txt" replay --slots "$here/one_caller.txt"
ends 2 '' 'error: ' "$here/one_caller.txt" replay "$here/one_caller.txt" "$here/one_caller.txt"
ends 2 '' 'error: ' "$here/one_caller.txt" "$here/one_caller.txt"
ends 4 '' "spawnrun: is a folder: $here" "$here/one_caller.txt" run "$here"

# full INPUT WORDS..: all that the program prints is lost.
full() {
    input=$1
    shift
    status=0
    "$program" "$@" <"$input" >/dev/full 2>"$out/said" || status=$?
    [ "$status" = 4 ] && [ "$(cat "$out/said")" = device ] || {
        echo "spawnrun $* ended with $status where nothing can be written"
        exit 1
    }
    echo "4: spawnrun $* where nothing can be written"
}

# unread INPUT WORDS..: nobody reads what the program prints. The pipe is held open until its reader has left.
unread() {
    input=$1
    shift
    rm -f "$out/ended"
    {
        while [ ! -e "$out/left" ]; do sleep 0.1; done
        "$program" "$@" <"$input" 2>"$out/said" || echo $? >"$out/ended"
    } | { exec <&-; : >"$out/left"; }
    rm "$out/left"
    [ "$(cat "$out/ended")" = 4 ] && [ ! -s "$out/said" ] || {
        echo "spawnrun $* ended with $(cat "$out/ended") where nobody reads, and said:"
        cat "$out/said"
        exit 1
    }
    echo "4: spawnrun $* where nobody reads"
}

unread "$here/one_caller.txt" replay
unread "$scripts/spawners.json" run
unread "$out/object" run
unread "$out/nothing" replay "$here/one_caller.txt"

full "$here/one_caller.txt" replay
full "$scripts/spawners.json" run
full "$out/object" replay
full "$out/object" run
full /dev/zero replay
full /dev/zero run

# Each status is named by the help.
"$program" --help 2>"$out/help" || true
for status in 0 1 2 3 4; do
    grep -q "^  $status  " "$out/help" || { echo "the help doesn't name the status $status"; exit 1; }
done
