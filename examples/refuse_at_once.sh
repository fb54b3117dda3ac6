#!/bin/sh
# Runs `spawnrun replay` under a limit on its address space, on schedules of a few lines that request more handles than fit. Each must end
# with status 3, `memory` on standard error and nothing else, within five seconds of the processor, and an ordinary schedule must run as ever. The first
# schedule requests 4,294,967,295 handles, which take 32 GiB: it must be refused under any limit in the memory that the program takes
# anyway. The second requests a reply that fits and a line that doesn't. It needs `timeout` on the path, a shell with `ulimit -v`, and the
# program as `.ci/run` or `prove.sh` built it. If it wasn't built, `rt`, which then proves it first.
set -eu
here=$(cd "$(dirname "$0")" && pwd)
out=$(mktemp -d)
trap 'rm -rf "$out"' EXIT

program=${PROGRAMS:-$here/../crates/spawnrun/out}/spawnrun
[ -x "$program" ] || (cd "$here/../crates/spawnrun" && rt run >"$out/built" 2>&1)
"$program" replay <"$here/one_caller.txt" >"$out/wanted"

# replay KIBIBYTES SCHEDULE
replay() {
    status=0
    (
        ulimit -v "$1"
        ulimit -t 5
        exec timeout 120 "$program" replay
    ) <"$2" >"$out/printed" 2>"$out/said" || status=$?
}

printf 'begin 1 4294967295\nstep 1\nanswer 1\n' >"$out/greatest"
printf 'begin 1 100000000\nstep 1\nanswer 1\nflush\n' >"$out/line"
for case in "65536 greatest" "4194304 greatest" "1048576 line"; do
    set -- $case
    replay "$1" "$out/$2"
    if [ "$status" = 3 ] && [ ! -s "$out/printed" ] && [ "$(cat "$out/said")" = memory ]; then
        echo "$2 under $1 KiB: memory, at once"
    else
        echo "$2 under $1 KiB: wrong, status $status"
        exit 1
    fi
done

replay 65536 "$here/one_caller.txt"
if [ "$status" = 0 ] && cmp -s "$out/printed" "$out/wanted"; then
    echo "an ordinary schedule under 65536 KiB: undisturbed"
else
    echo "an ordinary schedule under 65536 KiB: wrong, status $status"
    exit 1
fi
