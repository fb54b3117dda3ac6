#!/bin/sh
# Runs the programs with each read of their input failing in turn, with their write failing, and with what they say on standard error
# failing, on input that comes in pieces of 7 bytes. A read or a write that fails ends a run with 4, and then it has written nothing and
# says `device`. Without a failure it ends as its words and its input say. A failure of standard error changes no status. Words that are
# refused use no device but standard error. Then `tracecheck` runs with an image, on a folder, which can't be read, and into a device that
# is full. It needs `cc` on the path, `/dev/full`, and the programs as `.ci/run` or `prove.sh` built them. If one wasn't built, `rt`, which
# then proves it first.
set -eu
here=$(cd "$(dirname "$0")" && pwd)
room=$(mktemp -d)
trap 'rm -rf "$room"' EXIT
cc -O2 -shared -fPIC -o "$room/fail.so" "$here/fail_device.c" -ldl

# of PROGRAM: the next runs are its.
of() {
    name=$1 program=${PROGRAMS:-$here/../crates/$1/out}/$1
    [ -x "$program" ] || (cd "$here/../crates/$1" && rt run </dev/null >"$room/built" 2>&1)
}

# wrong WHY..: ends the script.
wrong() {
    echo "$name $*, and printed and said:"
    cat "$room/printed" "$room/said"
    exit 1
}

# ends STATUS INPUT SETTINGS WORDS..: with these settings of the failing devices the program ends so.
ends() {
    wanted=$1 input=$2 settings=$3
    shift 3
    status=0
    env LD_PRELOAD="$room/fail.so" $settings "$program" "$@" <"$room/$input" >"$room/printed" 2>"$room/said" || status=$?
    [ "$status" = "$wanted" ] || wrong "$* on $input, $settings: status $status, and not $wanted"
}

# prints TEXT: the last run has printed just that, and has said nothing.
prints() {
    printf "$1" | cmp -s - "$room/printed" && [ ! -s "$room/said" ] || wrong "on $input: not as it should"
}

# fails INPUT SETTINGS WORDS..: so that it ends with 4, has written nothing, and says `device` alone.
fails() {
    ends 4 "$@"
    [ ! -s "$room/printed" ] && [ "$(cat "$room/said")" = device ] || wrong "on $1, $2: not as it should"
}

# reads INPUT COUNT STATUS WORDS..: there are so many reads, each of which fails, and without a failure it ends so. The one at the end of the
# input is one of them.
reads() {
    read_from=$1 count=$2 whole=$3 number=0
    shift 3
    while [ "$number" -lt "$count" ]; do
        fails "$read_from" "READS=$number" "$@"
        number=$((number + 1))
    done
    ends "$whole" "$read_from" "READS=$count" "$@"
    [ -s "$room/printed" ] || wrong "$* on $read_from: nothing is printed"
    echo "$name $* on $read_from: each of $count reads, and $whole"
}

# written STATUS INPUT WORDS..: there is one write, and with it the program ends so.
written() {
    whole=$1 written=$2
    shift 2
    fails "$written" WRITES=0 "$@"
    ends "$whole" "$written" WRITES=1 "$@"
    [ -s "$room/printed" ] || wrong "$* on $written: nothing is printed"
    echo "$name $* on $written: the write"
}

# unused WORDS..: words that ask for no task.
unused() {
    ends 2 one 'READS=0 WRITES=0' "$@"
    [ ! -s "$room/printed" ] && [ "$(cat "$room/said")" != device ] || wrong "$*: it uses a device"
    ends 2 nothing 'WRITES=0 SAYS=0' "$@"
    echo "$name $*: no device"
}

printf 'alloc\n' >"$room/one"
: >"$room/nothing"

of spawnrun
printf 'alloc\nalloc\nfree 0v1\nflush\n' >"$room/schedule"
# Two systems that spawn in one frame.
printf '{"components":["hp"],"frames":[[[{"spawn":{"hp":5}}],[{"spawn":{"hp":7}}]]]}' >"$room/script"
printf 'al\n' >"$room/no_schedule"
printf '[]' >"$room/no_script"
printf 'alloc_\n' >"$room/none"
reads schedule 5 0 replay
reads script 12 0 run
written 0 schedule replay
written 1 no_schedule replay
written 0 script run
written 1 no_script run
unused
unused --help
unused run --help
unused replay --help
ends 0 one SAYS=0 replay
ends 1 none SAYS=0 replay
ends 4 one 'WRITES=0 SAYS=0' replay
echo 'a failure of standard error changes no status'

of tracecheck
# 50 bytes of two callers, in 8 reads, and the one at the end. Where a line ends the check, nothing is read behind it.
printf 'alloc => 0v1\nreserve 2 1 => 2v1\nreserve 1 1 => 1v1' >"$room/agrees"
printf 'alloc => 0v1\nfree 0v1 => freed next 0v3\n' >"$room/differs"
printf 'alloc => 0v1\nx\n' >"$room/refused"
reads agrees 9 0
prints 'agrees: 3 lines, 3 handles given\n'
reads nothing 1 0
prints 'agrees: 0 lines, 0 handles given\n'
reads differs 6 1 --slots 2
prints 'differs line 2: free 0v1 => freed next 0v3, expected freed next 0v2\npool 1v1, cursor 0\n'
reads refused 3 2
prints 'refused line 2 word\n'
written 0 agrees
written 0 nothing
written 1 differs --slots 2
written 2 refused
unused --slots 0
ends 2 one '' --slots 0
printf "error: invalid value '0' for '--slots <N>': 0 is not in 1..=4294967295\n\nFor more information, try '--help'.\n" |
    cmp -s - "$room/said" || wrong "--slots 0: not as it should"

# With an image of an allocator that has given nothing, and with a file that can't be read in its place.
z='\0\0\0'
printf "FORGENI\\0\\1$z\\11$z\\11$z\\0$z\\0$z\\0$z\\0$z\\0$z" >"$room/image"
reads agrees 9 0 --from "$room/image"
written 1 differs --from "$room/image"
fails agrees SAYS=9 --from /proc/self/mem
ends 2 one 'READS=0' --from "$room/agrees"
prints 'refused image magic\n'

mkdir "$room/folder"
fails folder SAYS=9
echo 'tracecheck on a folder'
status=0
"$program" <"$room/agrees" >/dev/full 2>"$room/said" || status=$?
: >"$room/printed"
[ "$status" = 4 ] && [ "$(cat "$room/said")" = device ] || wrong "into a device that is full: status $status"
echo 'tracecheck into a device that is full'
