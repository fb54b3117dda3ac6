#!/bin/sh
# Runs the programs with each of their allocations refused in turn: schedules, scripts on one worker and on eight, with a bundle that takes
# memory and with many births as targets, a script that is refused, and traces that agree, differ or are none, also with an image. Each run
# must end as an undisturbed one does (the program may do without that piece of memory), or with status 3, `memory` on standard error and
# nothing else. Then it runs each test `out_of_memory_*` in the same way, and the files `*_out_of_memory.txt` of `crates/cases_and_examples`:
# they must pass, whichever allocation is refused, and each of their lines must be run in at least one of these runs. It also counts what
# tests `*_takes_no_memory` ask for. Which tests and files these are is in `.ci/picks.txt`; a test whose name or module speaks of memory must
# be one of them. With `PROGRAMS`, a folder of programs that cargo has built, it runs these, and no tests: each allocation is refused with
# all after it, and Rust's runtime may end a program as it starts, or as a thread does. It needs `cc` and `python3` on the path, and the
# programs, the tests and the cases as `.ci/run` built them. If a program wasn't built, it needs `rt`, which then proves it first.
set -eu
here=$(cd "$(dirname "$0")" && pwd)
top=$(cd "$here/.." && pwd)
room=$(mktemp -d)
trap 'rm -rf "$room"' EXIT
scripts=$here/data
for name in spawnrun tracecheck; do
    [ -x "${PROGRAMS:-$top/crates/$name/out}/$name" ] || (cd "$top/crates/$name" && rt run </dev/null >"$room/built" 2>&1) || true
done
cc -O2 -shared -fPIC -o "$room/refuse.so" "$here/refuse_allocation.c"
# What cargo builds asks for the memory of a map before Rust's map takes it. So it has to be refused twice.
[ -z "${PROGRAMS:-}" ] || export REFUSE_ON=1

# Thousands of runs follow, so what looks at one starts no process where the shell itself can look.

# next_refused: names a file that isn't there. It is made if the run comes to the allocation that is refused.
files=0
next_refused() {
    files=$((files + 1))
    refused=$room/refused.$files
}

# run NUMBER INPUT WORDS..: the program with that allocation refused. It sets status.
run() {
    number=$1 input=$2
    shift 2
    next_refused
    status=0
    LD_PRELOAD=$room/refuse.so REFUSE=$number REFUSED=$refused \
        "$program" "$@" <"$input" >"$room/printed" 2>"$room/said" || status=$?
}

# Whether the program has said `memory`, in a line, and nothing else.
says_memory() {
    first='' second=''
    { IFS= read -r first && ! IFS= read -r second; } <"$room/said" && [ "$first" = memory ] && [ -z "$second" ]
}

# is_of_runtime INPUT WORDS..: whether the C library or Rust's runtime takes this allocation, in a program that cargo has built: as the process
# starts, before the program asks for any memory, about a dozen and two for each word, since the program looks twice for words; or as a thread
# starts.
is_of_runtime() {
    [ -n "${PROGRAMS:-}" ] || return 1
    case $* in *--workers*) return 0 ;; esac
    [ "$memory" = 0 ] && [ "$ended" -lt $((14 + 2 * $#)) ]
}

# Whether standard error is as in an undisturbed run, or says that there was no memory to show what was found.
is_heard() {
    cmp -s "$room/said" "$room/wanted_said" && return
    cmp -s "$room/said" "$room/wanted_unshown" && unshown=$((unshown + 1))
}

# each INPUT WORDS..: every allocation of that run in turn, until four numbers in a row were not reached, since workers don't always need
# the same number.
each() {
    run 0 "$@"
    wanted=$status undisturbed=0 memory=0 unshown=0 allocation=0 beyond=0 ended=0
    cp "$room/printed" "$room/wanted"
    cp "$room/said" "$room/wanted_said"
    sed 's/; found [^ ]*/; found what there was no memory to show/' "$room/said" >"$room/wanted_unshown"
    while [ "$beyond" -lt 4 ]; do
        allocation=$((allocation + 1))
        run "$allocation" "$@"
        if [ ! -e "$refused" ]; then
            beyond=$((beyond + 1))
        elif [ "$status" = 3 ] && [ ! -s "$room/printed" ] && says_memory; then
            beyond=0 memory=$((memory + 1))
        elif [ "$status" = "$wanted" ] && cmp -s "$room/printed" "$room/wanted" && is_heard; then
            beyond=0 undisturbed=$((undisturbed + 1))
        elif [ "$status" = 134 ] && [ ! -s "$room/printed" ] && is_of_runtime "$@"; then
            beyond=0 ended=$((ended + 1))
        else
            echo "$(basename "$program") $*: allocation $allocation: wrong, status $status"
            exit 1
        fi
    done
    name=$(basename "$1")
    shift
    ends=''
    [ "$ended" = 0 ] || ends=", $ended times ended by Rust's runtime"
    echo "$(basename "$program") $* on $name: status $wanted, $memory times memory, $undisturbed times undisturbed$ends"
    [ "$memory" -gt 0 ]
    # Looking for the value of a refused script takes memory.
    [ "$name" != "${name#no_}" ] || return 0
    [ "$unshown" -gt 0 ]
}

printf '[]' >"$room/no_script.json"
cat >"$room/targets.json" <<'END'
{"components":["hp","mp"],"frames":[
  [[{"spawn_many":2,"with":{"hp":1},"as":"g"},{"insert":{"mp":4},"on":{"name":"g"}}]],
  [[{"remove":"hp","on":{"each":"hp"}}],[{"insert":{"hp":8},"on":{"each":"mp"}}]]]}
END
cat >"$room/bundle.json" <<'END'
{"components":["a","b","c","d","e"],"frames":[
  [[{"spawn":{"e":5,"d":4,"c":3,"b":2,"a":1},"as":"x"},{"spawn_many":1,"as":"y"},{"insert":{"c":9},"on":{"name":"x"}}]],
  [[{"remove":"e","on":{"each":"d"}},{"despawn":{"handle":"1v1"}}]]]}
END
# So many births are looked up that all entities are listed for it.
awk 'BEGIN {
    printf "{\"format\":2,\"components\":[\"hp\"],\"frames\":[[[{\"spawn_many\":40}]],[["
    for (i = 0; i < 50; i++) printf "%s{\"insert\":{\"hp\":%d},\"on\":{\"birth\":\"0.0.%d\"}}", i ? "," : "", i, i
    print "]]]}"
}' >"$room/births.json"
# Two workers read this text, and write the lines of its entities.
awk 'BEGIN {
    printf "%140000s{\"components\":[\"hp\"],\"frames\":[[[{\"spawn_many\":9000}],[{\"spawn\":{\"hp\":1}}]]]}", ""
}' >"$room/long.json"
program=${PROGRAMS:-$top/crates/spawnrun/out}/spawnrun
printf 'alloc\nalloc\nfree 0v1\nbegin 1 2\nstep 1\nanswer 1\nflush\n' >"$room/events"
printf '{"components":[],"frames":1}' >"$room/no_frames.json"
printf '{"components":[],"frames":[[[7]]]}' >"$room/no_operation.json"
each "$room/events" replay
each "$room/targets.json" run --workers 2
each "$room/no_frames.json" run
each "$room/no_operation.json" run
each "$room/events" replay --help
each "$here/one_caller.txt" replay
each "$here/two_callers.txt" replay
each "$here/one_caller.txt" replay "$here/two_callers.txt"
each "$room/targets.json" run --show handles
each "$room/bundle.json" run --show handles
each "$room/births.json" run
each "$room/long.json" run --workers 2
each "$scripts/reuse.json" run --show handles
each "$scripts/spawners.json" run --workers 8
each "$room/no_script.json" run

printf 'alloc => 0v1\nreserve 2 1 => 2v1\nreserve 1 1 => 1v1' >"$room/agrees"
printf 'reserve 1 2 => 0v1 1v1\nflush => born (2)\nfree 0v1 => freed next 0v3\n' >"$room/differs"
printf 'alloc => 0v1\nx\n' >"$room/refused_line"
program=${PROGRAMS:-$top/crates/tracecheck/out}/tracecheck
each "$room/agrees"
each "$room/differs" --slots 9 --generations 2
each "$room/refused_line"
each "$room/agrees" --slots 0
# An image of two slots, of which the second one waits, and one whose second slot is damaged.
z='\0\0\0'
head="FORGENI\\0\\1$z\\11$z\\11$z\\2$z\\1$z\\0$z\\0$z\\0$z\\1$z\\1$z\\0$z"
printf "$head\\1$z\\3$z\\0$z" >"$room/image"
printf "$head\\1$z\\4$z\\0$z" >"$room/no_image"
printf 'alloc => 1v1\nreserve 2 1 => 3v1\nreserve 1 1 => 2v1' >"$room/goes_on"
each "$room/goes_on" --from "$room/image"
each "$room/goes_on" --from "$room/no_image"
each "$room/goes_on" --from "$room/image" --slots 3

# note_left_out: notes which lines the run of a file of cases has left out, as it prints them.
note_left_out() {
    while IFS= read -r line; do
        case $line in *'left out:'*) echo "${line#*left out:}" ;; esac
    done <"$room/printed" >>"$room/left_out"
}

# never_made FILE: the lines that all runs of this file have left out. A run prints their numbers among the lines with a condition.
never_made() {
    awk '{ for (i = 1; i <= NF; i++) count[$i]++ } END { for (line in count) if (count[line] == NR) print line }' "$room/left_out" |
        while read -r number; do
            line=$(grep -E '^(at|unborn|lost|lost_of|kept)( [0-9 ]*)?: ' "$1" | sed -n "${number}p")
            echo "${line:-line $number of those with a condition}"
        done
}

# passes WHAT WORDS..: every allocation of these words in turn. They must end with 0.
passes() {
    what=$1
    shift
    beyond=0 allocation=0 passed=0
    while [ "$beyond" -lt 4 ]; do
        allocation=$((allocation + 1))
        next_refused
        status=0
        LD_PRELOAD=$room/refuse.so REFUSE=$allocation REFUSED=$refused "$@" >"$room/printed" 2>&1 || status=$?
        if [ ! -e "$refused" ]; then
            beyond=$((beyond + 1))
        elif [ "$status" = 0 ]; then
            beyond=0 passed=$((passed + 1))
            note_left_out
        else
            cat "$room/printed"
            echo "$what: allocation $allocation: wrong, status $status"
            exit 1
        fi
    done
    echo "$what: passed $passed times"
    [ "$passed" -gt 0 ]
}

# tests_of CRATE: the tests of the crate whose names, or those of their modules, speak of memory.
tests_of() {
    tests=$top/crates/$1/out/$1_tests
    [ -x "$tests" ] || { echo "$1: its tests are not built, .ci/run builds them" >&2; exit 1; }
    "$tests" --list 2>/dev/null | sed -n 's/: test$//p' | grep memory || true
}

# tested CRATE TEST: a test that takes whichever allocation is refused, as it was compiled.
tested() {
    passes "$1 $2" "$top/crates/$1/out/$1_tests" "$2"
}

# spared CRATE TEST: a test that makes thousands of things without memory. It must not ask for so many as 1,000 pieces.
spared() {
    next_refused
    LD_PRELOAD=$room/refuse.so REFUSE=1000 REFUSED=$refused "$top/crates/$1/out/$1_tests" "$2" >"$room/printed" 2>&1 || {
        cat "$room/printed"
        exit 1
    }
    [ ! -e "$refused" ] || { echo "$1 $2: it takes memory"; exit 1; }
    echo "$1 $2: takes none"
}

# picked WHAT: compares the names that it reads with those that .ci/picks.txt has.
picked() {
    python3 "$top/.ci/picks.py" examples/refuse_each_allocation.sh "$1"
}

# answered: the files of calls that must pass whichever allocation is refused. Which of two workers takes a system differs from run to run,
# so there are up to ten rounds until each line was run.
answered() {
    cases=$top/crates/cases_and_examples/out/cases_and_examples
    [ -x "$cases" ] || { echo "the cases are not built, .ci/run builds them"; exit 1; }
    cd "$top/crates/cases_and_examples/data"
    printf '%s\n' *_out_of_memory.txt | picked 'files of cases'
    for file in *_out_of_memory.txt; do
        : >"$room/left_out"
        for round in 1 2 3 4 5 6 7 8 9 10; do
            passes "$file" "$cases" "$file"
            never=$(never_made "$file")
            [ -n "$never" ] || break
        done
        [ -z "$never" ] || { echo "$file: these lines were never made"; echo "$never"; exit 1; }
    done
}

# The tests are those of the kit's build alone.
[ -z "${PROGRAMS:-}" ] || exit 0
: >"$room/tests"
for tests in "$top"/crates/*/out/*_tests; do
    crate=$(basename "$tests" _tests)
    found=$(tests_of "$crate")
    [ -z "$found" ] || printf '%s\n' "$found" | sed "s/^/$crate /" >>"$room/tests"
done
picked 'tests of memory' <"$room/tests"
while read -r crate test; do
    case $test in
    *::out_of_memory_*) tested "$crate" "$test" ;;
    *_takes_no_memory) spared "$crate" "$test" ;;
    *) echo "$crate $test: its name says neither out_of_memory nor takes_no_memory, so it isn't run"; exit 1 ;;
    esac
done <"$room/tests"
answered
