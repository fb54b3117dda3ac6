#!/bin/sh
# Counts what runs of two sizes do, under callgrind, and compares. So the times that the pages promise are seen on a machine that does other
# work beside: a count is the same on every run. It needs `valgrind`, `cargo`, `python3` and `awk` on the path, and the program as `.ci/run` or
# `prove.sh` built it. If it wasn't built, `rt`, which then proves it first. Without valgrind nothing is counted.
set -eu
here=$(cd "$(dirname "$0")" && pwd)
command -v valgrind >/dev/null || { echo "nothing is counted: valgrind isn't there"; exit 0; }
out=$(mktemp -d)
trap 'rm -rf "$out"' EXIT

program=$here/../crates/spawnrun/out/spawnrun
[ -x "$program" ] || (cd "$here/../crates/spawnrun" && rt run >"$out/built" 2>&1)

# count FILE WORDS..: runs the words under callgrind, whose counts go into the file. No run takes more than a few seconds as it should be.
count() {
    file=$out/$1
    shift
    timeout 300 valgrind --tool=callgrind --callgrind-out-file="$file" "$@" >"$out/printed" 2>"$out/log" || {
        echo "$*: failed, or was still running after 300 seconds"
        tail -5 "$out/log"
        exit 1
    }
}

# instructions FILE
instructions() { awk '$1 == "summary:" || $1 == "totals:" { print $2; exit }' "$out/$1"; }

# at_most WHAT COUNT LIMIT
at_most() {
    if [ "$2" -le "$3" ]; then
        echo "$1: $2, at most $3"
    else
        echo "$1: $2, and that should be at most $3"
        exit 1
    fi
}

# targets COUNT: a script of 60,000 entities and one system, which changes so many of them by their births.
targets() {
    awk -v count="$1" 'BEGIN {
        printf "{\"format\":2,\"components\":[\"hp\"],\"frames\":[[[{\"spawn_many\":60000}]],[["
        for (i = 0; i < count; i++)
            printf "%s{\"insert\":{\"hp\":1},\"on\":{\"birth\":\"0.0.%d\"}}", i ? "," : "", i * 7919 % 60000
        print "]]]}"
    }' >"$out/script"
    count "births_$1" "$program" run <"$out/script"
    [ "$(grep -c ' hp=1$' "$out/printed")" = "$1" ] || { echo "$1 births: not all were found"; exit 1; }
}

# A look at each entity for each birth, or a list made anew for each, would cost ten thousand as much a birth as a hundred.
targets 0
targets 100
targets 10000
none=$(instructions births_0)
few=$((($(instructions births_100) - none) / 100))
many=$((($(instructions births_10000) - none) / 10000))
at_most "instructions a birth, a system of 10,000 beside one of 100 ($few)" "$many" $((few / 4))

# The tests of the package, as cargo builds them.
(cd "$here/../rust/offline" && cargo test --offline --release --test counted --no-run) >"$out/built" 2>&1 || { cat "$out/built"; exit 1; }
tests=$here/../rust/offline/$(sed -n 's/.*Executable .*tests\/counted.rs (\(.*\)).*/\1/p' "$out/built")

# counted FILE ENTITIES TEST WORDS..: a test of the package with so many entities.
counted() {
    file=$1 test=$3
    echo "$test" >>"$out/counted"
    export FORGENI_ENTITIES="$2"
    shift 3
    count "$file" "$@" "$tests" --exact "$test" --test-threads 1
    grep -q '^test result: ok. 1 passed' "$out/printed" || { echo "$test: not passed"; cat "$out/printed"; exit 1; }
}

# A binary search would have ten steps more among 65,536 slots than among 64.
for entities in 64 65536; do
    counted "own_$entities" "$entities" births_in_the_slots_of_others --toggle-collect='counted::next_occupants*'
done
few=$(($(instructions own_64) / 65536))
many=$(($(instructions own_65536) / 65536))
at_most "instructions a birth in an old slot, of 65,536 slots beside 64 ($few)" "$many" $((few + few / 10))

# The index drops the pairs of entities that are gone once in as many births as there are entities, at most.
for entities in 1000 10000; do
    counted "sweeps_$entities" "$entities" births_that_fill_the_index
    sweeps=$(awk '
        /^cfn=/ { split($0, part, /[()]/); if ($0 ~ /index::sweep/) sweep[part[2]]; is = part[2] in sweep }
        /^fn=/ { split($0, part, /[()]/); if ($0 ~ /index::sweep/) sweep[part[2]] }
        /^calls=/ && is { split($1, part, "="); calls += part[2] }
        END { print calls + 0 }' "$out/sweeps_$entities")
    [ "$sweeps" -gt 0 ] || { echo "no sweep was seen, so nothing was counted"; exit 1; }
    at_most "sweeps of the index in $((20 * entities)) births among $entities entities" "$sweeps" 20
done

# A walk along the longer list would take a thousand times as many steps at each flush.
for entities in 64 65536; do
    counted "behind_$entities" "$entities" flushes_into_a_long_list --toggle-collect='counted::one_by_one*'
done
few=$(($(instructions behind_64) / 4096))
many=$(($(instructions behind_65536) / 4096))
at_most "instructions a flush into a list of 65,536 handles beside one of 64 ($few)" "$many" $((few + few / 2))

for entities in 4096 65536; do
    counted "lists_$entities" "$entities" lists_that_a_call_makes --toggle-collect='counted::lists_of_a_phase*'
done
few=$(($(instructions lists_4096) / 4096))
many=$(($(instructions lists_65536) / 65536))
at_most "instructions a handle in the lists of a phase, of 65,536 beside 4,096 ($few)" "$many" $((few + few / 10))

# All tests of that program, and no other.
"$tests" --list | sed -n 's/: test$//p' | sort >"$out/listed"
sort -u "$out/counted" | cmp - "$out/listed"
python3 "$here/../.ci/picks.py" examples/counted_runs.sh tests <"$out/listed"
