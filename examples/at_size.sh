#!/bin/sh
# Runs above 70,000 of each thing that grows, or as many as the formats allow: that no call runs out of memory, and that nothing
# is cut or mixed up at some size. No contract says the first. The tests `sizes` and `room` of the package make such runs of the allocator,
# its phases, storages, worlds and frames. The test `map_sizes` of `crates/ent_tests` does the same for a map by handle. The programs then run
# scripts, a schedule and traces, and must print what is computed here from their numbers alone. It needs `cargo` and `python3` on the path,
# and the programs as `.ci/run` or `prove.sh` built them. If one wasn't built, it needs `rt`, which then proves it first.
set -eu
here=$(cd "$(dirname "$0")" && pwd)
out=$(mktemp -d)
trap 'rm -rf "$out"' EXIT

for name in spawnrun tracecheck; do
    [ -x "${PROGRAMS:-$here/../crates/$name/out}/$name" ] || (cd "$here/../crates/$name" && rt run >"$out/built" 2>&1)
done

# tested MODULE WORDS..: the tests of that module or program of the package, by these words. All that cargo lists have to pass, and one at
# least.
tested() {
    module=$1
    shift
    (cd "$here/../rust/offline" && cargo test --offline "$@" -- --list) >"$out/printed" 2>"$out/said" || { cat "$out/said"; exit 1; }
    sed -n 's/: test$//p' "$out/printed" | sort >"$out/listed"
    (cd "$here/../rust/offline" && cargo test --offline "$@") >"$out/printed" 2>&1 || { cat "$out/printed"; exit 1; }
    sed -n 's/^test \(.*\) \.\.\. ok$/\1/p' "$out/printed" | sort >"$out/passed"
    [ -s "$out/passed" ] && cmp "$out/listed" "$out/passed" || { echo "cargo test $*: no test ran, or not all"; exit 1; }
    sed 's/.*/forgeni, &: passed/' "$out/passed"
    echo "$module" >>"$out/modules"
}

# The first are for optimised code, as their file says. The second take no time. What cargo has built is tested alone.
if [ -z "${PROGRAMS:-}" ]; then
    tested sizes --release --test sizes
    tested room --lib room::
    python3 "$here/../.ci/picks.py" examples/at_size.sh 'modules of tests' <"$out/modules"
fi

python3 - "$out" <<'END'
import sys


def write(name, lines):
    with open("%s/%s" % (sys.argv[1], name), "w") as file:
        file.write("".join("%s\n" % line for line in lines))


def listed(items):
    return "[%s]" % ",".join(items)


def case(name, frames, report, components='"a"'):
    """A script, and what it prints."""
    write(name + ".in", ['{"format":2,"components":[%s],"frames":%s}' % (components, listed(frames))])
    write(name + ".out", report)


def born(frame, count, faults=0):
    return "frame %d born %d faults %d" % (frame, count, faults)


# 1,000 frames of 256 systems, each of which spawns one entity.
systems = listed(listed(['{"spawn":{"a":%d}}' % system]) for system in range(256))
case("systems", [systems] * 1000,
     [born(frame, 256) for frame in range(1000)]
     + ["%d.%d.0 a=%d" % (frame, system, system) for frame in range(1000) for system in range(256)]
     + ["alive 256000"])

# 15 systems of 5,000 names, and one of 9,999.
named = ['{"spawn":{},"as":"n%d"}' % number for number in range(9999)]
changed = ['{"insert":{"a":%d},"on":{"name":"n%d"}}' % (number, number) for number in range(9999)]
case("names", [listed([listed(named[:5000] + changed[:5000])] * 15 + [listed(named + changed[-1:])])],
     [born(0, 15 * 5000 + 9999)]
     + ["0.%d.%d a=%d" % (system, number, number) for system in range(15) for number in range(5000)]
     + ["0.15.%d%s" % (number, " a=9998" if number == 9998 else "") for number in range(9999)]
     + ["alive 84999"])

# 80,000 commands on an entity that is gone.
away = '{"despawn":{"birth":"0.0.0"}}'
case("faults", ['[[{"spawn":{}}]]', listed([listed([away] * 10000)] * 8)],
     [born(0, 1), born(1, 0, 79999)]
     + ["fault %d %d not alive" % divmod(command, 10000) for command in range(1, 80000)] + ["alive 0"])

# 131,072 entities of one system, 131,072 commands of one queue, and as many births in old slots.
many = '[[{"spawn_many":65536,"with":{"a":1}},{"spawn_many":65536,"with":{"a":1}}]]'
case("entities", [many, '[[{"insert":{"b":2},"on":{"each":"a"}}]]', '[[{"despawn":{"each":"b"}}]]', many],
     [born(0, 131072), born(1, 0), born(2, 0), born(3, 131072)]
     + ["3.0.%d a=1" % number for number in range(131072)] + ["alive 131072"],
     components='"a","b"')

# 80,000 entities, each of which is changed by its birth.
births = ['{"insert":{"a":%d},"on":{"birth":"0.0.%d"}}' % (number, number) for number in range(80000)]
case("births", ['[[{"spawn_many":65536},{"spawn_many":14464}]]',
                listed(listed(births[first:first + 10000]) for first in range(0, 80000, 10000))],
     [born(0, 80000), born(1, 0)] + ["0.0.%d a=%d" % (number, number) for number in range(80000)]
     + ["alive 80000"])

# An entity of 256 components, whose names are as long as may be, beside 70,001 of one.
names = ["c%031d" % number for number in range(256)]
bundle = ",".join('"%s":%d' % (name, number) for number, name in enumerate(names))
case("components", ['[[{"spawn":{%s}},{"spawn_many":65536,"with":{"%s":1}},{"spawn_many":4465,"with":{"%s":1}}]]'
                    % (bundle, names[255], names[255])],
     [born(0, 70002), "0.0.0 " + " ".join("%s=%d" % (name, number) for number, name in enumerate(names))]
     + ["0.0.%d %s=1" % (number, names[255]) for number in range(1, 70002)] + ["alive 70002"],
     components=",".join('"%s"' % name for name in names))

# 70,001 slots that are freed, and requested by one caller together with as many new ones.
count = 70001
write("schedule.in", ["alloc"] * count + ["free %dv1" % slot for slot in range(count)]
      + ["begin 1 %d" % (2 * count), "step 1", "answer 1", "flush"])
old = ["%dv2" % slot for slot in range(count)]
new = ["%dv1" % slot for slot in range(count, 2 * count)]
write("schedule.out", ["%dv1" % slot for slot in range(count)]
      + ["freed %dv1 next %dv2" % (slot, slot) for slot in range(count)]
      + ["open", "cursor %d" % -count, " ".join(old + new), "born " + " ".join(new + old)])


def trace(name, lines, text):
    """A trace, and what must be printed for it. A difference comes with the state before it."""
    write(name + ".in", lines)
    write(name + ".out", text)


def shown(handles, cursor):
    return "pool %s .., cursor %d" % (" ".join(handles[:8]), cursor)


# The same in a trace: lines above number 140,000, and one of a million bytes, for the reservation and for the flush.
made = (["alloc => %dv1" % slot for slot in range(count)]
        + ["free %dv1 => freed next %dv2" % (slot, slot) for slot in range(count)])
bulk = "reserve 1 %d => " % (2 * count) + " ".join(old + new)
trace("listed", made + [bulk, "flush => born " + " ".join(new + old), "len => %d" % (2 * count)],
      ["agrees: %d lines, %d handles given" % (2 * count + 3, 3 * count)])

# Single reservations of two callers in one run, each in the order of its caller, and a flush of all of them. The slot that was freed last is
# given first. The handles at even places go to the caller whose log comes last.
given = old[::-1] + new
single = ["reserve %d 1 => %s" % (caller, handle) for caller, first in ((7, 1), (9, 0)) for handle in given[first::2]]
trace("single", made + single + ["flush => born " + " ".join(new + old)],
      ["agrees: %d lines, %d handles given" % (4 * count + 1, 3 * count)])

# A difference in a line above 1,000 and in one above 100,000: of an exclusive call, of a flush and of a reservation.
for last in (1500, 2 * count):
    lines = ["alloc => %dv1" % slot for slot in range(last)]
    pool = ["%dv1" % slot for slot in range(last, last + 8)]
    trace("alloc_%d" % last, lines + ["alloc => 7v7"],
          ["differs line %d: alloc => 7v7, expected %dv1" % (last + 1, last), shown(pool, 0)])
    trace("reserve_%d" % last, lines + ["reserve 1 1 => 7v7", "flush"],
          ["differs line %d: reserve 1 1 => 7v7, expected %dv1" % (last + 1, last), shown(pool, 0)])
    trace("flush_%d" % last, lines + ["reserve 1 1 => %s" % pool[0], "flush => born"],
          ["differs line %d: flush => born, expected born %s" % (last + 2, pool[0]), shown(pool[1:] + ["%dv1" % (last + 8)], -1)])
    trace("refused_%d" % last, lines + ["reserve 1"], ["refused line %d count" % (last + 1)])

# A difference with two lists of 140,002 handles.
trace("long", made + [bulk, "flush => born " + " ".join(old + new)],
      ["differs line %d: flush => born %s, expected born %s" % (2 * count + 2, " ".join(old + new), " ".join(new + old)),
       shown(["%dv1" % slot for slot in range(2 * count, 2 * count + 8)], -count)])
END

# prints PROGRAM STATUS CASE WORDS..: the program must print what was computed, and end with this status. The time is for a program that
# hangs: a slow machine isn't a fault.
prints() {
    program=$1 wanted=$2 name=$3
    shift 3
    status=0
    timeout 300 "${PROGRAMS:-$here/../crates/$program/out}/$program" "$@" <"$out/$name.in" >"$out/printed" 2>"$out/said" || status=$?
    if [ "$status" = "$wanted" ] && cmp "$out/printed" "$out/$name.out"; then
        echo "$program $* on $name: $(wc -l <"$out/printed") lines, as computed"
    else
        echo "$program $* on $name: wrong, status $status, $(head -c 200 "$out/said")"
        exit 1
    fi
}

for workers in 1 64; do
    for name in names faults entities births components; do
        prints spawnrun 0 "$name" run --workers "$workers"
    done
done
# Each frame starts its workers' threads: 64 workers would start 63,000 in these frames.
for workers in 1 4; do
    prints spawnrun 0 systems run --workers "$workers"
done
# In blocks that are just large enough births are the same.
prints spawnrun 0 systems run --workers 4 --blocks 1
prints spawnrun 0 entities run --workers 2 --blocks 131072
prints spawnrun 0 schedule replay

for name in listed single; do
    prints tracecheck 0 "$name"
done
for name in alloc_1500 alloc_140002 reserve_1500 reserve_140002 flush_1500 flush_140002 long; do
    prints tracecheck 1 "$name"
done
prints tracecheck 2 refused_1500
prints tracecheck 2 refused_140002
