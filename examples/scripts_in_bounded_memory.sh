#!/bin/sh
# Runs `spawnrun run` on scripts that would take much memory if it kept more of them than it has to, each under a limit on its address
# space: what the program takes for a script of nothing, which is measured first, and the figure that stands with the script below. No
# contract speaks of that memory. A figure stands above what its script takes, and below what it would take if the program kept what the
# comment beside it names. For small scripts that is up to twice what they take, for large ones less. It needs `python3` and `timeout` on
# the path, a shell with `ulimit -v`, and the program as `.ci/run` or `prove.sh` built it. If it wasn't built, `rt`, which then proves it
# first.
set -eu
here=$(cd "$(dirname "$0")" && pwd)
out=$(mktemp -d)
trap 'rm -rf "$out"' EXIT

program=${PROGRAMS:-$here/../crates/spawnrun/out}/spawnrun
[ -x "$program" ] || (cd "$here/../crates/spawnrun" && rt run >"$out/built" 2>&1)

# run KIBIBYTES NAME: the script under that limit. It sets status.
run() {
    status=0
    (
        ulimit -v "$1"
        exec timeout 300 "$program" run
    ) <"$out/$2" >"$out/printed" 2>"$out/said" || status=$?
}

# takes NAME KIBIBYTES STATUS LINE: with that much more than nothing takes, the script ends so, and the last line that it prints is this.
takes() {
    run $((nothing + $2)) "$1"
    if [ "$status" = "$3" ] && [ "$(tail -n 1 "$out/printed")" = "$4" ]; then
        echo "$1, $(wc -c <"$out/$1") bytes: at most $2 KiB: $4"
    else
        echo "$1: takes more than $2 KiB beside the program, or was wrong: status $status, $(head -c 200 "$out/said")"
        exit 1
    fi
    rm "$out/$1"
}

python3 - "$out" <<'END'
import sys

# For nobody: nobody has the component a.
AWAY = '{"despawn":{"each":"a"}}'


def listed(item, count):
    return "[%s]" % ",".join([item] * count)


def script(components, *frames):
    return '{"components":[%s],"frames":[%s]}' % (components, ",".join(frames))


def write(name, text):
    with open("%s/%s" % (sys.argv[1], name), "w") as file:
        file.write(text)


write("nothing", script(""))
write("one_operation", script('"a"', listed(listed(AWAY, 1), 1)))
write("frames_of_one_system", script("", *["[[]]"] * 1000))
write("frames_of_empty_systems", script("", *[listed("[]", 256)] * 1000))

names = ",".join('"c%d"' % number for number in range(256))
write("bundles_of_one", script(names, listed(listed('{"insert":{"c0":1},"on":{"each":"c1"}}', 10000), 1)))

keys = ",".join('{"spawn":{"%s%d":0}}' % ("k" * 5000, number) for number in range(800))
write("keys_of_5000_bytes", script('"a"', "[[%s]]" % keys))

long = "a" * 30_000_000
write("components_twice", '{"components":["%s"],"components":["%s"],"frames":[]}' % (long, long))
# 50 bytes an operation are kept.
frames = listed(listed(listed(AWAY.ljust(99), 1000), 150), 2)
write("frames_twice", '{"components":["a"],"frames":%s,"frames":%s}' % (frames, frames))

long = listed(listed(AWAY.ljust(249), 10000), 16)
many = listed(listed('{"spawn_many":65536,"with":{"b":1}}', 14), 1)
write("script_of_40_MB", script('"a","b"', long, many))

# 64 bytes an operation are kept until its frame has run.
long = listed(listed(AWAY, 10000), 128)
many = listed(listed('{"spawn_many":65536,"with":{"b":1}}', 20), 1)
write("long_frame_and_then_a_world", script('"a","b"', long, many))

bundle = '{"%s":-9223372036854775808}' % ("n" * 32)
many = listed(listed('{"spawn_many":63500,"with":%s}' % bundle, 16), 1)
write("report_of_64_MiB", script('"%s"' % ("n" * 32), many))
END

# The least limit under which a script of nothing runs, to 16 KiB.
low=0 nothing=65536
while [ $((nothing - low)) -gt 16 ]; do
    middle=$(((low + nothing) / 2))
    run "$middle" nothing
    if [ "$status" = 0 ]; then nothing=$middle; else low=$middle; fi
done
run "$nothing" nothing
[ "$status" = 0 ] || { echo "a script of nothing doesn't run in $nothing KiB"; exit 1; }

# Room for a whole list would be 300 KiB for the operations.
takes one_operation 160 0 'alive 0'
# Room for all systems would be 6 KiB a frame.
takes frames_of_one_system 512 0 'alive 0'
# 24 bytes a system, and as much again while the list grows. Room for all operations would be 700 KiB a system.
takes frames_of_empty_systems 12288 0 'alive 0'
# Room for all 256 components would be 4 KiB a bundle.
takes bundles_of_one 45056 0 'alive 0'
# Three times the text, of which the keys are one part.
takes keys_of_5000_bytes 20480 1 'refused operation 0 0 0 component'
# The text twice, with room to grow, and one of the two keys' values.
takes components_twice 165888 1 'refused script components'
takes frames_twice 149504 0 'alive 0'
# The text twice, and what it means. Then the text is given back, and the frames take as much again.
takes script_of_40_MB 153600 0 'alive 917504'
# What the greatest world of the run takes. With the operations of the first frame it would be 130 MB more.
takes long_frame_and_then_a_world 262144 0 'alive 1310720'
# The report, with room to grow, and 60 bytes an entity. Room for 1,000 bytes an entity would be 1 GB.
takes report_of_64_MiB 212992 0 'alive 1016000'
