"""Runs `spawnrun run` on texts of about the greatest length, two of which are no scripts, and
prints the table of what it says of them, how much memory each build of it holds at most, and how
long it takes.

usage: long.py PROGRAM BY_CARGO
"""

import os
import subprocess
import sys
import tempfile
import time

LENGTH = 67_000_000  # bytes; the program takes 67,108,864
RUNS = int(os.environ.get("ROUNDS", 3))
SYSTEMS = 186  # of each frame of the script
SPAWNS = 10_000  # of each system


def repeated(head, item, foot):
    """The pieces of a text of that length, about, in which the item stands as often as fits."""
    yield head + item
    for _ in range((LENGTH - len(head) - len(foot)) // (len(item) + 1) - 1):
        yield "," + item
    yield foot


def spawns(part=1):
    """The pieces of a script of two frames that spawn entities one by one, or only that part of
    them."""
    system = "[" + ",".join(['{"spawn":{"a":1}}'] * (SPAWNS // part)) + "]"
    yield '{"components":["a"],"frames":['
    for first in "[", ",[":
        yield first + system
        for _ in range(SYSTEMS - 1):
            yield "," + system
        yield "]"
    yield "]}"


def texts():
    """What each text is, and its pieces: with the whole of it this process would take more memory
    than the program does."""
    yield 'a list of `{"":0}`', repeated("[", '{"":0}', "]")
    nested = '{"":' * 100 + "0" + "}" * 100
    yield "`frames` of objects, 100 in one another", repeated(
        '{"components":[],"frames":[', nested, "]}"
    )
    yield f"{2 * SYSTEMS * SPAWNS:,} spawns of one component", spawns()


def run(program, script, output):
    """The seconds of one run, and the most memory that it held, in bytes."""
    with open(script, "rb") as given, open(output, "wb") as written:
        start = time.perf_counter()
        child = subprocess.Popen(
            [program, "run"], stdin=given, stdout=written, stderr=subprocess.DEVNULL
        )
        usage = os.wait4(child.pid, 0)[2]
        child.returncode = 0
    return time.perf_counter() - start, 1024 * usage.ru_maxrss


def first_line(output):
    with open(output, encoding="ascii") as lines:
        return lines.readline().rstrip("\n")


def main(*programs):
    print(
        "| Text | First line of output | Peak, bytes for each byte of text | s | Peak by cargo | s by cargo |"
    )
    print("|---|---|---|---|---|---|")
    with tempfile.TemporaryDirectory() as folder:
        script, output = os.path.join(folder, "script"), os.path.join(folder, "output")
        for kind, pieces in texts():
            with open(script, "w", encoding="ascii") as given:
                given.writelines(pieces)
            runs = {it: [] for it in programs}
            lines = set()
            for _ in range(RUNS):
                for program in programs:
                    runs[program].append(run(program, script, output))
                    lines.add(first_line(output))
            if len(lines) != 1:
                sys.exit(f"of {kind} the builds say {' and '.join(sorted(lines))}")
            length, cells = os.path.getsize(script), [kind, f"`{lines.pop()}`"]
            for program in programs:
                seconds, peaks = zip(*runs[program])
                cells += [f"{max(peaks) / length:.1f}", f"{min(seconds):.1f}"]
            print(f"| {' | '.join(cells)} |")


if __name__ == "__main__":
    main(*sys.argv[1:])
