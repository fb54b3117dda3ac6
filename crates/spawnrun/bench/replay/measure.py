"""Runs `spawnrun replay` on a schedule by both builds, and prints the row of the table, or stops at
a wrong outcome.

usage: measure.py PROGRAM BY_CARGO SHAPE SCHEDULE OUTCOMES
"""

import os
import re
import subprocess
import sys
import time
from itertools import zip_longest
from pathlib import Path

RUNS = int(os.environ.get("ROUNDS", 10))


def check(output, outcomes):
    """Stops where the program wrote anything else than what must come of the schedule."""
    if output != outcomes:
        pairs = zip_longest(output.splitlines(keepends=True), outcomes.splitlines(keepends=True))
        line = next(
            number for number, (written, wanted) in enumerate(pairs, 1) if written != wanted
        )
        sys.exit(f"the program's output is wrong at line {line}")


def nanoseconds(command, schedule, outcomes):
    """How long one run takes, from the start of the process to its end."""
    output = schedule.with_name("output")
    with schedule.open("rb") as given, output.open("wb") as written:
        start = time.perf_counter_ns()
        subprocess.run(command, stdin=given, stdout=written, check=True)
        took = time.perf_counter_ns() - start
    check(output.read_bytes(), outcomes)
    return took


def peak_memory(command, schedule):
    """The most memory that a run holds, in bytes.

    The program makes all of its output before it writes any, so it is at its peak when the first of
    it comes, and waits there, as a pipe does not hold the rest. What getrusage tells is of no use
    for a small run: it counts the Python process that the program was forked from.
    """
    with schedule.open("rb") as given:
        run = subprocess.Popen(command, stdin=given, stdout=subprocess.PIPE)
    with run:
        run.stdout.peek()
        status = Path(f"/proc/{run.pid}/status").read_text()
        run.stdout.read()
    return 1024 * int(re.search(r"VmHWM:\s*(\d+) kB", status)[1])


def main(program, by_cargo, shape, schedule, outcomes):
    commands, schedule = [[program, "replay"], [by_cargo, "replay"]], Path(schedule)
    text, wanted = schedule.read_bytes(), Path(outcomes).read_bytes()
    lines = text.count(b"\n")
    if wanted.count(b"\n") != lines:
        sys.exit("there are not as many outcomes as events")
    # The two take turns.
    times = [[nanoseconds(it, schedule, wanted) for it in commands] for _ in range(RUNS)]
    least, of_cargo = map(min, zip(*times))
    peak, peak_of_cargo = (peak_memory(it, schedule) for it in commands)
    print(
        f"| {shape} | {lines:,} | {len(text):,} | {len(wanted):,} | {least / 1e6:,.1f} | {least / lines:,.0f}"
        f" | {peak / 2**20:,.1f} | {peak / lines:,.0f} | {of_cargo / 1e6:,.1f} | {of_cargo / least:.2f} | {peak_of_cargo / 2**20:,.1f} |"
    )


if __name__ == "__main__":
    main(*sys.argv[1:])
