"""Runs `spawnrun run` on a script by both builds, with each of these numbers of workers in turns,
and prints their rows of the table. It stops at a wrong report.

usage: measure.py PROGRAM BY_CARGO SHAPE COMMANDS SCRIPT REPORT WORKERS..
"""

import fcntl
import os
import re
import subprocess
import sys
import time
from itertools import zip_longest
from pathlib import Path

RUNS = int(os.environ.get("ROUNDS", 7))
PAGE = 4096  # the least that a pipe holds


def check(output, report):
    """Stops where the program wrote anything else than what must come of the script."""
    if output != report:
        pairs = zip_longest(output.splitlines(keepends=True), report.splitlines(keepends=True))
        line = next(
            number for number, (written, wanted) in enumerate(pairs, 1) if written != wanted
        )
        sys.exit(f"the program's output is wrong at line {line}")


def nanoseconds(command, script, report):
    """How long one run takes, from the start of the process to its end. An empty report isn't
    compared."""
    output = script.with_name("output")
    with script.open("rb") as given, output.open("wb") as written:
        start = time.perf_counter_ns()
        subprocess.run(command, stdin=given, stdout=written, check=True)
        took = time.perf_counter_ns() - start
    if report:
        check(output.read_bytes(), report)
    return took


def peak_memory(command, script):
    """The most memory that a run holds, in bytes.

    It is asked for after each page of the output. A pipe of one page holds no more, so the program
    waits there until its last page, behind which it needs nothing more. What getrusage tells is of
    no use for a small run: it counts the Python process that the program was forked from.
    """
    read, write = os.pipe()
    fcntl.fcntl(write, fcntl.F_SETPIPE_SZ, PAGE)
    with script.open("rb") as given:
        run = subprocess.Popen(command, stdin=given, stdout=write)
    os.close(write)
    peak = 0
    with run, open(read, "rb", buffering=0) as output:
        while output.read(PAGE):
            status = Path(f"/proc/{run.pid}/status").read_text()
            # A process that has ended has no such line.
            if found := re.search(r"VmHWM:\s*(\d+) kB", status):
                peak = 1024 * int(found[1])
    return peak


def main(program, by_cargo, shape, commands, script, report, *workers):
    commands, script = int(commands), Path(script)
    wanted, length = Path(report).read_bytes(), script.stat().st_size
    if len(wanted) <= PAGE + 1:
        sys.exit("the report is too short to tell the memory")
    sides = {
        (build, count): [build, "run", "--workers", count]
        for count in workers
        for build in (program, by_cargo)
    }
    times = {side: [] for side in sides}
    for _ in range(RUNS):
        for side, command in sides.items():
            times[side].append(nanoseconds(command, script, wanted))
    least = {side: min(its) for side, its in times.items()}
    peaks = {side: peak_memory(command, script) for side, command in sides.items()}
    for count in workers:
        kit, cargo = (program, count), (by_cargo, count)
        print(
            f"| {shape} | {count} | {commands:,} | {length:,} | {len(wanted):,} | {least[kit] / 1e6:,.1f}"
            f" | {least[kit] / commands:,.0f} | {peaks[kit] / 2**20:,.1f} | {peaks[kit] / commands:,.0f}"
            f" | {least[cargo] / 1e6:,.1f} | {least[cargo] / least[kit]:.2f} | {peaks[cargo] / 2**20:,.1f} |"
        )


if __name__ == "__main__":
    main(*sys.argv[1:])
