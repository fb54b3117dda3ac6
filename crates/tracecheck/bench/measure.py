"""Runs `tracecheck` by both builds on a trace that is made while it runs, and prints the row of the
table, or stops at a wrong verdict.

usage: measure.py PROGRAM BY_CARGO SHAPE LINES

The traces are those of an allocator of Bevy's form:

    threads   runs of 100,000 reservations of 4 threads, whose logs stand one after the other, each run with a flush
    short     8 reservations of 4 callers, a flush of the 8, and 8 frees, again and again
"""

import os
import re
import subprocess
import sys
import time
from pathlib import Path
from threading import Thread

RUN, CALLERS, FEW = 100_000, 4, 8


def threads(lines):
    """Each thread was given every fourth of the new slots."""
    for first in range(0, lines, RUN):
        for caller in range(CALLERS):
            yield "".join(
                f"reserve {caller} 1 => {at}v1\n"
                for at in range(first + caller, first + RUN, CALLERS)
            )
        yield f"flush => born ({RUN})\n"


def short(lines):
    """The slot that was freed last is given first, and is born last."""
    for turn in range(1, lines // (2 * FEW + 1) + 1):
        slots = [f"{at}v{turn}" for at in range(FEW)]
        given = slots if turn == 1 else slots[::-1]
        reserves = [f"reserve {at % CALLERS} 1 => {one}\n" for at, one in enumerate(given)]
        yield "".join(
            [*reserves, f"flush => born {' '.join(slots)}\n", *(f"free {one}\n" for one in slots)]
        )


def watch(process, peak):
    """Keeps the most memory that the process holds, in KiB, until it ends."""
    while True:
        found = re.search(r"VmHWM:\s*(\d+) kB", Path(f"/proc/{process}/status").read_text())
        if not found:
            return
        peak[0] = int(found[1])
        time.sleep(0.001)


def run(program, parts):
    """The seconds of the processor that a run takes, the most memory that it holds, in MiB, and how
    many lines and bytes it is given."""
    child = subprocess.Popen([program], stdin=subprocess.PIPE, stdout=subprocess.PIPE)
    peak, count, size = [0], 0, 0
    watched = Thread(target=watch, args=(child.pid, peak))
    watched.start()
    with child.stdin as given:
        for part in parts:
            count, size = count + part.count("\n"), size + len(part)
            given.write(part.encode())
    said = child.stdout.read().decode()
    # A process that has ended holds nothing, and is there until it is waited for.
    watched.join()
    used = os.wait4(child.pid, 0)[2]
    if not said.startswith(f"agrees: {count} lines, "):
        sys.exit(f"{program}: {said}")
    return used.ru_utime + used.ru_stime, peak[0] / 1024, count, size


def main(program, by_cargo, shape, lines):
    made = {"threads": threads, "short": short}[shape]
    seconds, peak, count, size = run(program, made(int(lines)))
    of_cargo, peak_of_cargo, *_ = run(by_cargo, made(int(lines)))
    print(
        f"| {shape} | {count:,} | {size:,} | {seconds:.2f} | {1e9 * seconds / count:,.0f} | {peak:,.1f}"
        f" | {of_cargo:.2f} | {of_cargo / seconds:.2f} | {peak_of_cargo:,.1f} |"
    )


if __name__ == "__main__":
    main(*sys.argv[1:])
