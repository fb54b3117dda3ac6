"""Runs `spawnrun run` as cargo builds it, on one worker and on four, beside the peer of ./peer, on
eight works in turns, and prints the table of their times and memory. It stops at a wrong report.

usage: beside_peer.py PROGRAM PEER

A work is a shape of script.py with so many commands, or the script of the greatest length of
long.py. A cell in bold is above its limit. ROUNDS is how often each runs, by default 9.
"""

import os
import statistics
import sys
import tempfile
from pathlib import Path

import long
import script
from measure import nanoseconds, peak_memory

ROUNDS = int(os.environ.get("ROUNDS", 9))
LONGEST = "67 MB"
WORKS = {
    "mixed": 1_000_000,
    "names": 1_000_000,
    "spawns": 1_280_000,
    "flocks": 1_280_000,
    "crowd": 1_000_000,
    "each": 1_000_000,
    "births": 1_000_000,
    LONGEST: 3_720_000,
}
# Times and memory beside the peer's, and the time of four workers beside that of one.
BESIDE_PEER, MEMORY = 0.9, 1.0
BESIDE_ONE = dict.fromkeys(WORKS, 1.0) | dict.fromkeys(["mixed", "spawns", "flocks", LONGEST], 0.7)


def pieces_of(work, part=1):
    """The pieces of a work's text, each with the lines that must come of it. Of the longest script
    nothing says what must come of it. With a greater `part` all counts are divided by it."""
    if work == LONGEST:
        yield from ((text, []) for text in long.spawns(part))
    else:
        yield from ((text, lines) for text, lines, _ in script.pieces(work, WORKS[work], part))


def script_of(work, part=1):
    return "".join(text for text, _ in pieces_of(work, part))


def write(work, file):
    """Writes a work to a file, and gives what must come of it, if that is known."""
    report = []
    with file.open("w", encoding="ascii") as out:
        for text, lines in pieces_of(work):
            out.write(text)
            report += lines
    return "".join(f"{line}\n" for line in report).encode()


def ratio(ours, theirs, limit):
    found = round(ours / theirs, 2)
    return f"{found:.2f}" if found <= limit else f"**{found:.2f}**"


def row(work, sides, file):
    report = write(work, file)
    times = {side: [] for side in sides}
    for _ in range(ROUNDS):
        for side, command in sides.items():
            times[side].append(nanoseconds(command, file, report))
            report = report or file.with_name("output").read_bytes()
    peer, one, four = (statistics.median(its) / 1e6 for its in times.values())
    peaks = [peak_memory(command, file) / 2**20 for command in sides.values()]
    cells = [
        work,
        f"{peer:,.1f}",
        f"{one:,.1f}",
        ratio(one, peer, BESIDE_PEER),
        f"{four:,.1f}",
        f"{four / peer:.2f}",
        ratio(four, one, BESIDE_ONE[work]),
        *(f"{it:,.1f}" for it in peaks),
        ratio(peaks[1], peaks[0], MEMORY),
    ]
    print(f"| {' | '.join(cells)} |", flush=True)


def main(program, peer):
    sides = {
        "peer": [peer],
        "one": [program, "run"],
        "four": [program, "run", "--workers", "4"],
    }
    print(
        "| Work of `run` | Peer, ms | One worker | Ratio | Four workers | Ratio | Four to one "
        "| Peer, MiB | One worker | Four workers | Ratio |"
    )
    print("|---" * 11 + "|")
    with tempfile.TemporaryDirectory() as folder:
        for work in WORKS:
            row(work, sides, Path(folder, "script"))


if __name__ == "__main__":
    main(*sys.argv[1:])
