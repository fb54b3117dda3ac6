#!/usr/bin/env python3
"""How many instructions a step of the works of `cargo bench` takes, here and in plain Rust, by
valgrind.

    .ci/instructions.py          counts the works of rust/forgeni/benches/instructions.txt, and compares each with its limit
    .ci/instructions.py fit      counts them, and writes the limits anew: what was counted, and one in a hundred more

A clock is noisy where others use the machine. The number of instructions is the same in each run of
one program. So is the memory that it holds: the table `memory` has to print what
docs/PERFORMANCE.md says, but for what the crate slotmap holds, which isn't there.

The table `orders` has births in each order, few and ten times as many. There is no plain Rust
beside it. A birth among many may take at most half as many instructions again as one among few."""
import os
import pathlib
import re
import subprocess
import sys
import tempfile
from concurrent.futures import ThreadPoolExecutor

ROOT = pathlib.Path(__file__).resolve().parent.parent
PACKAGE = ROOT / "rust/offline"
LIMITS = ROOT / "rust/forgeni/benches/instructions.txt"
PAGE = ROOT / "docs/PERFORMANCE.md"
ORDERS = "orders"
# The C library copies memory by another code on each kind of processor. So it takes the one that is
# everywhere.
PLAIN_PROCESSOR = "glibc.cpu.hwcaps=-AVX,-AVX2,-AVX512F,-AVX512VL,-AVX512BW,-ERMS,-FSRM,-BMI2,-RTM,-SSSE3,-SSE4_1,-SSE4_2"


def built():
    """The program of `cargo bench`."""
    words = ["cargo", "bench", "--offline", "--no-run", "--bench", "calls"]
    said = subprocess.run(words, cwd=PACKAGE, check=True, stderr=subprocess.PIPE, text=True).stderr
    found = re.search(r"Executable .*\((\S+)\)", said)
    if not found:
        sys.exit(f"cargo names no program: {said}")
    return PACKAGE / found[1]


def counted(program, table, work, side):
    """The instructions of one step of a work on one side: 0 here, 1 in plain Rust."""
    with tempfile.NamedTemporaryFile() as out:
        words = [
            "valgrind",
            "--tool=callgrind",
            "--collect-atstart=no",
            "--toggle-collect=*timed*",
            f"--callgrind-out-file={out.name}",
            program,
            table,
        ]
        environment = dict(
            os.environ, FORGENI_COUNTED=f"{side} {work}", GLIBC_TUNABLES=PLAIN_PROCESSOR
        )
        run = subprocess.run(words, env=environment, capture_output=True, text=True)
    steps = re.search(r"^.*?(\d+) steps$", run.stdout, re.M)
    instructions = re.search(r"Collected : (\d+)", run.stderr)
    if run.returncode or not steps or not instructions or instructions[1] == "0":
        sys.exit(f"{table}, {work}, side {side}: not counted\n{run.stdout}{run.stderr}")
    return int(instructions[1]) / int(steps[1])


def out_of_proportion(rows, counts):
    """What to say of the works of orders whose step takes too much more where there are ten times
    as many."""
    by_name = {}
    for (table, work, _), (here, *_) in zip(rows, counts):
        if table == ORDERS:
            name, _, size = work.rpartition(" | ")
            by_name.setdefault(name, []).append((int(size), here))
    said = [] if by_name else [f"{LIMITS.name} has no work of orders"]
    for name, works in by_name.items():
        (few, of_few), (many, of_many) = min(works), max(works)
        if len(works) != 2 or many != 10 * few:
            said.append(
                f"{name}: there must be two works, one of ten times as many births as the other"
            )
        elif of_many > 1.5 * of_few:
            said.append(
                f"{name}: {of_few:.1f} instructions a birth among {few}, and {of_many:.1f} among ten times as many"
            )
    return said


def memory_of(text):
    """The rows of the table `memory`, without the columns of slotmap and of ratios."""
    _, _, rows = text.partition("| Storage | Component | Here | slotmap |")
    rows = rows.split("\n\n")[0].strip().split("\n")[2:]
    rows = [[cell.strip() for cell in row.split("|")[1:-1]] for row in rows]
    return [[*row[:3], *row[4:6], row[7], *row[9:11]] for row in rows]


def other_memory(program):
    """What to say of the rows of the page that aren't what the program prints."""
    printed = subprocess.run([program, "memory"], capture_output=True, text=True, check=True).stdout
    here, page = memory_of(printed), memory_of(PAGE.read_text())
    if len(here) != len(page):
        return [f"{PAGE.name} has {len(page)} rows of memory, and the program prints {len(here)}"]
    return [
        f"{PAGE.name} says {' | '.join(said)}, and the program {' | '.join(row)}"
        for row, said in zip(here, page)
        if row != said
    ]


def main():
    lines = LIMITS.read_text().splitlines()
    head = [line for line in lines if line.startswith("#")]
    rows = [
        [cell.strip() for cell in line.split("; ")]
        for line in lines
        if line and not line.startswith("#")
    ]
    program = built()
    with ThreadPoolExecutor(os.cpu_count()) as pool:
        sides = lambda table: (0,) if table == ORDERS else (0, 1)
        counts = list(
            pool.map(
                lambda row: [counted(program, row[0], row[1], side) for side in sides(row[0])], rows
            )
        )
    if sys.argv[1:] == ["fit"]:
        fitted = [
            f"{table}; {work}; {here * 1.01:.1f}"
            for (table, work, _), (here, *_) in zip(rows, counts)
        ]
        LIMITS.write_text("\n".join(head + fitted) + "\n")
    above = 0
    for (table, work, limit), (here, *plain) in zip(rows, counts):
        over = here > float(limit)
        above += over
        beside = "".join(f", in plain Rust {it:.1f}" for it in plain)
        print(f"{work}: {here:.1f} instructions, limit {limit}{beside}{', ABOVE THE LIMIT' * over}")
    unequal = out_of_proportion(rows, counts)
    print(*unequal, sep="\n", end="\n" * bool(unequal))
    if unequal:
        sys.exit(f"{len(unequal)} works of orders take too long where there are ten times as many")
    if above and sys.argv[1:] != ["fit"]:
        sys.exit(f"{above} of {len(rows)} works are above their limits")
    if other := other_memory(program):
        sys.exit("\n".join(other))
    print(f"memory: what an entity takes is what {PAGE.name} says")


main()
