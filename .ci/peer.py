#!/usr/bin/env python3
"""Compares `spawnrun run` with the program that docs/PERFORMANCE.md measures it beside,
crates/spawnrun/bench/script/peer.

    .ci/peer.py --program SPAWNRUN --peer PEER [--scripts N] [--seed N]

On random scripts both print the same bytes, by births and by handles, or both refuse. So many, by
default 300, are not refused. On each work of the measurements, made 200 times smaller, they print
what the model of it says.
"""

import argparse
import concurrent.futures
import json
import os
import pathlib
import subprocess
import sys

TOP = pathlib.Path(__file__).resolve().parent.parent
sys.path[:0] = [str(TOP / ".ci"), str(TOP / "crates/spawnrun/bench/script")]
import picks
from beside_peer import WORKS, pieces_of
from both_builds import Cases
from scripts_in_blocks import Scripts

SMALLER = 200
REFUSED = 1  # The status of both.


def outcome(words, text):
    """The status of a run and its output, which isn't compared if the script is refused."""
    ran = subprocess.run(words, input=text, capture_output=True, timeout=120)
    return ran.returncode, None if ran.returncode == REFUSED else ran.stdout


def compare(given, text):
    """Runs both on a script: the status of both, or what they do otherwise."""
    for show in "births", "handles":
        ours = outcome([given.program, "run", "--show", show], text)
        theirs = outcome([given.peer, "--show", show], text)
        if ours != theirs or ours[0] not in (0, REFUSED):
            return f"--show {show} on {text[:2000]!r}\nends with {ours}, and the peer with {theirs}"
    return ours[0]


def compare_work(given, work):
    """The same of a work, by births and beside its model, if it has one."""
    pieces = list(pieces_of(work, SMALLER))
    text = "".join(piece for piece, _ in pieces).encode()
    report = "".join(f"{line}\n" for _, lines in pieces for line in lines).encode()
    ours, theirs = outcome([given.program, "run"], text), outcome([given.peer], text)
    same = ours == theirs == (0, report or theirs[1])
    return 0 if same else f"the work {work}: {ours}\nthe peer: {theirs}\nthe model: {report}"


def main():
    parser = argparse.ArgumentParser(
        description=__doc__, formatter_class=argparse.RawDescriptionHelpFormatter
    )
    parser.add_argument("--program", type=os.path.abspath, required=True)
    parser.add_argument("--peer", type=os.path.abspath, required=True)
    parser.add_argument("--scripts", type=int, default=300)
    parser.add_argument("--seed", type=int, default=1)
    given = parser.parse_args()
    good, any_scripts = Scripts(given.seed), Cases(given.seed)
    texts = [json.dumps(good.script()[0]).encode() for _ in range(given.scripts)]
    texts += [any_scripts.script()[2] for _ in range(given.scripts // 3)]
    with concurrent.futures.ThreadPoolExecutor(os.cpu_count()) as pool:
        ends = [*pool.map(lambda text: compare(given, text), texts)]
        ends_of_works = [*pool.map(lambda work: compare_work(given, work), WORKS)]
    if faults := [it for it in ends + ends_of_works if isinstance(it, str)]:
        sys.exit("\n\n".join(faults[:5] + [f"{len(faults)} of {len(ends + ends_of_works)} differ"]))
    if ends.count(0) < given.scripts:
        sys.exit(f"only {ends.count(0)} random scripts weren't refused")
    picks.compare(".ci/peer.py", "works", WORKS)
    print(
        f"the peer prints the same on {ends.count(0)} random scripts of seed {given.seed}, and "
        f"refuses the same {ends.count(REFUSED)}"
    )


if __name__ == "__main__":
    main()
