#!/usr/bin/env python3
"""Lists which functions and lemma files of a crate take longest to prove.

    .ci/times.py CRATE [--most N]

It proves the crate from nothing, on one processor, over the libraries below it, which it builds if
they aren't. The prover writes a file for each part of a function as soon as it has checked that
part, and one for each lemma file. So the time between two files is that of the second one. It runs
at the top of the repository, and needs `rt` on the PATH.
"""

import argparse
import collections
import pathlib
import re
import subprocess
import sys
import tempfile

sys.path.insert(0, str(pathlib.Path(__file__).parent))
from mutants import Prover

# What the prover makes of a function, and of the contract of one.
PARTS = (
    "Answers Code Given Goals Invariants Key Kinds Laws Layout Lts Met Mir Named Proof Reads "
    "Statement Symbol TheImpl TheInside TheLaws TheLink TheLinks TheReach TheSendSync TheView Tie View"
).split()


def owner(module):
    """The function that a module is a part of, or the module itself if it is a file of lemmas or of
    definitions."""
    library, *path = module.split(".")
    path = [it for it in path if it not in ("contracts", "declared")]
    end = next((at for at, it in enumerate(path) if at and it.split("-")[0] in PARTS), len(path))
    kind = "specs/" if library.endswith("-specs") and end == len(path) else ""
    return kind + "::".join(path[:end] or [library])


def checked(crate):
    """The modules of the crate in the order in which they were checked, each with its seconds."""
    prover = Prover()
    prover.build_below(crate)
    with tempfile.TemporaryDirectory() as room:
        words = prover.words(crate, [], room)
        words.remove("--allow-holes")
        words += ["--test"] * ("tests_may=Threads" in prover.marks[crate])
        said = subprocess.run(words, cwd=f"crates/{crate}", capture_output=True, text=True)
        if said.returncode:
            sys.exit(f"{crate} isn't proved: {(said.stdout + said.stderr)[-500:]}")
        files = [it for it in pathlib.Path(room).rglob("*.oantt") if it.parent.name != "records"]
        written = sorted((it.stat().st_mtime, it.stem) for it in files)
    before = written[0][0]
    for at, module in written:
        yield module, at - before
        before = at


def main():
    words = argparse.ArgumentParser(description="Lists what takes longest to prove.")
    words.add_argument("crate", metavar="CRATE")
    words.add_argument("--most", type=int, default=30, metavar="N")
    options = words.parse_args()
    sums, dearest = collections.Counter(), {}
    for module, seconds in checked(options.crate):
        name = owner(module)
        sums[name] += seconds
        dearest[name] = max(dearest.get(name, (0, "")), (seconds, module.split(".")[-1]))
    total = sum(sums.values())
    print(f"{options.crate}: {total:.0f} seconds, {len(sums)} functions and files")
    for name, seconds in sums.most_common(options.most):
        own, part = dearest[name]
        of_part = f"  {part} {own:.1f}" if not name.endswith(part) else ""
        print(f"{seconds:8.1f}  {name}{of_part}")


if __name__ == "__main__":
    main()
