#!/usr/bin/env python3
"""Compares what a script picks by a pattern with the list of .ci/picks.txt, both ways: a test or a
file that was renamed isn't left out unseen.

    .. | .ci/picks.py SCRIPT WHAT     the names that the script has picked, one a line; prints how many there are
    .ci/picks.py all                  at the end of the gate: prints the counts again, and each part must have been compared

A script of Python calls `compare`. If the environment has PICKS, the counts are kept in that file
for `all`.
"""

import os
import pathlib
import sys

LIST = pathlib.Path(__file__).resolve().parent / "picks.txt"


def parts():
    """The names of each part of the list, by the part's first line."""
    found, names = {}, []
    for line in LIST.read_text().splitlines():
        if line.startswith("#") or not line:
            continue
        if line.startswith("  "):
            names.append(line.strip())
        else:
            names = found[line.removesuffix(":")] = []
    return found


def faults_of(part, picked):
    """What is wrong with these names as those of a part of the list."""
    listed = parts().get(part)
    if not listed:
        return [f"{part}: {LIST.name} has no such part"]
    faults = [
        f"{part}: {it} is in {LIST.name}, and isn't picked" for it in listed if it not in picked
    ]
    faults += [
        f"{part}: {it} is picked, and isn't in {LIST.name}" for it in picked if it not in listed
    ]
    return faults + [
        f"{part}: {it} is picked twice"
        for it in sorted({it for it in picked if picked.count(it) > 1})
    ]


def compare(script, what, picked):
    """Ends the program if the list has other names; else prints how many there are."""
    part, picked = f"{script}, {what}", list(picked)
    faults = faults_of(part, picked)
    if faults:
        sys.exit("\n".join(faults))
    said = f"{part}: {len(picked)} picked"
    print(said)
    if os.environ.get("PICKS"):
        with open(os.environ["PICKS"], "a") as kept:
            kept.write(f"{said}\n")


def compare_all():
    """Each part of the list was compared in this run of the gate."""
    said = sorted(set(pathlib.Path(os.environ["PICKS"]).read_text().splitlines()))
    print(*said, sep="\n")
    compared = [it.rpartition(": ")[0] for it in said]
    left = [f"{it}: the gate has compared no such names" for it in parts() if it not in compared]
    if left:
        sys.exit("\n".join(left))


if __name__ == "__main__":
    if sys.argv[1:] == ["all"]:
        compare_all()
    else:
        compare(*sys.argv[1:], sys.stdin.read().split("\n")[:-1])
