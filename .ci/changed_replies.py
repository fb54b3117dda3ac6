#!/usr/bin/env python3
"""Changes each answer of the traces in crates/tracecheck/cases/rows.cases, and looks whether
`tracecheck` finds it.

    changed_replies.py [--program FILE]

An answer is changed in every way that is listed below. Each time the program has to name that line,
and the answer that stood there. It runs at the top of the repository, on the program that the gate
has built.
"""

import argparse
import concurrent.futures
import os
import pathlib
import re
import subprocess
import sys

sys.path.insert(0, str(pathlib.Path(__file__).parent))
from cases import cases_of

ROWS = pathlib.Path("crates/tracecheck/cases/rows.cases")
BUILT = pathlib.Path("crates/tracecheck/out/tracecheck")
# The line that shows the state.
STATE = r"pool (empty|[0-9]+v[0-9]+( [0-9]+v[0-9]+){0,6}|[0-9]+v[0-9]+( [0-9]+v[0-9]+){7} \.\.), cursor -?[0-9]+\n"
# What each call may answer beside handles.
WORDS = {
    "alloc": ["space", "needs flush"],
    "free": ["freed retired", "freed next 7v7", "not alive", "needs flush"],
    "flush": ["born", "born 7v7", "born (7)"],
    "reserve": ["", "7v7", "space", "space left 7"],
    "state": ["alive", "reserved", "gone"],
    "len": ["7"],
}


def other_handles(answer):
    """The answer with one handle of it changed, left out or doubled, and with two that change
    places."""
    words = answer.split()
    handles = [at for at, word in enumerate(words) if re.fullmatch(r"[0-9]+v[0-9]+", word)]
    for at in handles:
        index, generation = words[at].split("v")
        for other in (
            [f"{int(index) + 1}v{generation}"],
            [f"{index}v{int(generation) + 1}"],
            [],
            [words[at]] * 2,
        ):
            yield " ".join(words[:at] + other + words[at + 1 :])
    for at, following in zip(handles, handles[1:]):
        yield " ".join(words[:at] + [words[following], words[at]] + words[following + 1 :])


def is_so_too(answer, other):
    """Whether the other answer says the same, or less."""
    return other == answer or (other == "space" and answer.startswith("space left"))


def is_answer(call, other):
    """Whether the words may be an answer to the call: these take one handle each."""
    return not (call == "alloc" and len(other.split()) != 1 and other != "needs flush") and not (
        call == "free" and re.match("freed next", other) and len(other.split()) != 3
    )


def changes(lines):
    """Each line with an answer, and each other answer to it."""
    for at, line in enumerate(lines):
        asked, arrow, answer = line.partition(" =>")
        answer = answer.strip()
        call = asked.split()[0]
        for other in {*other_handles(answer), *WORDS[call]} if arrow else ():
            if is_answer(call, other) and not is_so_too(answer, other):
                yield at, f"{asked} => {other}"


def fault_of(program, case, at, line):
    """What is wrong with the run in which one line is this one, or None."""
    lines = case.input.decode().splitlines()
    answer = lines[at].partition("=>")[2].strip()
    wanted = f"differs line {at + 1}: {line.strip()}, expected {answer}".strip()
    given = "".join(f"{it}\n" for it in lines[:at] + [line] + lines[at + 1 :])
    ran = subprocess.run([program, *case.words[0]], input=given.encode(), capture_output=True)
    first, _, second = ran.stdout.decode().partition("\n")
    if (ran.returncode, first, ran.stderr) == (1, wanted, b"") and re.fullmatch(STATE, second):
        return None
    return f"{case.file}:{case.line}: {line!r} gives {ran.stdout + ran.stderr!r} and {ran.returncode}, and not {wanted!r}"


def main():
    parser = argparse.ArgumentParser(description=__doc__.splitlines()[0])
    parser.add_argument("--program", default=BUILT, type=pathlib.Path)
    program = parser.parse_args().program.absolute()
    rows = cases_of("tracecheck", ROWS)
    runs = [
        (program, case, at, line)
        for case in rows
        for at, line in changes(case.input.decode().splitlines())
    ]
    with concurrent.futures.ThreadPoolExecutor(os.cpu_count()) as pool:
        faults = [it for it in pool.map(lambda run: fault_of(*run), runs) if it]
    print(
        *faults,
        f"changed replies: {len(rows)} traces, {len(runs)} changes, {len(faults)} not found",
        sep="\n",
    )
    return 1 if faults or len(rows) < 10 or len(runs) < 100 else 0


if __name__ == "__main__":
    sys.exit(main())
