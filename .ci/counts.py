#!/usr/bin/env python3
"""Counts what the repository promises and shows: clauses, expectations, mutants, tests. None of
them may fall.

    .ci/counts.py [REV..]     a column for each of these commits, and one for what stands here

- clauses: lines with `ensures` in the sources of crates, but for tests and examples;
- expectations of tests: the comparisons and the rows of tables in crates/ent_tests, in the tests
  of crates/spawnrun and of rust/, and in rust/erased_tests;
- expectations of cases: the answers, outputs, messages and exit statuses in the files of cases;
- expectations of scripts: the calls in examples/*.sh of a function that ends the script unless a
  run goes as the line says;
- mutants in the gate, and all of them.

It runs at the top of the repository.
"""

import pathlib
import re
import subprocess
import sys
import tempfile


def lines(folder, patterns):
    for pattern in patterns:
        for path in sorted(pathlib.Path(folder).glob(pattern)):
            if path.is_file() and "/target/" not in str(path) and "/out/" not in str(path):
                yield from path.read_text(errors="replace").splitlines()


def is_library(path):
    return path.name not in ("cases_and_examples", "ent_tests")


def checks(script):
    """The lines of a script, outside of its functions, that call one which looks at a run."""
    is_outside = True
    for line in script.read_text().splitlines():
        is_outside = (is_outside and not line.endswith("() {")) or line == "}"
        if is_outside and re.match(
            r"\s*(answered|at_most|each|ends|fails|full|given_back|prints|reads|refused|spared|takes|targets|tells|tested|unread|unused|written)( |$)",
            line,
        ):
            yield line


def counts(top):
    """The counts of a tree, by name."""
    top = pathlib.Path(top)
    crates = [it for it in top.glob("crates/*") if (it / "src").is_dir()]
    clauses = sum(
        "ensures" in it.split("//")[0]
        for crate in crates
        if is_library(crate)
        for it in lines(crate, ["src/**/*.rt"])
    )
    erased = "rust/erased_tests/src"
    tests = [
        *lines(
            top,
            [
                "crates/ent_tests/src/**/*.rt",
                "crates/spawnrun/src/tests/*.rt",
                "rust/*/tests/**/*.rs",
                f"{erased}/*.rs",
                f"{erased}/values/*.rs",
            ],
        )
    ]
    compared = r"\b(assert|assert_eq|assert_ne|prove|prove_eq)!\(|\bexpect\(|^\s*\(\s*(b?r?#*\"|&)"
    cases = [*lines(top, ["crates/*/cases/*", "crates/cases_and_examples/data/*"])]
    answers = sum(
        " => " in it or it.startswith(("> ", ">\\ ", ">> ", "! ", "= ")) or it == ">"
        for it in cases
    )
    # Edits in `must-fail` are of definitions: `rt ci` tries each.
    edits, mutants = [*top.glob("crates/*/must-fail/*.edit")], [
        *top.glob("crates/*/mutants/*.patch")
    ]
    of_gate = len(edits) + sum("\ngate\n" in it.read_text() for it in mutants)
    return {
        "crates": len(crates),
        "clauses (lines with `ensures`)": clauses,
        "tests": sum("#[test]" in it for it in tests),
        "expectations of tests": sum(bool(re.search(compared, it)) for it in tests),
        "expectations of cases": answers,
        "expectations of scripts": sum(len([*checks(it)]) for it in top.glob("examples/*.sh")),
        "mutants": len(edits) + len(mutants),
        "of them in the gate": of_gate,
    }


def at(revision):
    """The counts of a commit."""
    with tempfile.TemporaryDirectory() as room:
        archive = subprocess.run(
            ["git", "archive", revision], capture_output=True, check=True
        ).stdout
        subprocess.run(["tar", "-x", "-C", room], input=archive, check=True)
        return counts(room)


def main():
    columns = [*((it, at(it)) for it in sys.argv[1:]), ("here", counts("."))]
    print("| | " + " | ".join(name for name, _ in columns) + " |")
    print("|---|" + "---|" * len(columns))
    for what in columns[-1][1]:
        print(f"| {what} | " + " | ".join(str(found[what]) for _, found in columns) + " |")


if __name__ == "__main__":
    main()
