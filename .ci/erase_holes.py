#!/usr/bin/env python3
"""Small crates that are easy to erase wrongly, each a case of erase_holes.case: no wrong result
passes the comparison of the two erasers.

The second eraser must refuse a case with the words that the case has, or make the tokens that it
has. The first eraser runs on it too. If both make a result, the results must differ, or both must
have the tokens of the case.
"""

import pathlib
import re
import subprocess
import sys
import tempfile

import second_eraser

TOP = pathlib.Path(__file__).resolve().parent.parent
CASES = TOP / ".ci" / "erase_holes.case"
# The first eraser erases these crates, and knows of the last two that they have these types. A case
# is the first crate.
CRATES = {
    "ent_blocks": "pub struct BlockReserver;\n",
    "ent_log": "",
    "ent_runner": "",
    "ent_replay": "pub struct Log;\n",
    "ent_total": "pub struct Reserver;\n",
}
CASE = "ent_runner"
KEYS = ("edition: ", "refused: ", "erased: ")


def cases():
    """Each case: its name, what it says, and its files."""
    for text in re.split(r"^== ", CASES.read_text(), flags=re.MULTILINE)[1:]:
        head, *files = re.split(r"^-- ", text, flags=re.MULTILINE)
        name, *lines = head.strip().splitlines()
        if not files or not all(it.startswith(KEYS) for it in lines):
            sys.exit(f"{CASES.name}: {name}: a line that isn't read")
        yield name, dict(it.split(": ", 1) for it in lines), dict(it.split("\n", 1) for it in files)


def make_repository(top, says, files):
    for crate, types in CRATES.items():
        (top / "crates" / crate / "src").mkdir(parents=True)
        (top / "crates" / crate / "src" / "lib.rt").write_text(
            "//! Types.\n#![tactic(auto)]\n" + types
        )
    for name, text in files.items():
        (top / "crates" / CASE / "src" / name).write_text(text)
    (top / "crates.txt").write_text("".join(f"{it}:\n" for it in CRATES))
    (top / second_eraser.RESULTS).mkdir(parents=True)
    (top / second_eraser.PACKAGE).write_text(
        f'[package]\nname = "forgeni"\nedition = "{says.get("edition", "2024")}"\n'
    )


def fault_of(says, top):
    """What is wrong with how the second eraser treats a case, or None; and whether it refuses the
    case."""
    try:
        made, _ = second_eraser.erase(top, CRATES)
    except second_eraser.Refused as refused:
        return (
            None
            if says.get("refused", "\n") in str(refused)
            else f"it was refused otherwise: {refused}",
            True,
        )
    words = " ".join(it.text for _, tokens in made.values() for it in tokens)
    return None if says.get("erased", "\n") in words else f"it was erased as {words}", False


def main():
    count = refused = differ = agree = 0
    for name, says, files in cases():
        with tempfile.TemporaryDirectory() as folder:
            top = pathlib.Path(folder)
            make_repository(top, says, files)
            fault, is_refused = fault_of(says, top)
            if fault:
                sys.exit(f"{CASES.name}: {name}: {fault}")
            command = [
                "cargo",
                "run",
                "--offline",
                "--quiet",
                "--manifest-path",
                TOP / "rust/erase/Cargo.toml",
            ]
            first = subprocess.run(command, cwd=top, capture_output=True, text=True)
            if first.returncode and (
                first.returncode != 1 or f"crates/{CASE}/" not in first.stderr
            ):
                sys.exit(
                    f"{CASES.name}: {name}: the first eraser ended with {first.returncode}, but not for the case: {first.stderr}"
                )
            count += 1
            refused += first.returncode
            if first.returncode == 0:
                differs = is_refused or bool(second_eraser.compare(top)[0])
                differ, agree = differ + differs, agree + (not differs)
    print(
        f"{count} crates that are easy to erase wrongly: the first eraser refuses {refused}, the comparison finds {differ}, both erase {agree} rightly"
    )


main()
