"""Random programs in the subset of the proved crates: `rt try` runs each, rustc builds it erased,
and both must print the same.

    python3 .ci/random_programs --programs 50 --seed 1     builds each batch of programs three times, and compares what they print
    python3 .ci/random_programs --show 17 --seed 1         prints program 17 of this seed

A program is a function of statements that its seed draws: integer expressions, casts, shifts,
matches, loops, closures, traits with defaults, generics, slices, iterators, early returns, compound
assignments and values that are shared and dropped. It notes numbers in the order of evaluation. The
least and the greatest value of each expression are known as it is written, so no sum, cast or index
of a program is out of range. One crate has many programs, since a run of `rt try` takes half a
minute.
"""

import argparse
import pathlib
import shutil
import subprocess
import sys
import tempfile

from pieces import TRACE, Program

TOP = pathlib.Path(__file__).resolve().parent.parent.parent
# The first eraser erases these crates and those that they use.
CRATES = ["ent_replay", "ent_blocks", "ent_log", "ent_runner", "ent_total"]
# Their types for which the eraser has a layout.
TYPES = {
    "ent_blocks": "pub struct BlockReserver;\n",
    "ent_replay": "pub struct Log;\n",
    "ent_total": "pub struct Commands;\npub struct Reserver;\n",
}
# How a program's first note begins: its number stands in the last six digits.
MARK = "true 1000000000000"

MAIN = """#![tactic(auto)]

mod programs;

use programs::Trace;
use std::io;

fn main(rt: HostRuntime) -> io::Result<()> {
    let alloc = rt.alloc();
    let mut trace = Trace::new(alloc)?;
%s
    for note in trace.notes() {
        let (is_negative, size) = *note;
        println!(rt; "{is_negative} {size}")?;
    }
    Ok(())
}
"""

RUST_MAIN = """#![allow(dead_code, unused, private_interfaces, clippy::all)]
extern crate alloc;
mod kit;
include!("proved/modules.rs");
use traces::programs;

fn main() {
    let mut trace = programs::Trace::new().expect("memory");
%s
    for (is_negative, size) in trace.notes() {
        println!("{is_negative} {size}");
    }
}
"""


def run(command, folder, **how):
    """What a command prints, or the end of its errors if it fails."""
    found = subprocess.run(command, cwd=folder, capture_output=True, text=True, **how)
    if found.returncode:
        said = (found.stdout + found.stderr).strip().splitlines()
        return "\n".join(
            [f"{pathlib.Path(command[0]).name} ended with {found.returncode}:", *said[-120:]]
        )
    return found.stdout


def write(path, text):
    path.parent.mkdir(parents=True, exist_ok=True)
    path.write_text(text)


def outputs(folder, numbers, text):
    """What `rt try`, a debug build and a release build print of these programs."""
    calls = "\n".join(
        f"    trace.begin({it});\n    programs::program_{it}(alloc, &mut trace);" for it in numbers
    )
    tried, erased, built = folder / "tried", folder / "erased", folder / "built"
    write(tried / "crates.txt", "programs:\n")
    write(tried / "crates/programs/src/main.rt", MAIN % calls)
    write(tried / "crates/programs/src/programs.rt", text)
    write(erased / "crates.txt", "".join(f"{it}:\n" for it in CRATES))
    for crate in CRATES:
        module = "\npub mod programs;\n" * (crate == CRATES[0])
        write(
            erased / "crates" / crate / "src/lib.rt",
            "//! A crate.\n#![tactic(auto)]\n" + module + TYPES.get(crate, ""),
        )
    write(erased / "crates" / CRATES[0] / "src/programs.rt", text)
    (erased / "rust/forgeni/src/proved").mkdir(parents=True)
    how = {"stdout": subprocess.PIPE, "stderr": subprocess.PIPE, "text": True}
    tries = subprocess.Popen(
        ["rt", "try", "--steps", "2000000000"], cwd=tried / "crates/programs", **how
    )
    found = {}
    failed = run(
        [
            "cargo",
            "run",
            "--offline",
            "--quiet",
            "--manifest-path",
            str(TOP / "rust/erase/Cargo.toml"),
        ],
        erased,
    )
    shutil.copytree(TOP / "rust/forgeni/src/kit", built / "kit")
    shutil.copytree(erased / "rust/forgeni/src/proved", built / "proved")
    write(built / "main.rs", RUST_MAIN % calls.replace("(alloc, ", "("))
    for name, flags in (("debug", []), ("release", ["-O"])):
        said = run(
            ["rustc", "--edition", "2024", "--cap-lints", "allow", *flags, "main.rs", "-o", name],
            built,
        )
        found[name] = run([str(built / name)], built) if not said else f"{failed}\n{said}"
    said, why = tries.communicate()
    answered = tries.returncode == 0 and "runners=2" in said + why
    found["rt try"] = (
        said if answered else f"rt try ended with {tries.returncode}:\n{said[-500:]}\n{why[-2000:]}"
    )
    return found


def by_program(output):
    """The notes of each program, by its number."""
    parts = output.split(MARK)[1:]
    return {int(it.split("\n", 1)[0]): it.split("\n", 1)[1] for it in parts}


def compare(numbers, seed, folder):
    """Checks that the programs of these numbers do the same in all three builds, and that each
    notes something."""
    texts = {it: Program(it, seed).text() for it in numbers}
    found = outputs(folder, numbers, "\n\n".join([TRACE.rstrip(), *texts.values()]) + "\n")
    first, *others = found.values()
    if not all(it.startswith(MARK) for it in found.values()):
        sys.exit(
            "\n\n".join(
                f"{name}:\n{it[:300] if it.startswith('true') else it[-3000:]}"
                for name, it in found.items()
            )
        )
    parts = {name: by_program(it) for name, it in found.items()}
    for number in numbers:
        notes = {name: it.get(number, "") for name, it in parts.items()}
        if len(set(notes.values())) > 1:
            print(
                f"program {number} of seed {seed} doesn't do the same three times:\n\n{texts[number]}"
            )
            for name, said in notes.items():
                print(f"\n{name}: {' '.join(said.split())}")
            sys.exit(1)
    if any(it != first for it in others) or len(parts["debug"]) != len(numbers):
        sys.exit("\n\n".join(f"{name}:\n{it[-3000:]}" for name, it in found.items()))
    return first.count("\n") - len(numbers)


def main():
    parser = argparse.ArgumentParser(
        description=__doc__, formatter_class=argparse.RawDescriptionHelpFormatter
    )
    for option, usual in (("--programs", 50), ("--seed", 1), ("--batch", 50)):
        parser.add_argument(option, type=int, default=usual)
    parser.add_argument("--show", type=int)
    given = parser.parse_args()
    if given.show is not None:
        print(Program(given.show, given.seed).text())
        return
    notes = 0
    for first in range(0, given.programs, given.batch):
        with tempfile.TemporaryDirectory() as folder:
            notes += compare(
                range(first, min(first + given.batch, given.programs)),
                given.seed,
                pathlib.Path(folder),
            )
    print(
        f"{given.programs} random programs of seed {given.seed} note the same {notes} numbers under rt try, in a debug and in a release build"
    )


if __name__ == "__main__":
    main()
