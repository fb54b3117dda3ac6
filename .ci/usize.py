#!/usr/bin/env python3
"""Compares the operations of the package that could make a `usize` of 2^32 or more with
.ci/usize.txt, which says why none does.

    .ci/usize.py [ARCHIVE]     ARCHIVE is the folder of an unpacked archive: there it has the features serde and rayon too

In Rattle `usize` has 64 bits, and a machine may have 32. These are the operations: `+`, `*`, shifts
and `!`; a cast from a type with greater numbers than u32; a number of 2^32 or more; and each call
or constant of `usize` itself but those of HARMLESS. (No difference is greater than what it is taken
from, and where one is below 0, the proofs fail, or rustc's checks.) rustc finds them: its MIR has
the type of each value, also where the source has none. An operation that has no line in the list
fails, and a line that has no operation. Several that are written alike in one function have one
line, which ends with how many they are.

First the operations of PLANTED have to be found, and nothing else there. So it fails if a new rustc
writes its MIR in other words.
"""

import collections
import functools
import os
import pathlib
import re
import subprocess
import sys
import tempfile

TOP = pathlib.Path(__file__).resolve().parent.parent
LIST = TOP / ".ci/usize.txt"
# Not optimised, so that all is there that is written. What std's macros write has its place in std,
# and is left out.
MIR = ["-Zunpretty=mir", "-Zmir-include-spans=on", "-Zmir-opt-level=0", "-Coverflow-checks=on"]
# Places in a picture of at most 200 events and 40 slots, of which no contract speaks.
APART = "drawing"
NARROW = {"bool", "char", "u8", "u16", "u32"}
# They return nothing greater than what they are called with, or say that it doesn't fit.
HARMLESS = set(
    "checked_sub clone cmp default div_ceil eq fetch_sub fmt from hash ilog2 load max min ne new partial_cmp".split()
)
HARMLESS |= {"saturating_sub", "try_from"}

HEAD = re.compile(
    r"(?:(?:fn|const|static(?: mut)?) )?(?P<path>[\w:{}#[\]]+?)(?:\((?P<parameters>.*)\) ->|: .*? = (?P<value>.*))"
)
LOCAL = re.compile(r" +let (?:mut )?(_\d+): (.*?); ")
STATEMENT = re.compile(
    r" {8}(?P<text>\S.*?);? +// scope \d+ at (?P<file>.*?):(?P<place>\d+:\d+: \d+:\d+)$"
)
COMPUTED = re.compile(r"(?P<into>\S.*?) = (?:Add|Mul|Shl|Shr|Not|Neg)\w*\(")
CAST = re.compile(r" = (?:move |copy )?(?P<of>.*) as [ui]size \(")
LITERAL = re.compile(r"const (\d+)_[ui]size")
OWN = re.compile(
    r"""(?:<impl\ [ui]size>|<&?[ui]size\ as\ (?:[^<>]|<[^<>]*>)*>|Atomic(?:[UI]size|::<[ui]size>))::(\w+)
    | (?:Vec::<.*>|String)::(capacity)\( | ::(get_one|parse|product|sum)::<[^(]*[ui]size
    | \b(NonZero|Saturating|Wrapping)\W*<[ui]size""",
    re.VERBOSE,
)

# The lines that are marked have an operation.
PLANTED = """\
use std::sync::atomic::{AtomicUsize, Ordering::Relaxed};
pub const BIG: usize = 1 << 32; // found
pub const LONG: usize = 4_294_967_296; // found
pub const SHORT: usize = 4_294_967_295;
pub struct Planted<T>(T);
impl<T: Copy + Into<u64>> Planted<T> {
    pub fn planted(&self, n: usize, all: &[usize], word: &AtomicUsize) -> usize {
        let mut sum = n + 1; // found
        sum += n; // found
        sum *= n; // found
        sum |= n - 1;
        sum ^= all.len();
        sum = !sum; // found
        sum = sum >> n; // found
        sum = self.0.into() as usize; // found
        sum = self.0.into() as u32 as usize;
        sum = (n as i64) as usize; // found
        sum = all.iter().map(|one| one + sum).max().unwrap_or(0); // found
        sum = all.iter().sum(); // found
        sum = n.saturating_add(sum); // found
        sum = n.saturating_sub(sum).min(n);
        sum = word.fetch_add(1, Relaxed); // found
        sum = usize::MAX; // found
        sum = Vec::<u8>::new().capacity(); // found
        sum = "1".parse().unwrap_or(sum); // found
        sum = usize::try_from(sum as u64 + 1).unwrap_or(sum);
        if let Some(one) = all.get(sum..) { one.len() } else { self.0.into() as usize } // found
    }
}
"""


class Operation(collections.namedtuple("Operation", "file place function")):
    """Where an operation is: a file of the package, `LINE:COLUMN: LINE:COLUMN`, and the
    function or constant around it."""

    def said(self, folder):
        """As the list has it."""
        if not self.file:
            return self.function
        first, from_, last, to = (int(it) for it in re.findall(r"\d+", self.place))
        lines = lines_of(folder / self.file)[first - 1 : last]
        lines[-1] = lines[-1][: to - 1]
        lines[0] = lines[0][from_ - 1 :]
        text = " ".join(" ".join(lines).split()).replace(": ", ":")
        return f"{self.file.removeprefix('../forgeni/').removeprefix('src/')} {self.function}: {text if len(text) <= 70 else text[:60] + ' ..'}"


@functools.cache
def lines_of(path):
    return path.read_text().splitlines()


def found_in(mir):
    """The operations in the MIR of a crate, once each."""
    found, types, function = set(), {}, ""
    for line in mir.splitlines():
        if not line.startswith(" "):
            head = HEAD.match(re.sub(r"<impl at [^>]*>::", "", line))
            if head:
                names = [it for it in head["path"].split("::") if re.fullmatch(r"(?!__)\w+", it)]
                # The function of a macro of std has a name of std.
                function = names[-1] if names else "_"
                types = dict(re.findall(r"(_\d+): (.*?)(?=, _\d+: |$)", head["parameters"] or ""))
            if head and is_great(head["value"] or ""):
                # A constant that is computed at once has no place.
                found.add(Operation("", "", f"{function}: {head['value'].strip(';')}"))
            continue
        local, statement = LOCAL.match(line), STATEMENT.match(line)
        if local:
            types[local[1]] = local[2]
        elif (
            statement
            and not statement["file"].startswith("/")
            and is_operation(statement["text"], types)
        ):
            found.add(Operation(statement["file"], statement["place"], function))
    return found


def is_operation(text, types):
    computed, cast = COMPUTED.match(text), CAST.search(text)
    if computed:
        return "size" in types.get(computed["into"], "usize")
    if cast:
        of = re.search(r"<impl (u\d+)>::MAX$", cast["of"])
        return (of[1] if of else types.get(cast["of"])) not in NARROW
    return is_great(text) or any("".join(it) not in HARMLESS for it in OWN.findall(text))


def is_great(text):
    return any(int(it) >= 2**32 for it in LITERAL.findall(text))


def mir_of(command, folder):
    done = subprocess.run(
        command,
        cwd=folder,
        env={**os.environ, "RUSTC_BOOTSTRAP": "1"},
        stdout=subprocess.PIPE,
        text=True,
    )
    if done.returncode:
        sys.exit(f"{command[0]} fails")
    return done.stdout


def test_planted():
    with tempfile.TemporaryDirectory() as folder:
        (pathlib.Path(folder) / "planted.rs").write_text(PLANTED)
        mir = mir_of(
            [
                "rustc",
                "--edition=2024",
                "--crate-type=lib",
                "--cap-lints=allow",
                *MIR,
                "planted.rs",
            ],
            folder,
        )
    lines = PLANTED.splitlines()
    # The line of an operation, or of the name of a constant without a place.
    found = {
        lines[int(it.place.split(":")[0]) - 1]
        if it.place
        else next(one for one in lines if it.function.split(" ")[0] in one)
        for it in found_in(mir)
    }
    wrong = sorted(found ^ {it for it in lines if it.endswith("// found")})
    if wrong:
        sys.exit(
            "\n".join(
                [
                    "the MIR of this rustc isn't understood: these lines are found and aren't marked, or are and aren't",
                    *wrong,
                ]
            )
        )


def listed():
    """The lines of the list without their remarks."""
    return {
        ": ".join(it.strip().split(": ")[:2])
        for it in LIST.read_text().splitlines()
        if it.startswith("  ")
    }


def main(archive=None):
    test_planted()
    folder = pathlib.Path(archive) if archive else TOP / "rust/offline"
    cargo = [
        "cargo",
        "rustc",
        "--package=forgeni",
        "--offline",
        "--quiet",
        "--lib",
        "--profile=check",
        "--target-dir=target/usize",
    ]
    cargo += ["--config", str(TOP / ".ci/debian.toml")] if archive else []
    features = "programs,serde,rayon" if archive else "programs"
    builds = [["--features", features], ["--no-default-features"]]
    found = set().union(*(found_in(mir_of([*cargo, *it, "--", *MIR], folder)) for it in builds))
    apart = {it for it in found if APART in pathlib.Path(it.file).parts}
    counts = collections.Counter(it.said(folder) for it in found - apart)
    said = {f"{it} x{count}" if count > 1 else it for it, count in counts.items()}
    faults = [f"{LIST.name} has no line for: {it}" for it in sorted(said - listed())]
    faults += [f"{LIST.name}: there is no such operation: {it}" for it in sorted(listed() - said)]
    if faults:
        sys.exit("\n".join(faults))
    print(
        f"{folder}: {counts.total()} operations that could make a great usize, each in {LIST.name}, and {len(apart)} of pictures"
    )


if __name__ == "__main__":
    main(*sys.argv[1:])
