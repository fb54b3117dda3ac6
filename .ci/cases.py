#!/usr/bin/env python3
"""Runs a program on the cases of its folder and compares what it prints, what it says and how it
ends.

    cases.py [--crate NAME] [--program FILE].. [CASES..]

The program is `spawnrun` without `--crate`. Without `--program` it runs the program as each
compiler of the gate has built it. Without files it runs all cases of crates/NAME/cases. It runs at
the top of the repository.

What a case expects comes from docs/FORMATS.md or a worked example, never from a run. Each line
begins with a mark and a space, and an empty line ends a case. Lines of input and of output may
alternate. The program must do nothing else: without `>` it prints nothing, and without `!` it
writes nothing to standard error, except one line of printable ASCII if the status is 1.

    #                   a comment
    $                   the arguments. Each `$` is a run of the case, and a case without one has those of the case above
    < > !               a line of standard input, output, error
    =                   the exit status, by default 1 if the output begins with `refused`, else 0
    %                   the start of a file, of which `%` in an argument is the name, also for the cases below. `\\x00` is one byte
    %*                  more of it: numbers, each in four bytes, the lowest first
    ~                   a frame for the input of this case and those below: the input replaces its `@`. `~ @` ends that
    $\\ <\\ >\\ !\\     the same without a line feed at the end. `\\n`, `\\r`, `\\t`, `\\\\` and `\\xff` are one byte each
    <* >* !*            a range, as `0..255`, and a pattern: once for each number, which replaces `#`, and 7 times the number `#*7`
    <*, <*_             the same with a comma or a space between
    <^                  a count: the input so far that many times, with commas between
    <|                  a text, each of whose beginnings is a run
    << >>               a file that is the input, or has more of the output
"""

import argparse
import concurrent.futures
import dataclasses
import os
import pathlib
import re
import subprocess
import sys
import tempfile

import picks

# The status that each program ends with, by the first word of its output, where that is not 0.
STATUSES = {"spawnrun": {"refused": 1}, "tracecheck": {"differs": 1, "refused": 2}}
# Those that say on the error stream what a refused input lacks.
ADVISING = {"spawnrun"}
SECONDS = 120
BETWEEN = {"*": b"", "*,": b",", "*_": b" "}
ESCAPES = {"n": b"\n", "r": b"\r", "t": b"\t", "\\": b"\\"}


@dataclasses.dataclass
class Case:
    """One case: the words of each of its runs, and what goes in and comes out of all of them."""

    crate: str
    file: pathlib.Path
    line: int
    words: list = dataclasses.field(default_factory=list)
    around: bytes = b"@"
    source: str = ""
    named: bytes = b""
    input: bytes = b""
    output: bytes = b""
    errors: bytes = b""
    status: int = None
    is_cut: bool = False
    says: bool = False
    marks: int = 0

    def inputs(self):
        """What is given to the program: the input in its frame, or each beginning of it."""
        whole = self.input
        if self.around != b"@":
            whole = self.around.replace(b"@", whole.removesuffix(b"\n")) + b"\n"
        return [whole[:end] for end in range(len(whole))] if self.is_cut else [whole]

    def wanted_status(self):
        if self.status is not None:
            return self.status
        return STATUSES[self.crate].get(self.output.partition(b" ")[0].decode(), 0)

    def is_advised(self):
        """Whether the error stream is told of the input, in words that the case doesn't give."""
        return self.crate in ADVISING and self.wanted_status() == 1 and not self.says


def unescaped(text):
    """The bytes of a text, in which a backslash begins one byte."""
    parts = re.split(r"\\(x[0-9a-f]{2}|.)", text)
    for at in range(1, len(parts), 2):
        parts[at] = bytes([int(parts[at][1:], 16)]) if parts[at][0] == "x" else ESCAPES[parts[at]]
    return b"".join(it if isinstance(it, bytes) else it.encode() for it in parts)


def many(text, between):
    """A pattern once for each number of a range, with the number, or a multiple of it, in its
    place."""
    numbers, _, pattern = text.partition(" ")
    first, last = map(int, numbers.split(".."))
    pieces = re.split(rb"#(\*[0-9]+)?", unescaped(pattern))
    texts, factors = pieces[::2], [int(it[1:]) if it else 1 for it in pieces[1::2]]
    if not factors:
        # One repetition, since a list of as many items as an input may have bytes takes seconds.
        return ((texts[0] + between) * (last + 1 - first)).removesuffix(between)
    each = (
        b"".join([texts[0], *(b"%d%b" % (at * it, text) for it, text in zip(factors, texts[1:]))])
        for at in range(first, last + 1)
    )
    return between.join(each)


def bytes_of(kind, text):
    """What a line of input or output stands for, by the rest of its mark."""
    if kind == "":
        return text.encode() + b"\n"
    if kind == "\\":
        return unescaped(text)
    return many(text, BETWEEN[kind])


def take(case, mark, text):
    """Adds one line to its case."""
    case.marks += 1
    kind = mark[1:]
    if mark[0] == "$":
        case.words.append(os.fsdecode(unescaped(text)).split() if kind else text.split())
    elif mark == "~":
        case.around = text.encode()
    elif mark == "%":
        case.named = unescaped(text)
    elif mark == "%*":
        case.named += b"".join(int(number).to_bytes(4, "little") for number in text.split())
    elif mark == "=":
        case.status = int(text)
    elif mark == "<<":
        case.source = text
    elif mark == ">>":
        case.output += pathlib.Path(text).read_bytes()
    elif mark == "<^":
        case.input = b",".join([case.input] * int(text))
    elif mark == "<|":
        case.input, case.is_cut = case.input + unescaped(text), True
    elif mark[0] == "<":
        case.input += bytes_of(kind, text)
    elif mark[0] == ">":
        case.output += bytes_of(kind, text)
    else:
        case.errors, case.says = case.errors + bytes_of(kind, text), True


def cases_of(crate, file):
    """The cases of a file. Words, frame and the named file hold for those below too, until others
    stand there."""
    cases, words, around, named, case = [], [], b"@", b"", None
    for number, line in enumerate(file.read_text().splitlines() + [""], 1):
        if line.startswith("#"):
            continue
        if not line:
            if case and case.words:
                words = case.words
            if case:
                around, named = case.around, case.named
                case.words = words
                cases += [case] if case.marks > case.settings else []
            case = None
            continue
        mark, _, text = line.partition(" ")
        if not re.fullmatch(r"\$\\?|[~=]|%\*?|[<>!](\\|\*[,_]?)?|<[<^|]|>>", mark):
            sys.exit(f"{file}:{number}: {mark} is no mark of a case")
        if case is None:
            case = Case(crate, file, number, around=around, named=named)
            case.settings = 0
        case.settings += mark[0] in "$~%"
        take(case, mark, text)
    return cases


def fault_of(case, program, words, given):
    """What is wrong with a run, or None."""
    how = {"stdout": subprocess.PIPE, "stderr": subprocess.PIPE, "timeout": SECONDS}
    try:
        if case.source:
            with open(case.source, "rb") as source:
                ran = subprocess.run([program, *words], stdin=source, **how)
        else:
            ran = subprocess.run([program, *words], input=given, **how)
    except subprocess.TimeoutExpired:
        return f"does not end in {SECONDS} seconds"
    wanted = case.wanted_status()
    if ran.returncode != wanted:
        return (
            f"ends with {ran.returncode}, and not with {wanted}: {shown(ran.stdout + ran.stderr)}"
        )
    if ran.stdout != case.output:
        return f"prints {differing(ran.stdout, case.output)}"
    if not case.is_advised():
        return None if ran.stderr == case.errors else f"says {differing(ran.stderr, case.errors)}"
    return (
        None
        if re.fullmatch(rb"[ -~]+\n", ran.stderr)
        else f"says no line of printable ASCII: {shown(ran.stderr)}"
    )


def shown(text):
    return repr(text[:300])


def differing(found, wanted):
    """Both texts from the first line on in which they differ."""
    pairs = zip(found.splitlines(True) + [b""], wanted.splitlines(True) + [b""])
    at = next((at for at, (one, other) in enumerate(pairs) if one != other), 0)
    return "{}, and not {}, at line {}".format(
        *(shown(b"".join(it.splitlines(True)[at:])) for it in (found, wanted)), at + 1
    )


def faults_of(case, program):
    """The runs of a case that don't go as it says, and how many runs there are."""
    runs = [(words, given) for words in case.words for given in case.inputs()]
    faults = []
    for words, given in runs:
        with tempfile.NamedTemporaryFile() as named:
            named.write(case.named)
            named.flush()
            fault = fault_of(
                case, program, [word.replace("%", named.name) for word in words], given
            )
        if fault:
            on = f" on {shown(given)}" if case.is_cut else ""
            faults.append(
                f"{case.file}:{case.line}: {program.name} {shown(' '.join(words))}{on} {fault}"
            )
    return faults, len(runs)


def main():
    parser = argparse.ArgumentParser(description=__doc__.splitlines()[0])
    parser.add_argument("--crate", choices=STATUSES, default="spawnrun")
    parser.add_argument("--program", action="append", type=pathlib.Path)
    parser.add_argument("files", nargs="*", type=pathlib.Path)
    given = parser.parse_args()
    folder = pathlib.Path("crates") / given.crate
    built = [folder / "out" / name for name in (given.crate, f"{given.crate}.by-rattle")]
    programs = given.program or [it for it in built if it.exists()]
    if not programs:
        sys.exit(f"{built[0]} isn't built: .ci/run or ./prove.sh builds it")
    files = given.files or sorted(folder.glob("cases/*.cases"))
    if not given.files:
        picks.compare(".ci/cases.py", f"files of {given.crate}", [it.name for it in files])
    cases = [(file, cases_of(given.crate, file)) for file in files]
    failed = False
    with concurrent.futures.ThreadPoolExecutor(os.cpu_count()) as pool:
        for file, those in cases:
            ended = [
                *pool.map(
                    lambda it: faults_of(*it),
                    [(case, it.absolute()) for case in those for it in programs],
                )
            ]
            faults = [it for some, _ in ended for it in some]
            print(
                *faults,
                f"{file.name}: {len(those)} cases, {sum(it for _, it in ended)} runs, {len(faults)} faults",
                sep="\n",
            )
            failed = failed or bool(faults)
    names = " and ".join(it.name for it in programs)
    print(f"cases: {sum(len(it) for _, it in cases)} run by {names}")
    return 1 if failed else 0


if __name__ == "__main__":
    sys.exit(main())
