#!/usr/bin/env python3
"""Draws the pictures of docs/pictures, and checks what the programs draw. The code that draws isn't
proved.

    pictures.py [--cases N] [--seed N]     draws them
    pictures.py --check [..]               ends with status 1 if a committed picture is another one

Both take N random schedules and traces, by default 100 of each. In their pictures no text may cover
another one or a thick line, or leave the picture. Where there is no picture, the programs have to
print, say and end as they do without being asked for one, and how they end is listed. It runs at
the top of the repository, on the programs that `.ci/programs.sh` has built.
"""

import argparse
import dataclasses
import os
import pathlib
import random
import subprocess
import sys
import tempfile
import xml.etree.ElementTree as xml

sys.path.insert(0, str(pathlib.Path(__file__).parent))
from both_builds import Cases
from changed_answers import case as changed_trace

PROGRAMS = pathlib.Path(os.environ.get("PROGRAMS", "rust/offline/target/programs"))
FOLDER = pathlib.Path("docs/pictures")
# Each picture, with the words that draw it and their input. A trace's picture goes to the file that
# `--draw` names.
PICTURES = {
    "two_callers.svg": (["spawnrun", "draw"], "examples/two_callers.txt"),
    "reused_slots.svg": (["spawnrun", "draw", "--generations", "2"], "examples/reused_slots.txt"),
    "given_twice.svg": (["tracecheck", "--draw"], "examples/given_twice.txt"),
}
# How high a text is above its baseline and below it, and how wide a letter is at most. A title has
# letters of its own.
ABOVE, BELOW, LETTER, TITLE_LETTER = 8, 2, 6.1, 9
SVG = "{http://www.w3.org/2000/svg}"


def run(words, text):
    ran = subprocess.run(
        [PROGRAMS / words[0], *words[1:]], input=text, capture_output=True, timeout=120
    )
    return ran.returncode, ran.stdout, ran.stderr


def drawn_trace(words, text):
    """How `tracecheck --draw` ends, and the picture that it makes, if it makes one."""
    with tempfile.TemporaryDirectory() as folder:
        file = pathlib.Path(folder) / "picture.svg"
        ended = run([*words, "--draw", file], text)
        return ended, file.read_bytes() if file.exists() else None


def picture(words, source):
    text = pathlib.Path(source).read_bytes()
    if words[0] == "tracecheck":
        return drawn_trace(words[:-1], text)[1]
    return run(words, text)[1]


# How the commands end without a picture.

TOO_MUCH = b"a picture must have at most 200 events and 40 slots; found "
DIFFERS = b"alloc => 1v1\n"
MANY = b"reserve 1 41 =>" + b"".join(b" %dv1" % it for it in range(1, 42))
# Words, the input, the exit status, what is printed, and how standard error begins.
ENDS = [
    (
        ["spawnrun", "draw", "--help"],
        b"",
        2,
        b"",
        b"Draws the schedule of allocator events on standard input, as an SVG\n",
    ),
    (
        ["spawnrun", "draw", "--slots", "0"],
        b"",
        2,
        b"",
        b"error: invalid value '0' for '--slots <N>'",
    ),
    (["spawnrun", "draw", "replay"], b"", 4, b"", b"spawnrun: no such file: replay\n"),
    (
        ["spawnrun", "draw", "one", "two"],
        b"",
        2,
        b"",
        b"error: unexpected argument 'one' found\n\nUsage: spawnrun draw [OPTIONS]\n",
    ),
    (["spawnrun", "draw"], b"flush\n" * 201, 1, b"refused size\n", TOO_MUCH + b"201 events\n"),
    (
        ["spawnrun", "draw"],
        b"alloc\n" * 41,
        1,
        b"refused size\n",
        TOO_MUCH + b"more slots at line 41 (counted from 1)\n",
    ),
    (
        ["spawnrun", "draw"],
        b"begin 1 4294967295\nstep 1\nanswer 1\nflush",
        1,
        b"refused size\n",
        TOO_MUCH + b"more slots at line 2 (counted",
    ),
    (
        ["spawnrun", "draw"],
        b"x" * 67108865,
        1,
        b"refused size\n",
        TOO_MUCH + b"more than 67108864 bytes\n",
    ),
    (
        ["spawnrun", "draw"],
        b"alloc\nfree",
        1,
        b"refused line 2 count\n",
        b"the words of a line must be",
    ),
    (["spawnrun", "draw", "examples/two_callers.txt"], b"x", 0, b"<svg ", b""),
    (
        ["spawnrun", "draw", "--slots", "1", "examples/data/reuse.json"],
        b"",
        1,
        b"refused line 1 word\n",
        b"a line must be ",
    ),
    (
        ["tracecheck", "--draw=no/folder", "examples/given_twice.txt"],
        b"x",
        4,
        b"differs line 6: ",
        b"no/folder can't be written: ",
    ),
    (
        ["tracecheck", "--draw", "no/folder", "examples/no_such.txt"],
        b"",
        4,
        b"",
        b"tracecheck: no such file: examples/no_such.txt\n",
    ),
    (
        ["tracecheck", "--draw", "examples/given_twice.txt"],
        DIFFERS,
        2,
        b"",
        b"error: 'examples/given_twice.txt' is no SVG, and isn't written over\n\nUsage",
    ),
    (["tracecheck", "--draw"], DIFFERS, 2, b"", b"Usage: tracecheck --draw FILE [OPTIONS]\n"),
    (
        ["tracecheck", "--draw", "--help"],
        DIFFERS,
        2,
        b"",
        b"Usage: tracecheck --draw FILE [OPTIONS]\n",
    ),
    (
        ["tracecheck", "--draw", "no/folder", "--slots", "0"],
        DIFFERS,
        2,
        b"",
        b"error: invalid value '0' for '--slots <N>'",
    ),
    (
        ["tracecheck", "--draw=no/folder"],
        b"alloc => 0v1\n",
        0,
        b"agrees: 1 lines, 1 handles given\n",
        b"",
    ),
    (
        ["tracecheck", "--draw=no/folder"],
        DIFFERS + b"x",
        4,
        b"differs line 1: alloc => 1v1, expected 0v1\n",
        b"no/folder can't be written: ",
    ),
    (
        ["tracecheck", "--draw", "no/folder"],
        MANY,
        1,
        b"differs line 1: ",
        b"a picture must have at most 200 lines and 40 slots; found more slots at line 1 ",
    ),
]


def faults_of_ends():
    for words, text, status, output, errors in ENDS:
        ended = run(words, text)
        is_as_said = (
            ended[0] == status and ended[1].startswith(output) and ended[2].startswith(errors)
        )
        if not is_as_said or not output and ended[1] or not errors and ended[2]:
            yield f"{words} {text[:99]}: ends with {ended}"
    yield from faults_of_devices()


def faults_of_devices():
    """A read that fails, and a write."""
    folder = os.open(".", os.O_RDONLY)
    with open("/dev/full", "wb") as full:
        for how in (
            {"stdin": folder, "stdout": subprocess.DEVNULL},
            {"stdin": subprocess.DEVNULL, "stdout": full},
        ):
            ran = subprocess.run([PROGRAMS / "spawnrun", "draw"], stderr=subprocess.PIPE, **how)
            if (ran.returncode, ran.stderr) != (4, b"device\n"):
                yield f"spawnrun draw with {how}: {ran}"
    ran = subprocess.run(
        [PROGRAMS / "tracecheck", "--draw", "no/folder"], stdin=folder, capture_output=True
    )
    if (ran.returncode, ran.stdout, ran.stderr) != (4, b"", b"device\n"):
        yield f"tracecheck --draw of a folder: {ran}"
    os.close(folder)


# What is in a picture.


@dataclasses.dataclass
class Box:
    left: float
    top: float
    right: float
    bottom: float
    what: str

    def meets(self, other):
        return (
            self.left < other.right
            and other.left < self.right
            and self.top < other.bottom
            and other.top < self.bottom
        )


def box_of_text(element):
    classes = element.get("class", "").split()
    width = len(element.text) * (TITLE_LETTER if "title" in classes else LETTER)
    if element.get("transform"):
        x, y = (
            int(it)
            for it in element.get("transform").removeprefix("translate(").split(")")[0].split()
        )
        return Box(x - ABOVE, y - width, x + BELOW, y, element.text)
    x, y = int(element.get("x")), int(element.get("y"))
    left = x - width if "end" in classes else x - width / 2 if "middle" in classes else x
    return Box(left, y - ABOVE, left + width, y + BELOW, element.text)


def faults_of(svg):
    """What is wrong with a picture."""
    root = xml.fromstring(svg)
    width, height = (int(root.get(it)) for it in ("width", "height"))
    if root.get("viewBox") != f"0 0 {width} {height}" or root.get("role") != "img":
        yield "its head isn't that of a picture"
    if [it.tag for it in root][:2] != [f"{SVG}title", f"{SVG}desc"]:
        yield "it has no title and no description"
    texts = sorted((box_of_text(it) for it in root.iter(f"{SVG}text")), key=lambda box: box.top)
    thick = [it for it in root.iter(f"{SVG}line") if it.get("class") in ("flush", "differs")]
    lines = [
        Box(*(int(it.get(key)) for key in ("x1", "y1", "x2", "y2")), it.get("class"))
        for it in thick
    ]
    for at, box in enumerate(texts):
        if box.left < 0 or box.top < 0 or box.right > width or box.bottom > height:
            yield f"{box} leaves it"
        for other in texts[at + 1 :]:
            if other.top >= box.bottom:
                break
            if box.meets(other):
                yield f"{box} and {other} meet"
        yield from (f"{box} is crossed by {line}" for line in lines if box.meets(line))


# Random schedules and traces.


class Schedules:
    """Random schedules, of which few events do nothing."""

    def __init__(self, seed):
        self.random = random.Random(seed)

    def schedule(self):
        pick, many = self.random.choice, self.random.choice([1, 9, 14, 15, 60, 200])
        callers = pick([1, 3, 9, 1023])
        calls, lines = {}, []
        for _ in range(many):
            caller = self.random.randrange(callers + 1)
            if calls and self.random.random() < 0.6:
                caller = pick(list(calls))
                lines.append(f"{calls[caller]} {caller}")
                if calls[caller] == "answer":
                    del calls[caller]
                else:
                    calls[caller] = "answer"
            elif self.random.random() < 0.5 and caller not in calls:
                lines.append(f"begin {caller} {pick([0, 1, 1, 2, 3])}")
                calls[caller] = "step"
            else:
                handle = f"{self.random.randrange(12)}v{self.random.randrange(1, 4)}"
                lines.append(pick(["flush", "flush", "alloc", f"free {handle}", f"free {handle}"]))
        words = ["--slots", pick(["3", "40"]), "--generations", pick(["1", "2", "9"])]
        return words, "\n".join(lines).encode()


def faults_of_schedule(words, text):
    """A schedule that is drawn: one of few slots and events, or one that is refused as `replay`
    refuses it."""
    status, output, errors = run(["spawnrun", "draw", *words], text)
    if status == 0:
        yield from faults_of(output)
    elif not errors.startswith(b"a picture must have at most ") and run(
        ["spawnrun", "replay", *words], text
    ) != (status, output, errors):
        yield f"it isn't refused as by replay: {errors}"


def faults_of_trace(words, text):
    """A trace is checked as without a picture, and there is one if it differs."""
    ended, svg = drawn_trace(["tracecheck", *words], text)
    if ended != run(["tracecheck", *words], text):
        yield f"it ends otherwise: {ended}"
    if (svg is not None) != (ended[0] == 1):
        yield f"a picture is made, or none, with status {ended[0]}"
    if svg is not None:
        yield from faults_of(svg)
        # The legend has a red line too.
        if svg.count(b'<line class="differs"') != 2:
            yield "there isn't one red line"


def faults_of_random(cases, seed):
    schedules, others = Schedules(seed), Cases(seed)
    for _ in range(cases):
        words, text = schedules.schedule()
        yield from (f"{words} {text}: {it}" for it in faults_of_schedule(words, text))
        text = others.spoilt(text)
        yield from (f"{words} {text}: {it}" for it in faults_of_schedule(words, text))
        found = changed_trace(others.random.randrange(2**60))
        if found is not None:
            text, _, slots, generations = found[:4]
            words = ["--slots", str(slots), "--generations", str(generations)]
            for text in (text.encode(), others.spoilt(text.encode())):
                yield from (f"{words} {text}: {it}" for it in faults_of_trace(words, text))


def main():
    parser = argparse.ArgumentParser(description=__doc__.splitlines()[0])
    parser.add_argument("--check", action="store_true")
    parser.add_argument("--cases", type=int, default=100)
    parser.add_argument("--seed", type=int, default=1)
    given = parser.parse_args()
    drawn = {FOLDER / name: picture(*how) for name, how in PICTURES.items()}
    faults = [f"{file}: {fault}" for file, svg in drawn.items() for fault in faults_of(svg)]
    if given.check:
        others = {it: it.read_bytes() for it in FOLDER.iterdir()}
        faults += [
            f"{it}: another picture is drawn, or none: .ci/pictures.py"
            for it in drawn | others
            if drawn.get(it) != others.get(it)
        ]
    else:
        for file, svg in drawn.items():
            file.write_bytes(svg)
    faults += [*faults_of_ends(), *faults_of_random(given.cases, given.seed)]
    print(
        *faults[:9],
        f"pictures: {len(drawn)} drawn, {given.cases} random schedules and traces, {len(faults)} faults",
        sep="\n",
    )
    return 1 if faults else 0


if __name__ == "__main__":
    sys.exit(main())
