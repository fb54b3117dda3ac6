#!/usr/bin/env python3
"""Runs the kit's build of `spawnrun` and `tracecheck` and that by cargo on random input, and
compares what they print, say and end with.

    both_builds.py [--cases N] [--seed N] [--kit FOLDER] [--cargo FOLDER]

A case is a schedule, a script, a trace or a command line, as it has to be or spoilt in one place or
in a few. All bytes of output and of standard error have to be the same, and the exit status. No
case asks for a picture (`spawnrun draw`, `tracecheck --draw`): the build by cargo alone draws, and
`.ci/pictures.py` checks that. Without folders it takes what the gate has built, and what
`.ci/programs.sh` has. It runs at the top of the repository.
"""

import argparse
import concurrent.futures
import json
import os
import pathlib
import random
import subprocess
import sys

sys.path.insert(0, str(pathlib.Path(__file__).parent))
from changed_answers import case as changed_trace
from changed_answers import trace

CARGO = pathlib.Path("rust/offline/target/programs")
SPOILERS = b'"\\{}[]:,0123456789-+.eEtrufalsnv \n\r\tx\x01\xc3\xa9\xff=>'
WHOLE = [
    0,
    1,
    -1,
    7,
    20,
    2**31,
    2**63 - 1,
    -(2**63),
    2**63,
    1.0,
    -0.0,
    1e30,
    1.5,
    0.00001,
    1e-7,
    123456789.25,
]
NOT_WHOLE = [*WHOLE, None, True, "", "7", 'é€😀\u0001"\\', [], [1, "x"], {}, {"b": 1, "a": [2]}]


class Cases:
    """Random cases: a program, its words, and its input."""

    def __init__(self, seed):
        self.random = random.Random(seed)

    def pick(self, items):
        return self.random.choice(items)

    def rarely(self, part=0.02):
        return self.random.random() < part

    # Schedules.

    def handle(self):
        return f"{self.random.randrange(6)}v{self.random.randrange(1, 4)}"

    def event(self, open_calls):
        caller = self.random.randrange(1, 5)
        lines = [
            "alloc",
            "alloc",
            f"free {self.handle()}",
            f"free {self.handle()}",
            "flush",
            f"alive {self.handle()}",
            "len",
            f"state {self.handle()}",
        ]
        if self.rarely(0.5):
            if caller not in open_calls:
                open_calls[caller] = "begun"
                return f"begin {caller} {self.pick([0, 1, 1, 2, 3, 7])}"
            if open_calls[caller] == "begun":
                open_calls[caller] = "stepped"
                return f"step {caller}"
            del open_calls[caller]
            return f"answer {caller}"
        if self.rarely(0.03):
            lines = [
                f"step {caller}",
                f"answer {caller}",
                "begin 1 4294967295",
                "begin 4294967296 1",
                "free 0v0",
                "free 4294967295v2147483647",
                "",
                "alloc 1",
                "x",
            ]
        return self.pick(lines[:5] if self.rarely(0.95) else lines)

    def schedule(self):
        open_calls = {}
        lines = [self.event(open_calls) for _ in range(self.random.randrange(1, 40))]
        ends = [
            f"{verb} {caller}"
            for caller, state in open_calls.items()
            for verb in (("step", "answer") if state == "begun" else ("answer",))
        ]
        text = "\n".join(lines + ends + ["flush"]).encode() + b"\n" * self.random.randrange(2)
        words = ["replay"]
        for option, last in (("--slots", 6), ("--generations", 3)):
            if self.rarely(0.4):
                words += [option, str(self.random.randrange(1, last))]
        return "spawnrun", words, text

    # Scripts.

    def bundle(self, names):
        chosen = self.random.sample(names, self.random.randrange(min(len(names), 3) + 1))
        return {
            name: self.random.randrange(-9, 99) if not self.rarely(0.03) else self.pick(NOT_WHOLE)
            for name in chosen
        }

    def target(self, names, frame):
        birth = f"{self.random.randrange(frame + 1)}.{self.random.randrange(3)}.{self.random.randrange(3)}"
        targets = [{"name": self.pick(["a", "b"])}, {"handle": self.handle()}, {"birth": birth}]
        if names:
            targets += [{"each": self.pick(names)}] * 2
        return self.pick(targets)

    def operation(self, names, frame):
        made = self.pick(
            ["spawn", "spawn_many", "insert", "remove", "despawn"]
            if names
            else ["spawn", "spawn_many", "despawn"]
        )
        if made in ("spawn", "spawn_many"):
            found = (
                {"spawn": self.bundle(names)}
                if made == "spawn"
                else {"spawn_many": self.pick([0, 1, 2, 5])}
            )
            if made == "spawn_many" and self.rarely(0.7):
                found["with"] = self.bundle(names)
            if self.rarely(0.4):
                found["as"] = self.pick(["a", "b"])
            return found
        if made == "insert":
            return {"insert": self.bundle(names), "on": self.target(names, frame)}
        if made == "remove":
            return {"remove": self.pick(names), "on": self.target(names, frame)}
        return {"despawn": self.target(names, frame)}

    def script_value(self):
        names = self.random.sample(
            ["hp", "mp", "x_1", "long_name_of_a_component", "b"], self.random.randrange(4)
        )
        system = lambda frame: [
            self.operation(names, frame) for _ in range(self.random.randrange(5))
        ]
        frames = [
            [system(frame) for _ in range(self.random.randrange(4))]
            for frame in range(self.random.randrange(4))
        ]
        script = {"format": 2, "components": names, "frames": frames}
        if self.rarely(0.3):
            script |= {
                "slots": self.random.randrange(1, 9),
                "generations": self.random.randrange(1, 4),
            }
        if self.rarely(0.1):
            del script["format"]
        return script

    def spoil_value(self, value):
        """Changes a part of a value, somewhere."""
        parts = (
            list(value.items())
            if isinstance(value, dict)
            else list(enumerate(value))
            if isinstance(value, list)
            else []
        )
        if not parts:
            return self.pick(NOT_WHOLE)
        key, part = self.pick(parts)
        if self.rarely(0.25):
            if isinstance(value, dict) and self.rarely(0.6):
                value[self.pick(["x", "on", "as", "with", "spawn", "é", "format"])] = (
                    value.pop(key) if self.rarely(0.5) else self.pick(NOT_WHOLE)
                )
            else:
                value[key] = self.pick(NOT_WHOLE)
        else:
            value[key] = self.spoil_value(part)
        return value

    def script(self):
        value = self.script_value()
        if self.rarely(0.45):
            value = self.spoil_value(value)
        text = json.dumps(
            value,
            ensure_ascii=self.rarely(0.5),
            indent=self.pick([None, None, 1]),
            separators=self.pick([None, (",", ":")]),
        )
        shown = self.pick([["--show", "births"], ["--show=handles"], []])
        blocks = self.pick([[], ["--blocks", self.pick(["1", "2", "7", "300"])]])
        # With a handle or few slots a report may depend on which system reserved first, but in
        # blocks.
        depends = not blocks and (
            shown == ["--show=handles"] or '"handle"' in text or '"slots"' in text
        )
        workers = [] if depends else self.pick([[], ["--workers", "3"]])
        return "spawnrun", ["run", *shown, *workers, *blocks], text.encode()

    # Traces.

    def trace(self):
        seed = self.random.randrange(2**60)
        found = changed_trace(seed)
        if found is None or self.rarely(0.4):
            lines, slots, generations, _ = trace(random.Random(seed))
            text = "\n".join(lines) + "\n"
        else:
            text, _, slots, generations = found[:4]
        words = ["--slots", str(slots), "--generations", str(generations)]
        return "tracecheck", words if not self.rarely(0.1) else [], text.encode()

    # Command lines.

    def line(self):
        program = self.pick(["spawnrun", "spawnrun", "tracecheck"])
        options = [
            "--slots",
            "--generations",
            "--workers",
            "--blocks",
            "--show",
            "--help",
            "--worker",
            "--slot",
            "--shows",
            "--halp",
            "--generation",
            "--x",
            "--",
            "--version",
            "--versoin",
            "-V",
        ]
        values = [
            "1",
            "0",
            "+3",
            "-1",
            "64",
            "65",
            "4294967295",
            "4294967296",
            "2147483648",
            "9223372036854775808",
            "",
            "1.5",
            "births",
            "handles",
            "birth",
            "handel",
            "x",
            "é",
        ]
        others = [
            "run",
            "replay",
            "-h",
            "-x",
            "-",
            "rerun",
            "repaly",
            "ru",
            "help",
            "more",
            "--slots=2",
            "--show=",
            "--help=1",
            "--workers=2",
            "--blocks=2",
            "-hx",
            "-Vx",
            "-hV",
            "--version=1",
            "-é",
        ]
        others += ["examples/one_caller.txt", "examples/data/reuse.json", "README.md", "examples"]
        words = [self.pick(["run", "replay"])] if program == "spawnrun" and self.rarely(0.6) else []
        for _ in range(self.random.randrange(4)):
            words += (
                [self.pick(options), self.pick(values)]
                if self.rarely(0.5)
                else [self.pick(self.pick([options, values, others]))]
            )
        return (
            program,
            words,
            b""
            if program == "tracecheck" or "replay" in words
            else b'{"components":[],"frames":[]}',
        )

    def spoilt(self, text):
        made = bytearray(text)
        for _ in range(self.pick([1, 1, 2, 5])):
            kind, at = self.random.randrange(4), self.random.randrange(len(made) + 1)
            if kind == 0:
                del made[at:]
            elif kind == 1:
                made[at:at] = bytes([self.pick(SPOILERS)])
            elif kind == 2:
                made[at : at + 1] = bytes([self.pick(SPOILERS)])
            else:
                del made[at : at + self.random.randrange(1, 9)]
        return bytes(made)

    def case(self):
        program, words, text = self.pick(
            [self.schedule, self.script, self.script, self.trace, self.line]
        )()
        return program, words, self.spoilt(text) if self.rarely(0.3) else text


def run(program, words, text):
    ran = subprocess.run([program, *words], input=text, capture_output=True, timeout=120)
    return ran.returncode, ran.stdout, ran.stderr


def compare(found, folders):
    """What differs in a case, or what its program ended with."""
    name, words, text = found
    ended = [run(folder / name, words, text) for folder in folders(name)]
    if ended[0] == ended[1]:
        return ended[0][0]
    return f"{name} {' '.join(words)} on {text[:2000]!r}\nends by the kit with {ended[0]}\nand by cargo with {ended[1]}"


def main():
    parser = argparse.ArgumentParser(description=__doc__.splitlines()[0])
    parser.add_argument("--cases", type=int, default=600)
    parser.add_argument("--seed", type=int, default=1)
    parser.add_argument("--kit", type=pathlib.Path)
    parser.add_argument("--cargo", type=pathlib.Path, default=CARGO)
    given = parser.parse_args()
    kit = lambda name: given.kit or pathlib.Path("crates") / name / "out"
    folders = lambda name: [kit(name).absolute(), given.cargo.absolute()]
    missing = [
        folder / name
        for name in ("spawnrun", "tracecheck")
        for folder in folders(name)
        if not (folder / name).exists()
    ]
    if missing:
        sys.exit(f"{missing[0]} isn't built: .ci/run or ./prove.sh builds it, or .ci/programs.sh")
    source = Cases(given.seed)
    cases = [source.case() for _ in range(given.cases)]
    with concurrent.futures.ThreadPoolExecutor(os.cpu_count()) as pool:
        ends = list(pool.map(lambda it: compare(it, folders), cases))
    faults = [it for it in ends if isinstance(it, str)]
    if faults:
        sys.exit("\n\n".join(faults[:5] + [f"{len(faults)} of {len(cases)} cases differ"]))
    counts = ", ".join(f"{ends.count(status)} with {status}" for status in sorted(set(ends)))
    print(f"both builds do the same on {len(cases)} random cases of seed {given.seed}: {counts}")


if __name__ == "__main__":
    main()
