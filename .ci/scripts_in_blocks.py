#!/usr/bin/env python3
"""Runs random scripts in blocks (`spawnrun run --blocks N`) on 1, 2, 3, 8 and 64 workers, and
compares all reports, byte by byte, with each other and with that of a model, which is written here
and shares no code with the sources. Prints how many scripts agreed, and fails at the first one that
doesn't.

    .ci/scripts_in_blocks.py [--scripts N] [--seed N] [--program FILE] [--jobs N]

The scripts name handles, births and names, spawn one and many, past the block and past the slots,
despawn, insert and remove. The systems of some are so long that their frames start threads. It
takes the toolchain's build, or with `--program` that by cargo.
"""

import argparse
import concurrent.futures
import json
import os
import random
import subprocess
import sys
import tempfile

WORKERS = (1, 2, 3, 8, 64)
NAMES = ("hp", "mp", "x_1", "speed")
# Does nothing, as nobody has that birth. `spawnrun` starts a thread for 4,096 operations.
IDLE = {"despawn": {"birth": "0.255.0"}}
IDLE_IN_A_LONG_SYSTEM = 4_200


class Scripts:
    """Random scripts, each with the number of handles of a block."""

    def __init__(self, seed):
        self.random = random.Random(seed)

    def pick(self, items):
        return self.random.choice(items)

    def chance(self, part):
        return self.random.random() < part

    def bundle(self, names):
        chosen = self.random.sample(names, self.random.randrange(min(len(names), 2) + 1))
        return {name: self.random.randrange(-9, 99) for name in chosen}

    def target(self, names, frame, bound):
        kinds = (
            ["handle", "handle"]
            + ["each"] * 2 * bool(names)
            + ["name"] * 2 * bool(bound)
            + ["birth"] * bool(frame)
        )
        kind = self.pick(kinds)
        if kind == "handle":
            return {"handle": f"{self.random.randrange(12)}v{self.random.randrange(1, 4)}"}
        if kind == "birth":
            return {
                "birth": f"{self.random.randrange(frame)}.{self.random.randrange(3)}.{self.random.randrange(4)}"
            }
        return {kind: self.pick(names if kind == "each" else sorted(bound))}

    def operation(self, names, frame, bound):
        made = self.pick(["spawn", "spawn", "spawn_many", "despawn", "insert", "remove"])
        if made in ("spawn", "spawn_many") or not names and made in ("insert", "remove"):
            found = {"spawn": self.bundle(names)}
            if made == "spawn_many":
                found = {"spawn_many": self.pick([0, 1, 2, 3, 5, 9])}
                if self.chance(0.6):
                    found["with"] = self.bundle(names)
            if self.chance(0.4):
                found["as"] = self.pick(["a", "b"])
                bound.add(found["as"])
            return found
        on = self.target(names, frame, bound)
        if made == "despawn":
            return {"despawn": on}
        return (
            {"insert": self.bundle(names), "on": on}
            if made == "insert"
            else {"remove": self.pick(names), "on": on}
        )

    def system(self, names, frame):
        bound = set()
        return [self.operation(names, frame, bound) for _ in range(self.random.randrange(6))]

    def script(self):
        names = self.random.sample(NAMES, self.random.randrange(4))
        frames = [
            [self.system(names, frame) for _ in range(self.random.randrange(5))]
            for frame in range(self.random.randrange(1, 6))
        ]
        if self.chance(0.04):
            for system in (system for frame in frames[1:] for system in frame):
                at = self.random.randrange(len(system) + 1)
                system[at:at] = [IDLE] * IDLE_IN_A_LONG_SYSTEM
        script = {"format": 2, "components": names, "frames": frames}
        if self.chance(0.4):
            script["slots"] = self.random.randrange(1, 16)
        if self.chance(0.3):
            script["generations"] = self.random.randrange(1, 4)
        return script, self.pick([1, 1, 2, 2, 3, 4, 6, 10, 1000])


class World:
    """What lives, and the handles that are given next: those that wait, in the order in which they
    are given, and then new slots."""

    def __init__(self, script):
        self.slots = script.get("slots", 2**32 - 1)
        self.last = script.get("generations", 2**31 - 1)
        self.names = script["components"]
        self.waiting, self.made, self.living = [], 0, {}

    def deal(self, systems, size):
        """A block of handles for each of so many systems."""
        ahead = self.waiting + [
            (index, 1) for index in range(self.made, min(self.slots, self.made + size * systems))
        ]
        return [ahead[size * number : size * (number + 1)] for number in range(systems)]

    def by_birth(self):
        return sorted(self.living, key=lambda handle: (self.living[handle][0], handle))

    def targeted(self, on, bound):
        """The handles that a target means as a frame begins."""
        ((kind, what),) = on.items()
        if kind == "name":
            return bound.get(what, [])
        if kind == "handle":
            return [tuple(int(part) for part in what.split("v"))]
        if kind == "each":
            return [handle for handle in self.by_birth() if what in self.living[handle][1]]
        birth = tuple(int(part) for part in what.split("."))
        return [handle for handle in self.by_birth() if self.living[handle][0] == birth][:1]

    def issued(self, system, block):
        """The commands of a system with this block: each its kind, the handles, and what it says.
        And how many handles it used."""
        commands, bound, used = [], {}, 0
        for operation in system:
            if "spawn" in operation or "spawn_many" in operation:
                wanted = operation.get("spawn_many", 1)
                if wanted > len(block) - used:
                    commands.append(("refused", [], (wanted, len(block) - used)))
                    continue
                given = block[used : used + wanted]
                used += wanted
                # Slots that were made before come first, the one that is given last before the
                # others.
                old = [handle for handle in given if handle[0] < self.made]
                listed = old[::-1] + [handle for handle in given if handle[0] >= self.made]
                commands.append(
                    (
                        "spawn",
                        listed,
                        operation.get("with", {})
                        if "spawn_many" in operation
                        else operation["spawn"],
                    )
                )
                if "as" in operation:
                    bound[operation["as"]] = listed
            elif "despawn" in operation:
                commands += [
                    ("despawn", [handle], None)
                    for handle in self.targeted(operation["despawn"], bound)
                ]
            else:
                kind = "insert" if "insert" in operation else "remove"
                commands += [
                    (kind, [handle], operation[kind])
                    for handle in self.targeted(operation["on"], bound)
                ]
        return commands, used

    def end_phase(self, blocks, used):
        """What was used is not given again. A new slot that comes before one that was used was made
        too."""
        gone = {handle for block, count in zip(blocks, used) for handle in block[:count]}
        dealt = [handle for block in blocks for handle in block]
        made = max([self.made] + [index + 1 for index, _ in gone])
        left = [handle for handle in dealt if handle not in gone and handle[0] < made]
        self.waiting = (
            left + self.waiting[len([handle for handle in dealt if handle[0] < self.made]) :]
        )
        self.made = made
        return len(gone)

    def free(self, handle):
        del self.living[handle]
        if handle[1] < self.last:
            self.waiting.insert(0, (handle[0], handle[1] + 1))

    def apply(self, command):
        """Lets a command take effect, and gives its faults."""
        kind, handles, what = command
        if kind == "refused":
            return [f"space wanted {what[0]} left {what[1]}"]
        faults = []
        for handle in handles:
            if handle not in self.living:
                faults.append(handle)
            elif kind == "despawn":
                self.free(handle)
            elif kind == "remove":
                self.living[handle][1].pop(what, None)
            else:
                self.living[handle][1].update(what)
        return faults

    def frame(self, number, systems, size, shows):
        blocks = self.deal(len(systems), size)
        queues, used = (
            zip(*[self.issued(*both) for both in zip(systems, blocks)]) if systems else ((), ())
        )
        born = self.end_phase(blocks, used)
        for system, queue in enumerate(queues):
            handles = [
                handle for kind, handles, _ in queue if kind == "spawn" for handle in handles
            ]
            self.living.update(
                (handle, ((number, system, ordinal), {})) for ordinal, handle in enumerate(handles)
            )
        lines = []
        for system, queue in enumerate(queues):
            for at, command in enumerate(queue):
                for fault in self.apply(command):
                    said = fault if isinstance(fault, str) else "not alive" + shown(fault, shows)
                    lines.append(f"fault {system} {at} {said}")
        return [f"frame {number} born {born} faults {len(lines)}", *lines]

    def lines(self, shows):
        for handle in self.by_birth():
            birth, values = self.living[handle]
            items = "".join(f" {name}={values[name]}" for name in self.names if name in values)
            yield ".".join(map(str, birth)) + shown(handle, shows) + items
        yield f"alive {len(self.living)}"


def shown(handle, shows):
    return f" {handle[0]}v{handle[1]}" if shows else ""


def report(script, size, shows):
    """The report of the model."""
    world, lines = World(script), []
    for number, systems in enumerate(script["frames"]):
        lines += world.frame(number, systems, size, shows)
    return "".join(f"{line}\n" for line in [*lines, *world.lines(shows)])


def compare(program, seed, count):
    """Runs so many scripts, and gives what is wrong with the first one that differs, or None."""
    scripts = Scripts(seed)
    with tempfile.NamedTemporaryFile(suffix=".json") as file:
        for number in range(count):
            script, size = scripts.script()
            with open(file.name, "w") as out:
                json.dump(script, out)
            for shows in (True, False) if number % 4 == 0 else (True,):
                expected = report(script, size, shows)
                for workers in WORKERS:
                    words = [
                        "run",
                        "--blocks",
                        str(size),
                        "--workers",
                        str(workers),
                        "--show",
                        "handles" if shows else "births",
                        file.name,
                    ]
                    ran = subprocess.run([program, *words], capture_output=True, text=True)
                    if ran.returncode or ran.stdout != expected or ran.stderr:
                        return f"{json.dumps(script)}\n{' '.join(words[:-1])}\nexpected:\n{expected}\nstatus {ran.returncode}:\n{ran.stdout}{ran.stderr}"
    return None


def main():
    parser = argparse.ArgumentParser(
        description=__doc__, formatter_class=argparse.RawDescriptionHelpFormatter
    )
    parser.add_argument("--scripts", type=int, default=300)
    parser.add_argument("--seed", type=int, default=1)
    parser.add_argument("--program", default="crates/spawnrun/out/spawnrun")
    parser.add_argument("--jobs", type=int, default=os.cpu_count())
    asked = parser.parse_args()
    share = 50
    parts = [min(share, asked.scripts - begin) for begin in range(0, asked.scripts, share)]
    program = os.path.abspath(asked.program)
    with concurrent.futures.ProcessPoolExecutor(asked.jobs) as pool:
        tries = [
            pool.submit(compare, program, asked.seed * 1_000_003 + at, count)
            for at, count in enumerate(parts)
        ]
        for tried in tries:
            if wrong := tried.result():
                sys.exit(f"a script differs: {wrong}")
    print(f"scripts in blocks: {asked.scripts} agree, on {', '.join(map(str, WORKERS))} workers")


if __name__ == "__main__":
    main()
