"""Prints a script for `spawnrun run`, and writes what must come of it, with births shown.

A script has as many frames as its number of commands needs. What must come of it is told by births
alone, as no command of it depends on a handle: a map from births to components, on which each sync
point applies the commands.
"""

import argparse
import json
import os
import random
import sys

SEED = 20241122
COMPONENTS = ["hp", "mp", "speed", "age"]
MOST = 65_536  # handles that one operation may ask for
SPAWNS = 10_000  # by each system of the shapes `spawns` and `flocks`
NAMED = 10_000  # births that a system of the shape `births` names


class World:
    """The living entities: their components by birth, in the order of births."""

    def __init__(self, least, part):
        self.least = least  # commands, or entities of the shape `births`
        self.part = part  # The fixed counts of a shape are divided by it.
        self.entities = {}

    def having(self, component):
        return [birth for birth, values in self.entities.items() if component in values]

    def sync(self, systems):
        """Brings to life what the systems have spawned, and applies their commands. Returns the
        lines of the frame."""
        for system in systems:
            self.entities.update((birth, {}) for birth in system.spawned)
        faults = []
        for system in systems:
            for place, change, birth in system.commands:
                if birth in self.entities:
                    change(self.entities, birth)
                else:
                    faults.append(f"fault {system.number} {place} not alive")
        born = sum(len(system.spawned) for system in systems)
        return [f"frame {systems[0].frame} born {born} faults {len(faults)}", *faults]

    def lines(self):
        for (frame, system, ordinal), values in self.entities.items():
            shown = "".join(f" {name}={values[name]}" for name in COMPONENTS if name in values)
            yield f"{frame}.{system}.{ordinal}{shown}"
        yield f"alive {len(self.entities)}"


class System:
    """A system of a frame as it is written: its operations, and the commands that they issue."""

    def __init__(self, world, frame, number):
        self.world, self.frame, self.number = world, frame, number
        self.operations = []
        self.commands = []  # of each the place in the queue, the change, and the birth
        self.spawned = []
        self.names = {}
        self.length = 0  # of the queue

    def setting(self, bundle):
        return lambda entities, birth: entities[birth].update(bundle)

    def births(self, count):
        first = len(self.spawned)
        births = [(self.frame, self.number, place) for place in range(first, first + count)]
        self.spawned += births
        return births

    def named(self, operation, births, name):
        if name is not None:
            operation["as"] = name
            self.names[name] = births
        self.operations.append(operation)

    def issue_one(self, change, births):
        self.commands += [(self.length, change, birth) for birth in births]
        self.length += 1

    def spawn(self, bundle, name=None):
        births = self.births(1)
        self.named({"spawn": bundle}, births, name)
        self.issue_one(self.setting(bundle), births)

    def spawn_many(self, count, bundle, name=None):
        births = self.births(count)
        self.named({"spawn_many": count, "with": bundle}, births, name)
        self.issue_one(self.setting(bundle), births)

    def on_each(self, operation, target, change):
        self.operations.append(operation)
        ((kind, text),) = target.items()
        for birth in self.names[text] if kind == "name" else self.world.having(text):
            self.issue_one(change, [birth])

    def insert(self, bundle, target):
        self.on_each({"insert": bundle, "on": target}, target, self.setting(bundle))

    def remove(self, component, target):
        change = lambda entities, birth: entities[birth].pop(component, None)
        self.on_each({"remove": component, "on": target}, target, change)

    def despawn(self, target):
        self.on_each({"despawn": target}, target, lambda entities, birth: entities.pop(birth))

    def insert_at(self, bundle, birth):
        self.operations.append({"insert": bundle, "on": {"birth": ".".join(map(str, birth))}})
        if birth in self.world.entities:
            self.issue_one(self.setting(bundle), [birth])


def mixed(system, choice):
    """Entities come and go, by names and by `each`. A few hundred are alive. One command in a
    hundred is a fault."""
    number = system.number
    if number < 2:
        for k in range(100):
            system.spawn({"hp": choice.randint(1, 99), "mp": choice.randint(1, 99)}, f"a{k}")
            system.insert({"speed": choice.randint(1, 9)}, {"name": f"a{k}"})
        for k in range(50):
            system.remove("mp", {"name": f"a{k}"})
            system.despawn({"name": f"a{2 * k}"})
        for k in range(5):
            system.insert({"hp": 0}, {"name": f"a{2 * k}"})
    elif number == 2:
        system.spawn_many(100, {"hp": 8}, "crowd")
        system.insert({"age": 0}, {"name": "crowd"})
    else:
        system.insert({"mp": 9}, {"each": "speed"})
        system.despawn({"each": "age"})
        system.despawn({"each": "speed"})


def names(system, choice):
    """Each operation issues one command, and nine of ten entities go in the frame in which they
    came."""
    for k in range(60):
        system.spawn({"hp": choice.randint(1, 99)}, f"a{k}")
        system.insert({"mp": choice.randint(1, 99)}, {"name": f"a{k}"})
        system.insert({"speed": 1, "age": 0}, {"name": f"a{k}"})
        system.remove("mp", {"name": f"a{k}"})
        if k % 10:
            system.despawn({"name": f"a{k}"})


def each(system, choice):
    """A thousand entities, all of which each frame changes by one operation."""
    if system.frame == 0 and system.number == 0:
        system.spawn_many(1000 // system.world.part, {"hp": 1})
    elif system.number == 0:
        system.insert({"mp": choice.randint(1, 99)}, {"each": "hp"})


def crowd(system, choice):
    """Half a million entities come at once, all change at once, and half of them go at once."""
    if system.frame == 0:
        bundle = {"hp": 8, "mp" if system.number % 2 else "age": 1}
        system.spawn_many(MOST // system.world.part, bundle)
    elif system.frame == 1 and system.number == 0:
        system.insert({"speed": 1}, {"each": "hp"})
    elif system.frame > 1 and system.number == 0:
        system.despawn({"each": "mp"})


def spawns(system, choice):
    """Many systems spawn ten thousand entities each, one by one."""
    for hp in range(SPAWNS // system.world.part):
        system.spawn({"hp": hp})


def flocks(system, choice):
    """Many systems spawn ten thousand entities each, all at once."""
    system.spawn_many(SPAWNS // system.world.part, {"hp": 8})


def births(system, choice):
    """So many entities come at once, and then a system names ten thousand births, a fifth of them
    nobody's."""
    least = system.world.least
    if system.frame == 0:
        for first in range(0, least, MOST):
            system.spawn_many(min(MOST, least - first), {"hp": 1})
    else:
        for value in range(NAMED // system.world.part):
            system.insert_at({"mp": value}, (0, 0, choice.randrange(least * 5 // 4)))


# Of each shape what a system does, how many systems a frame has, and how many frames there are at
# least.
SHAPES = {
    "mixed": (mixed, 4, 1),
    "names": (names, 4, 1),
    "each": (each, 4, 1),
    "crowd": (crowd, 8, 1),
    "spawns": (spawns, 128, 1),
    "flocks": (flocks, 128, 1),
    "births": (births, 1, 2),
}


def frames(shape, least, part=1):
    """The frames until there are so many commands, of which a spawn of many is one for each of its
    handles. With a greater `part` all counts are divided by it.

    Each as the operations of its systems, the lines that it must print, and the number of its
    commands.
    """
    write, count, fewest = SHAPES[shape]
    least //= part
    world, choice = World(least, part), random.Random(SEED)
    frame = commands = 0
    while frame < fewest or commands < least:
        systems = [System(world, frame, number) for number in range(count)]
        for system in systems:
            write(system, choice)
        issued = sum(len(system.commands) for system in systems)
        yield [system.operations for system in systems], world.sync(systems), issued
        frame, commands = frame + 1, commands + issued
    yield None, world.lines(), 0


def pieces(shape, least, part=1):
    """The pieces of a script's text, each with the lines that must come of it, and the number of
    its commands."""
    yield f'{{"format":2,"components":{json.dumps(COMPONENTS)},"frames":[', [], 0
    comma = ""
    for systems, lines, issued in frames(shape, least, part):
        text = "" if systems is None else comma + json.dumps(systems, separators=(",", ":"))
        yield text, lines, issued
        comma = ","
    yield "]}\n", [], 0


def main():
    parser = argparse.ArgumentParser(description=__doc__)
    parser.add_argument(
        "commands", type=int, help="at least so many; of the shape births, so many entities"
    )
    parser.add_argument("shape", nargs="?", choices=SHAPES, default="mixed")
    parser.add_argument("--report", default=os.devnull, help="the file for what must come of it")
    wanted = parser.parse_args()
    total = 0
    with open(wanted.report, "w", encoding="ascii") as report:
        for text, lines, issued in pieces(wanted.shape, wanted.commands):
            sys.stdout.write(text)
            report.writelines(f"{line}\n" for line in lines)
            total += issued
    print(total, file=sys.stderr)


if __name__ == "__main__":
    main()
