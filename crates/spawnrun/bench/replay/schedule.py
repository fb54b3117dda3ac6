"""Prints a schedule for `spawnrun replay`, and writes what must come of it.

A schedule is the beginning of an endless one, so the mix of its events does not depend on its
length. What must come of it is told by the sequential allocator of docs/MODEL.md, written a second
time.
"""

import argparse
import os
import random
import sys
from itertools import islice

SEED = 20241122
CALLERS = 1024  # all that there are
MANY = 300_000  # slots, where very many wait


class Allocator:
    """The sequential allocator, as far as no count is refused and no slot comes to its last
    generation.

    A handle is a pair of an index and a generation.
    """

    def __init__(self):
        self.living = []  # in no order
        self.waiting = []  # the old handles of the pool, whose front is the end of this list
        self.unused = 0  # the index of the first fresh handle of the pool
        self.made = 0
        self.taken = []

    def take(self, count):
        """Takes so many handles from the front of the pool."""
        old = [self.waiting.pop() for _ in range(min(count, len(self.waiting)))]
        first, self.unused = self.unused, self.unused + count - len(old)
        return old + [(index, 1) for index in range(first, self.unused)]

    def split(self, handles):
        """The old ones, the last of the pool first, and the fresh ones."""
        old = [handle for handle in reversed(handles) if handle[0] < self.made]
        fresh = [handle for handle in handles if handle[0] >= self.made]
        return old, fresh

    def alloc(self):
        (handle,) = self.take(1)
        self.made = self.unused
        self.living.append(handle)
        return handle

    def free(self, place):
        """Frees the living handle at this place, which the last one then has."""
        self.living[place], self.living[-1] = self.living[-1], self.living[place]
        index, generation = self.living.pop()
        self.waiting.append((index, generation + 1))
        return (index, generation), self.waiting[-1]

    def reserve(self, count):
        given = self.take(count)
        self.taken += given
        old, fresh = self.split(given)
        return old + fresh

    def cursor(self):
        """All old handles less all that was asked for. Old ones that are taken count in both and
        cancel out."""
        return len(self.waiting) - (self.unused - self.made)

    def flush(self):
        old, fresh = self.split(self.taken)
        self.living += fresh + old
        self.taken = []
        self.made = self.unused
        return fresh + old


def text(handles):
    return " ".join(f"{index}v{generation}" for index, generation in handles)


class Schedule:
    """Events as pairs of lines: what the schedule says, and what must come of it."""

    def __init__(self):
        self.choice = random.Random(SEED)
        self.allocator = Allocator()
        self.requests = {}  # of the callers that have begun
        self.replies = {}  # of the callers that have made their step

    def alloc(self):
        return "alloc", text([self.allocator.alloc()])

    def free(self):
        freed, following = self.allocator.free(self.choice.randrange(len(self.allocator.living)))
        return f"free {text([freed])}", f"freed {text([freed])} next {text([following])}"

    def flush(self):
        return "flush", f"born {text(self.allocator.flush())}".rstrip()

    def turn(self, caller, count):
        """The next event of a call of this caller for so many handles."""
        if caller in self.replies:
            return f"answer {caller}", text(self.replies.pop(caller))
        if caller in self.requests:
            self.replies[caller] = self.allocator.reserve(self.requests.pop(caller))
            return f"step {caller}", f"cursor {self.allocator.cursor()}"
        self.requests[caller] = count
        return f"begin {caller} {count}", "open"

    def some_callers(self, count):
        return self.choice.sample(range(CALLERS), count)

    def mixed(self):
        """Frames: entities come and go at once, then callers reserve one or a few each. More come
        than go."""
        while True:
            for _ in range(24):
                is_alloc = not self.allocator.living or self.choice.random() < 1 / 3
                yield self.alloc() if is_alloc else self.free()
            callers = self.some_callers(self.choice.randint(1, 15))
            calls = [
                (caller, self.choice.choice((1, self.choice.randint(2, 8)))) for caller in callers
            ]
            turns = 3 * calls
            self.choice.shuffle(turns)
            for caller, count in turns:
                yield self.turn(caller, count)
            yield self.flush()

    def callers(self, count):
        """So many calls are open at once: all callers begin, all step and all answer, each time in
        another order."""
        while True:
            callers = self.some_callers(count)
            for _ in range(3):
                self.choice.shuffle(callers)
                for caller in callers:
                    yield self.turn(caller, 1)
            yield self.flush()

    def waiting(self):
        """Very many slots wait: one call takes them all, and later frames take a few of them
        each."""
        for _ in range(MANY):
            yield self.alloc()
        yield from self.free_all()
        yield from self.call(MANY)
        yield self.flush()
        yield from self.free_all()
        while True:
            yield self.alloc()
            yield from self.call(3)
            yield self.flush()

    def free_all(self):
        while self.allocator.living:
            yield self.free()

    def call(self, count):
        for _ in range(3):
            yield self.turn(0, count)


SHAPES = {
    "mixed": Schedule.mixed,
    "callers-16": lambda schedule: schedule.callers(16),
    "callers-1024": lambda schedule: schedule.callers(CALLERS),
    "waiting": Schedule.waiting,
}


def main():
    parser = argparse.ArgumentParser(description=__doc__)
    parser.add_argument("lines", type=int)
    parser.add_argument("shape", nargs="?", choices=SHAPES, default="mixed")
    parser.add_argument("--outcomes", default=os.devnull, help="the file for what must come of it")
    wanted = parser.parse_args()
    events = SHAPES[wanted.shape](Schedule())
    with open(wanted.outcomes, "w", encoding="ascii") as outcomes:
        for event, outcome in islice(events, wanted.lines):
            sys.stdout.write(f"{event}\n")
            outcomes.write(f"{outcome}\n")


if __name__ == "__main__":
    main()
