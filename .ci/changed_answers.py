#!/usr/bin/env python3
"""Changes one answer of random true traces, and counts how often `tracecheck` names the changed
line.

    changed_answers.py [--program FILE] [--traces N] [--seed N]

A model of the sequential allocator makes a true trace: some exclusive calls, and runs of
reservations by callers that overlap, each caller's in its own order. Then one answer is changed. A
trace that still agrees doesn't count. In the others `tracecheck` should name the changed line if no
other changed answer would mend the trace; the script tries all orders of the run to find out. It
ends with 0 if the line is named in 995 of 1,000 of these. It runs at the top of the repository, on
the program that the gate has built.
"""

import argparse
import concurrent.futures
import os
import pathlib
import random
import re
import subprocess
import sys

BUILT = pathlib.Path("crates/tracecheck/out/tracecheck")
WANTED = 0.995


class Model:
    """The sequential allocator, as lists."""

    def __init__(self, slots, generations):
        self.generations = generations
        self.pool = [(index, 1) for index in range(slots)]
        self.live, self.made = [], 0

    def listed(self, given):
        """The old handles in reverse, then the fresh ones."""
        old = [handle for handle in given if handle[0] < self.made]
        return old[::-1] + given[len(old) :]

    def reply(self, asked, wanted):
        """The reply to a request for `wanted` if `asked` were requested since the last flush."""
        left = self.pool[asked:]
        return self.listed(left[:wanted]) if wanted <= len(left) else ("space", len(left))

    def flush(self, served, asked):
        given = self.pool[:served]
        fresh = [handle for handle in given if handle[0] >= self.made]
        born = fresh + [handle for handle in given if handle[0] < self.made][::-1]
        self.made += len(fresh)
        self.live += born
        self.pool = self.pool[served:]
        return born

    def alloc(self):
        if not self.pool:
            return None
        handle = self.pool.pop(0)
        self.made = max(self.made, handle[0] + 1)
        self.live.append(handle)
        return handle

    def free(self, handle):
        self.live.remove(handle)
        index, generation = handle
        if generation == self.generations:
            return None
        self.pool.insert(0, (index, generation + 1))
        return (index, generation + 1)


def words(handle):
    return f"{handle[0]}v{handle[1]}"


def reply_words(reply, rng):
    if isinstance(reply, tuple):
        return rng.choice(["space", f"space left {reply[1]}"])
    return " ".join(words(handle) for handle in reply)


def fits(reply, said):
    """Whether the words of a reservation's answer are this reply."""
    if isinstance(reply, tuple):
        return said in ("space", f"space left {reply[1]}")
    return said == " ".join(words(handle) for handle in reply)


class Run:
    """Reservations that overlap: the caller, the count and the answer of each, in the order of the
    lines."""

    def __init__(self, model, first_line):
        self.model = model
        self.pool, self.made = list(model.pool), model.made
        self.first_line = first_line
        self.lines = []

    def reply(self, asked, wanted):
        left = self.pool[asked:]
        if wanted > len(left):
            return ("space", len(left))
        given = left[:wanted]
        old = [handle for handle in given if handle[0] < self.made]
        return old[::-1] + given[len(old) :]

    def agrees(self, but=None):
        """Whether some order gives all answers, except that of one line."""
        queues = {}
        for at, (caller, wanted, said) in enumerate(self.lines):
            queues.setdefault(caller, []).append((at, wanted, said))
        callers, seen = list(queues), set()

        def goes(asked, places):
            if (asked, places) in seen:
                return False
            seen.add((asked, places))
            if all(place == len(queues[caller]) for caller, place in zip(callers, places)):
                return True
            for which, caller in enumerate(callers):
                if places[which] < len(queues[caller]):
                    at, wanted, said = queues[caller][places[which]]
                    if at == but or fits(self.reply(asked, wanted), said):
                        if goes(
                            asked + wanted,
                            places[:which] + (places[which] + 1,) + places[which + 1 :],
                        ):
                            return True
            return False

        return goes(0, (0,) * len(callers))


def reservations(model, rng, run):
    """A run of reservations, and what it leaves: how many were requested, and how many were served
    before a refusal."""
    callers = rng.sample(range(1, 9), rng.randint(1, 4))
    made, asked, served = [], 0, None
    for _ in range(rng.randint(1, 7)):
        caller, wanted = rng.choice(callers), rng.choice([0, 1, 1, 1, 2, 3, 5])
        reply = run.reply(asked, wanted)
        if isinstance(reply, tuple) and served is None:
            served = asked
        asked += wanted
        made.append((caller, wanted, reply_words(reply, rng)))
    # The lines are in an order that keeps each caller's own.
    order = [caller for caller, _, _ in made]
    rng.shuffle(order)
    queues = {caller: [it for it in made if it[0] == caller] for caller in order}
    run.lines = [queues[caller].pop(0) for caller in order]
    return asked, asked if served is None else served


def trace(rng):
    """The lines of a true trace, its limits, and its runs."""
    slots, generations = rng.randint(6, 30), rng.randint(1, 3)
    model, lines, runs = Model(slots, generations), [], []
    for _ in range(rng.randint(2, 5)):
        for _ in range(rng.randint(0, 4)):
            call = rng.choice(["alloc", "free", "len", "alloc"])
            if call == "alloc":
                handle = model.alloc()
                lines.append(f"alloc => {words(handle) if handle else 'space'}")
            elif call == "free" and model.live:
                handle = rng.choice(model.live)
                following = model.free(handle)
                lines.append(
                    f"free {words(handle)} => freed {'next ' + words(following) if following else 'retired'}"
                )
            elif call == "len":
                lines.append(f"len => {len(model.live)}")
        run = Run(model, len(lines))
        asked, served = reservations(model, rng, run)
        runs.append(run)
        lines += [f"reserve {caller} {wanted} => {said}" for caller, wanted, said in run.lines]
        if asked:
            born = model.flush(served, asked)
            lines.append(f"flush => born {' '.join(map(words, born))}".rstrip())
    return lines, slots, generations, runs


def other_answer(line, lines, rng):
    """The line with another answer: one of its kind, or that of another reservation."""
    asked, _, answer = line.partition(" =>")
    answer, call = answer.strip(), asked.split()[0]
    said = answer.split()
    ways = []
    handles = [at for at, word in enumerate(said) if re.fullmatch(r"[0-9]+v[0-9]+", word)]
    for at in handles:
        index, generation = map(int, said[at].split("v"))
        for other in (
            f"{index + 1}v{generation}",
            f"{max(index - 1, 0)}v{generation}",
            f"{index}v{generation + 1}",
            f"{index + 3}v1",
        ):
            ways.append(" ".join(said[:at] + [other] + said[at + 1 :]))
    if call == "reserve":
        ways += ["space", f"space left {rng.randint(0, 4)}"]
        ways += [" ".join(said[1:]), " ".join(said[::-1])] if handles else []
        ways += [it.partition("=>")[2].strip() for it in lines if it.startswith("reserve")]
    if call == "len":
        ways += [str(int(answer) + 1)]
    if call == "alloc":
        ways = [it for it in ways if len(it.split()) == 1] + ["space"]
    if call == "free":
        ways += ["not alive", "freed retired"]
    if call == "flush":
        ways += ["born", "born " + " ".join(said[:0:-1])]
    ways = [it.strip() for it in ways]
    ways = [
        it
        for it in ways
        if it != answer
        and not (it == "space" and answer.startswith("space left"))
        and not (answer == "space" and it.startswith("space"))
    ]
    return f"{asked} => {rng.choice(ways)}".rstrip() if ways else None


def case(seed):
    """A trace with one changed answer, whether the line is a reservation, and whether no other
    change mends it."""
    rng = random.Random(seed)
    lines, slots, generations, runs = trace(rng)
    at = rng.randrange(len(lines))
    changed = other_answer(lines[at], lines, rng)
    if changed is None:
        return None
    alone = True
    for run in runs:
        place = at - run.first_line
        if 0 <= place < len(run.lines):
            caller, wanted, _ = run.lines[place]
            run.lines[place] = (caller, wanted, changed.partition("=>")[2].strip())
            if run.agrees():
                return None
            alone = not any(run.agrees(other) for other in range(len(run.lines)) if other != place)
    text = "\n".join(lines[:at] + [changed] + lines[at + 1 :]) + "\n"
    return text, at + 1, slots, generations, changed.startswith("reserve"), alone


def named(program, found):
    text, _, slots, generations, _, _ = found
    words = [program, "--slots", str(slots), "--generations", str(generations)]
    ran = subprocess.run(words, input=text.encode(), capture_output=True)
    line = re.match(r"differs line ([0-9]+): ", ran.stdout.decode())
    return ran.returncode == 1 and line is not None and int(line[1])


def main():
    parser = argparse.ArgumentParser(description=__doc__.splitlines()[0])
    parser.add_argument("--program", default=BUILT, type=pathlib.Path)
    parser.add_argument("--traces", default=3_000, type=int)
    parser.add_argument("--seed", default=1, type=int)
    parser.add_argument(
        "--show", action="store_true", help="print each trace in which another line is named"
    )
    options = parser.parse_args()
    program = options.program.absolute()
    seeds, cases = options.seed, []
    while len(cases) < options.traces:
        found = case(seeds)
        seeds += 1
        if found is not None:
            cases.append(found)
    with concurrent.futures.ThreadPoolExecutor(os.cpu_count()) as pool:
        lines = list(pool.map(lambda it: named(program, it), cases))
    unseen = [it for it, line in zip(cases, lines) if not line]
    hits = [line == it[1] for it, line in zip(cases, lines)]
    only = [hit for it, hit in zip(cases, hits) if it[5]]
    asked = [hit for it, hit in zip(cases, hits) if it[4]]
    if options.show:
        for it, line, hit in zip(cases, lines, hits):
            if it[5] and not hit:
                print(
                    f"--slots {it[2]} --generations {it[3]}: changed line {it[1]}, named {line}\n{it[0]}"
                )
    print(
        f"changed answers: {sum(hits)} of {len(hits)} named, of reservations {sum(asked)} of {len(asked)}"
    )
    print(
        f"where no other change mends the trace: {sum(only)} of {len(only)}, not seen {len(unseen)}"
    )
    return (
        0 if not unseen and len(only) > len(cases) // 2 and sum(only) >= WANTED * len(only) else 1
    )


if __name__ == "__main__":
    sys.exit(main())
