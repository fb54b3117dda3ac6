#!/usr/bin/env python3
"""Compares the definition of a phase in blocks (crates/ent_blocks/specs/Blocks.antt) with a model
that keeps slots and not lists of handles: random phases in blocks among `alloc` and `free`. Prints
how many phases agreed, and fails at the first one that doesn't.

    .ci/blocks_model.py [phases] [seed]
"""
import random
import sys


class Defined:
    """The sequential allocator as the definitions have it: lists of handles (index, generation)."""

    def __init__(self, slots, generations):
        self.slots, self.generations = slots, generations
        self.live, self.pool = set(), [(i, 1) for i in range(slots)]
        self.taken, self.made = [], 0

    def old(self, handles):
        return [h for h in handles if h[0] < self.made]

    def fresh(self, handles):
        return [h for h in handles if h[0] >= self.made]

    def alloc(self):
        if not self.pool:
            return None
        handle = self.pool.pop(0)
        self.live.add(handle)
        self.made = max(self.made, handle[0] + 1)
        return handle

    def free(self, handle):
        self.live.remove(handle)
        if handle[1] < self.generations:
            self.pool.insert(0, (handle[0], handle[1] + 1))

    def blocks(self, sizes):
        """Opening: a block for each size. No slot is made."""
        blocks, before = [], 0
        for size in sizes:
            size = min(size, len(self.pool) - before)
            blocks.append([before, size, 0])
            before += size
        return blocks

    def reply(self, block, count):
        before, size, used = block
        rest = self.pool[before : before + size][used:]
        if count > len(rest):
            return ("space", count, len(rest))
        given = rest[:count]
        return self.old(given)[::-1] + self.fresh(given)

    def close(self, blocks):
        """If something is left before the last one that was used, the slots up to that one are
        made."""
        dealt = sum(size for _, size, _ in blocks)
        handles = [self.pool[before : before + size] for before, size, _ in blocks]
        used = [h for (_, _, n), hs in zip(blocks, handles) for h in hs[:n]]
        rests = [h for (_, _, n), hs in zip(blocks, handles) for h in hs[n:]]
        reach = max([before + n for before, _, n in blocks if n > 0], default=0)
        if len(used) < reach:
            self.made += max(0, reach - len(self.old(self.pool)))
        self.taken, self.pool = used, rests + self.pool[dealt:]

    def flush(self):
        born = self.fresh(self.taken) + self.old(self.taken)[::-1]
        self.live |= set(born)
        self.made += len(self.fresh(self.taken))
        self.taken = []
        return born


class Slots:
    """Slots with a state each, and a stack of those that wait. No list of handles is kept."""

    def __init__(self, slots, generations):
        self.limit, self.last = slots, generations
        self.state, self.generation, self.stack = [], [], []

    def name(self, slot):
        return (slot, self.generation[slot] if slot < len(self.generation) else 1)

    def make(self):
        self.state.append("waits")
        self.generation.append(1)
        return len(self.state) - 1

    def alloc(self):
        if self.stack:
            slot = self.stack.pop()
        elif len(self.state) < self.limit:
            slot = self.make()
        else:
            return None
        self.state[slot] = "lives"
        return self.name(slot)

    def free(self, handle):
        slot, _ = handle
        if self.generation[slot] == self.last:
            self.state[slot] = "retired"
        else:
            self.generation[slot] += 1
            self.state[slot] = "waits"
            self.stack.append(slot)

    def deal(self, sizes):
        """Each block is a list of slots: those that wait are popped one after the other, and after
        them come the next ones, which are not made yet."""
        dealt, fresh = [], len(self.state)
        for size in sizes:
            block = []
            while len(block) < size and (self.stack or fresh < self.limit):
                if self.stack:
                    block.append(self.stack.pop())
                else:
                    block.append(fresh)
                    fresh += 1
            dealt.append(block)
        return dealt

    def give_back(self, dealt, used):
        """The slots up to the greatest one that was used are made. What was not used and is made is
        pushed again, the last block first. What was used comes to life."""
        taken = [slot for block, count in zip(dealt, used) for slot in block[:count]]
        while len(self.state) <= max(taken, default=-1):
            self.make()
        for block, count in reversed(list(zip(dealt, used))):
            for slot in reversed(block[count:]):
                if slot < len(self.state):
                    self.stack.append(slot)
        for slot in taken:
            self.state[slot] = "lives"

    def check(self, given):
        waits = [s for s, state in enumerate(self.state) if state == "waits"]
        assert sorted(self.stack) == waits, "a slot is lost or waits twice"
        living = [self.name(s) for s, state in enumerate(self.state) if state == "lives"]
        assert len(set(living)) == len(living)
        return living


def phase(rng, defined, slots, ever):
    sizes = [rng.choice([0, 1, 2, 3, 5, 8]) for _ in range(rng.randrange(5))]
    blocks, dealt = defined.blocks(sizes), slots.deal(sizes)
    assert [b[1] for b in blocks] == [len(d) for d in dealt]
    used = [0] * len(sizes)
    given = []
    # The callers take turns at random: their order plays no part.
    for _ in range(rng.randrange(12)):
        if not sizes:
            break
        k, count = rng.randrange(len(sizes)), rng.randrange(5)
        reply = defined.reply(blocks[k], count)
        left = len(dealt[k]) - used[k]
        if count > left:
            assert reply == ("space", count, left), (reply, count, left)
            continue
        want = [slots.name(s) for s in dealt[k][used[k] : used[k] + count]]
        assert sorted(reply) == sorted(want), (reply, want)
        given += reply
        used[k] += count
        blocks[k][2] += count
    assert len(set(given)) == len(given) and not set(given) & defined.live
    assert not set(given) & ever, "a handle is given again"
    before = set(defined.live)
    defined.close(blocks)
    slots.give_back(dealt, used)
    born = defined.flush()
    assert sorted(born) == sorted(given) and defined.live == before | set(given)
    ever |= set(born)


def compare(defined, slots):
    living = slots.check(None)
    assert set(living) == defined.live
    assert defined.made == len(slots.state)
    waiting = [slots.name(s) for s in reversed(slots.stack)]
    fresh = [(i, 1) for i in range(len(slots.state), slots.limit)]
    assert defined.pool == waiting + fresh, "the pool is in another order"


def run(rng):
    limits = rng.randrange(1, 40), rng.randrange(1, 5)
    defined, slots, ever = Defined(*limits), Slots(*limits), set()
    done = 0
    for _ in range(60):
        choice = rng.random()
        if choice < 0.3:
            handle = defined.alloc()
            assert handle == slots.alloc()
            if handle:
                assert handle not in ever
                ever.add(handle)
        elif choice < 0.7 and defined.live:
            handle = rng.choice(sorted(defined.live))
            defined.free(handle)
            slots.free(handle)
        else:
            phase(rng, defined, slots, ever)
            done += 1
        compare(defined, slots)
    return done


def main():
    wanted = int(sys.argv[1]) if len(sys.argv) > 1 else 10_000
    rng = random.Random(int(sys.argv[2]) if len(sys.argv) > 2 else 1)
    done = 0
    while done < wanted:
        done += run(rng)
    print(f"{done} phases in blocks agree")


if __name__ == "__main__":
    main()
