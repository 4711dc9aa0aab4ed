#!/usr/bin/env python3
"""Python's own heap under steps that a seed draws: weak references are cleared with the last other one, or when a lost cycle is found.

    tests/recorder/weakrefs.py RECORD SEED STEPS [early]

Where a weak slot is seen cleared a sync is written, and at the end. By `early` a slot gives nil at the end whose object a register holds.
Prints how many syncs there were, and how many slots they found cleared.
"""
import gc
import random
import sys
import weakref
from pathlib import Path

sys.dont_write_bytecode = True
sys.path.insert(0, str(Path(__file__).resolve().parent.parent.parent / "recorder"))
from g1record import Record  # noqa: E402

TABLE, STACK, FIELDS = 4, 6, 4


class Node:
    """A slot is None, or a weak reference, which gives None when it was cleared."""

    def __init__(self, name):
        self.name, self.fields, self.slots = name, [None] * FIELDS, [None] * FIELDS


class Heap:
    """What the sync asks for, and the steps."""

    def __init__(self, path, seed):
        self.drawn = random.Random(seed)
        self.record = Record(path, 1000000, 1, TABLE, 1000)
        self.table, self.stack, self.syncs, self.cleared = [None] * TABLE, [None] * STACK, 0, 0
        for i in range(TABLE):
            self.table[i] = self.stack[0] = self.make(0)
            self.record.save(0, i, 0)

    def roots(self, m):
        return TABLE if m < 0 else STACK

    def root(self, m, i):
        return self.table[i] if m < 0 else self.stack[i]

    def name(self, it):
        return it.name

    def pointers(self, it):
        return FIELDS

    def weaks(self, it):
        return FIELDS

    def words(self, it):
        return 0

    def pointer(self, it, i):
        return it.fields[i]

    def weak(self, it, i):
        found = it.slots[i] and it.slots[i]()
        if found is None and it.slots[i] is not None:
            it.slots[i] = None
            self.cleared += 1
        return found

    def sync(self):
        if self.record.sync(self) != 0:
            sys.exit(1)
        self.syncs += 1

    def make(self, to):
        return Node(self.record.newweak(0, to, FIELDS, FIELDS, 0))

    def step(self):
        r, stack, (kind, i) = self.record, self.stack, (self.drawn.randrange(12), self.drawn.randrange(FIELDS))
        to, of = self.drawn.randrange(STACK), self.drawn.randrange(STACK)
        if kind < 3:
            stack[to] = self.make(to)
        elif kind < 4:
            stack[to] = None
            r.drop(0, to)
        elif kind < 6 or stack[of] is None:
            stack[to] = self.table[i]
            r.load(0, to, i, stack[to].name)
        elif kind < 8:
            stack[of].fields[i] = stack[to]
            r.put(0, of, i, to)
        elif kind < 9:
            stack[to] = stack[of].fields[i]
            r.get(0, to, of, i, stack[to] and stack[to].name)
        elif kind < 10:
            stack[of].slots[i] = stack[to] and weakref.ref(stack[to])
            r.putweak(0, of, i, to)
        else:
            found = stack[of].slots[i] and stack[of].slots[i]()
            if found is None and stack[of].slots[i] is not None:
                self.sync()
            stack[to] = found
            r.getweak(0, to, of, i, found and found.name)

    def clear_early(self):
        self.stack[0], self.stack[1] = self.make(0), self.make(1)
        self.record.putweak(0, 0, 0, 1)
        self.stack[0].slots[0] = lambda: None


def main(path, seed, steps, *early):
    gc.set_threshold(100)
    heap = Heap(path, int(seed))
    for _ in range(int(steps)):
        heap.step()
    if early:
        heap.clear_early()
    heap.sync()
    print(heap.syncs, heap.cleared)
    heap.record.close()


if __name__ == "__main__":
    main(*sys.argv[1:])
