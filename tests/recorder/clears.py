#!/usr/bin/env python3
"""The heap, the steps and the syncs of clears.c, by g1record.py.

    tests/recorder/clears.py RECORD SEED STEPS [held|half|inner]
"""
import sys
from pathlib import Path

sys.dont_write_bytecode = True
sys.path.insert(0, str(Path(__file__).resolve().parent.parent.parent / "recorder"))
from g1record import Record  # noqa: E402

PLACES, GLOBALS, MUTATORS, SLOTS, WORD = 64, 2, 2, 5, 2 ** 64 - 1


class Object:
    used = reached = False

    def fill(self, name, pointers, weaks):
        self.used, self.name, self.word, self.pointers = True, name, 0, pointers
        self.fields, self.filled = [None] * (pointers + weaks), [False] * (pointers + weaks)


class Heap:
    """The heap, and what the sync asks for."""

    def __init__(self, record, seed):
        self.record, self.state, self.syncs, self.cleared = record, 176345290926650502 + seed & WORD, 0, 0
        self.places = [Object() for _ in range(PLACES)]
        self.globals, self.stacks = [None] * GLOBALS, [[None] * SLOTS for _ in range(MUTATORS)]

    def drawn(self, below):
        self.state ^= self.state << 13 & WORD
        self.state ^= self.state >> 7
        self.state ^= self.state << 17 & WORD
        return (self.state >> 20) % below

    def roots(self, m):
        return GLOBALS if m < 0 else SLOTS

    def root(self, m, i):
        return self.globals[i] if m < 0 else self.stacks[m][i]

    def name(self, it):
        return it.name

    def pointers(self, it):
        return it.pointers

    def weaks(self, it):
        return len(it.fields) - it.pointers

    def words(self, it):
        return 1

    def pointer(self, it, i):
        return it.fields[i]

    def word(self, it, i):
        return it.word

    def weak(self, it, i):
        """A slot that is nil here is one that the sync reads: it is settled."""
        at = it.pointers + i
        if it.fields[at] is None and it.filled[at]:
            it.filled[at] = False
            self.cleared += 1
        return it.fields[at]

    def sync(self):
        if self.record.sync(self) != 0:
            sys.exit(1)
        self.syncs += 1

    def reach(self, it):
        if it is not None and not it.reached:
            it.reached = True
            for field in it.fields[:it.pointers]:
                self.reach(field)

    def clear(self, keep):
        """Clears the slots of objects that roots don't reach, but for some of these, which are kept for now with all they lead to."""
        for it in self.places:
            it.reached = False
        for it in self.globals + [it for stack in self.stacks for it in stack]:
            self.reach(it)
        for it in self.places if keep > 0 else ():
            if it.used and not it.reached and self.drawn(4) < keep:
                self.reach(it)
        for it in self.places:
            for i in range(it.pointers, len(it.fields)) if it.used else ():
                if it.fields[i] is not None and not it.fields[i].reached:
                    it.fields[i] = None
        for it in self.places:
            it.used = it.used and it.reached

    def make(self, m, to, pointers, weaks):
        made = next((it for it in self.places if not it.used), None)
        if made is None:
            self.clear(0)
            self.record.new_refused(m, to, pointers, weaks, 1)
            return
        made.fill(self.record.newweak(m, to, pointers, weaks, 1), pointers, weaks)
        self.stacks[m][to] = made

    def put(self, m, of, i, source):
        it = self.stacks[m][of]
        it.fields[i] = None if source is None else self.stacks[m][source]
        it.filled[i] = it.fields[i] is not None
        if i < it.pointers:
            self.record.put(m, of, i, source)
        else:
            self.record.putweak(m, of, i - it.pointers, source)

    def get(self, m, to, of, i):
        it = self.stacks[m][of]
        found = it.fields[i]
        name = None if found is None else found.name
        if i >= it.pointers and found is None and it.filled[i]:
            self.sync()
        self.stacks[m][to] = found
        if i < it.pointers:
            self.record.get(m, to, of, i, name)
        else:
            self.record.getweak(m, to, of, i - it.pointers, name)

    def step(self):
        """A mutator takes one of the two holders that live long, or an object it has, and uses a field."""
        m, of, other, kind, place = (self.drawn(below) for below in (MUTATORS, SLOTS, SLOTS, 100, GLOBALS))
        pointers, weaks, keep = (self.drawn(below) for below in (3, 3, 6))
        stack, it = self.stacks[m], self.stacks[m][of]
        fields = 0 if it is None else len(it.fields)
        i = self.drawn(fields) if fields > 0 else 0
        if kind < 25:
            self.make(m, of, pointers, weaks)
        elif kind < 33:
            stack[of] = None
            self.record.drop(m, of)
        elif kind < 45:
            stack[of] = self.globals[place]
            self.record.load(m, of, place, stack[of].name)
        elif kind < 49:
            self.clear(keep)
        elif fields == 0:
            self.record.move(m, of, other)
            stack[of] = stack[other]
        elif kind < 53:
            it.word = kind
            self.record.write(m, of, 0, kind)
        elif kind < 80:
            self.put(m, of, i, None if kind < 56 else other)
        else:
            self.get(m, other, of, i)

    def spoil(self, kind):
        """The wrong clearing, in an object of two weak slots that is made for it."""
        stack = self.stacks[0] = [None] * SLOTS
        self.record.scope(0, 0)
        self.clear(0)
        self.make(0, 0, 0, 2)
        self.make(0, 1, 1, 0)
        self.make(0, 2, 1, 0)
        self.put(0, 2, 0, 1)
        self.put(0, 0, 0, 1)
        self.put(0, 0, 1, {"held": None, "half": 1, "inner": 2}[kind])
        stack[2] = None
        self.record.drop(0, 2)
        if kind != "held":
            stack[1] = None
            self.record.drop(0, 1)
        stack[0].fields[0] = None


def main(path, seed, steps, *spoiling):
    record = Record(path, 4096, MUTATORS, GLOBALS, PLACES + 1)
    heap = Heap(record, int(seed))
    for i in range(GLOBALS):
        heap.make(0, 0, 2, 6)
        heap.globals[i] = heap.stacks[0][0]
        record.save(0, i, 0)
    for _ in range(int(steps)):
        heap.step()
    if spoiling:
        heap.spoil(spoiling[0])
    heap.sync()
    print(heap.syncs, heap.cleared)
    record.close()


if __name__ == "__main__":
    main(*sys.argv[1:])
