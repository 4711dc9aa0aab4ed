#!/usr/bin/env python3
"""A heap without a collector, and its record by each call of g1record.py. tools/check_recorder compares it with that of example.c.

    recorder/example.py RECORD
"""
import sys

sys.dont_write_bytecode = True
from g1record import Record  # noqa: E402


class Object:
    def __init__(self, name, pointers, weaks, words):
        self.name, self.pointers, self.weaks, self.words = name, [None] * pointers, [None] * weaks, [0] * words


class Heap:
    """The heap, and what the walk asks for."""

    def __init__(self):
        self.globals, self.stacks, self.used = [None] * 2, [[None] * 8, [None] * 8], [0, 0]

    def make(self, m, to, name, pointers, weaks, words):
        made = self.stacks[m][to] = Object(name, pointers, weaks, words)
        return made

    def roots(self, m):
        return 2 if m < 0 else self.used[m]

    def root(self, m, i):
        return self.globals[i] if m < 0 else self.stacks[m][i]

    def name(self, it):
        return it.name

    def pointers(self, it):
        return len(it.pointers)

    def weaks(self, it):
        return len(it.weaks)

    def words(self, it):
        return len(it.words)

    def pointer(self, it, i):
        return it.pointers[i]

    def weak(self, it, i):
        return it.weaks[i]

    def word(self, it, i):
        return it.words[i]


def use_objects(r, h):
    """Objects, fields and words: a list of three, of which the last names the second."""
    a = h.make(0, 0, r.new(0, 0, 2, 1), 2, 0, 1)
    b = h.make(0, 1, r.newweak(0, 1, 1, 1, 2), 1, 1, 2)
    c = h.make(0, 2, r.new(0, 2, 1, 0), 1, 0, 0)
    h.used[0] = 3
    r.new_refused(0, 3, 3, 0, 3)
    r.new_refused(0, 3, 4000000, 0, 0)
    a.pointers[1] = b
    r.put(0, 0, 1, 1)
    b.pointers[0] = c
    r.put(0, 1, 0, 2)
    b.weaks[0] = c
    r.putweak(0, 1, 0, 2)
    c.pointers[0] = b
    r.put(0, 2, 0, 1)
    r.put(0, 0, 0, None)
    a.words[0] = 7
    r.write(0, 0, 0, 7)
    b.words[1] = 2 ** 64 - 1
    r.write(0, 1, 1, 2 ** 64 - 1)
    r.read(0, 1, 1, b.words[1])
    r.event("0 read r3 0 = refused 1 Nil")
    h.globals[0] = a
    r.save(0, 0, 0)


def use_frames(r, h):
    """The other mutator comes by the objects, in a frame that begins at r2."""
    stack = h.stacks[1]
    stack[2] = h.globals[0]
    r.load(1, 2, 0, stack[2].name)
    stack[3] = stack[2].pointers[1]
    r.get(1, 3, 2, 1, stack[3].name)
    stack[4] = stack[3].weaks[0]
    r.getweak(1, 4, 3, 0, stack[4].name)
    r.get(1, 5, 2, 0, None)
    r.shape(1, 3, 1, 2)
    r.weaks(1, 3, 1)
    stack[0] = stack[3]
    r.move(1, 0, 3)
    stack[4] = None
    r.drop(1, 4)
    h.used[1] = 1
    r.scope(1, 2)
    h.stacks[0][2] = None
    r.drop(0, 2)


def use_weak_slots(r, h):
    """An object that a weak slot alone names is lost, and the heap clears the slot when it likes, without an event."""
    stack = h.stacks[1]
    h.make(1, 1, r.new(1, 1, 0, 0), 0, 0, 0)
    stack[0].weaks[0] = stack[1]
    r.putweak(1, 0, 0, 1)
    stack[1] = None
    r.drop(1, 1)
    stack[0].weaks[0] = None
    left = r.sync(h)
    r.getweak(1, 1, 0, 0, None)
    return left


def main(path):
    r, h = Record(path, 3000000, 2, 2, 8), Heap()
    use_objects(r, h)
    use_frames(r, h)
    r.collector("begin")
    r.collector("mark 4")
    h.stacks[1][0].weaks[0] = None
    r.putweak(1, 0, 0, None)
    r.collector("remark", "marked 3")
    r.collector("cleanup", "reclaimed 0")
    r.collector("refine 2", "refined 1")
    r.collector("pause 4096", "moved 1 8")
    left = r.walk(h) + use_weak_slots(r, h)
    r.close()
    return 1 if left else 0


if __name__ == "__main__":
    sys.exit(main(sys.argv[1]))
