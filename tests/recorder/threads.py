#!/usr/bin/env python3
"""More threads than a record has mutators, to which their numbers are lent, by g1record.py.

    tests/recorder/threads.py RECORD THREADS shared|lent

By `shared` thread t takes the steps of mutator t mod 63, in a range of its registers that is its own. By `lent` a thread takes a free
number for each turn, and its objects are in globals of its own in between. The record ends with a walk; printed is how many objects it
left.
"""
import random
import sys
import threading
from pathlib import Path

sys.dont_write_bytecode = True
sys.path.insert(0, str(Path(__file__).resolve().parent.parent.parent / "recorder"))
from g1record import Record  # noqa: E402

NUMBERS, SLOTS, TURNS, TABLE = 63, 3, 20, 4


class Node:
    def __init__(self, name):
        self.name, self.fields = name, [None, None]


class Heap:
    """Stacks by thread, a table that all see, and what the walk asks for: of `lent` all stacks are globals then."""

    weaks = None

    def __init__(self, path, threads, lent):
        self.threads, self.lent, self.rows = threads, lent, -(-threads // NUMBERS)
        self.stacks, self.table = [[None] * SLOTS for _ in range(threads)], [None] * TABLE
        self.record = Record(path, 1000000, NUMBERS, TABLE + (threads * SLOTS if lent else 0), 100 + self.rows * SLOTS)
        self.lock, self.free = threading.Lock(), list(range(NUMBERS))

    def roots(self, m):
        if m < 0:
            return TABLE + (self.threads * SLOTS if self.lent else 0)
        return 0 if self.lent else len(range(m, self.threads, NUMBERS)) * SLOTS

    def root(self, m, i):
        if m < 0 and i < TABLE:
            return self.table[i]
        at, slot = divmod(i - TABLE if m < 0 else i, SLOTS)
        return self.stacks[at if m < 0 else m + at * NUMBERS][slot]

    def name(self, it):
        return it.name

    def pointers(self, it):
        return 2

    def words(self, it):
        return 0

    def pointer(self, it, i):
        return it.fields[i]

    def park(self, thread, m):
        for i in range(SLOTS):
            self.record.save(m, TABLE + thread * SLOTS + i, i)
        self.record.scope(m, 0)

    def unpark(self, thread, m):
        for i, it in enumerate(self.stacks[thread]):
            self.record.load(m, i, TABLE + thread * SLOTS + i, it and it.name)

    def step(self, m, base, stack, drawn):
        """A step of a thread whose slots are the registers from `base` on."""
        r, kind, to, of, i = self.record, drawn.randrange(6), drawn.randrange(SLOTS), drawn.randrange(SLOTS), drawn.randrange(TABLE)
        it = stack[of]
        if kind == 0:
            stack[to] = Node(r.new(m, base + to, 2, 0))
        elif kind == 1:
            stack[to] = self.table[i]
            r.load(m, base + to, i, stack[to] and stack[to].name)
        elif kind == 2:
            self.table[i] = it
            r.save(m, i, base + of)
        elif kind == 3:
            stack[to] = None
            r.drop(m, base + to)
        elif it is None:
            r.event(f"{m} get r{base + to} r{base + of} 0 = refused 1 Nil")
        elif kind == 4:
            it.fields[i % 2] = stack[to]
            r.put(m, base + of, i % 2, base + to)
        else:
            stack[to] = it.fields[i % 2]
            r.get(m, base + to, base + of, i % 2, stack[to] and stack[to].name)

    def run(self, thread):
        drawn = random.Random(thread)
        for _ in range(TURNS):
            with self.lock:
                m = self.free.pop() if self.lent else thread % NUMBERS
                if self.lent:
                    self.unpark(thread, m)
                for _ in range(5):
                    self.step(m, 0 if self.lent else thread // NUMBERS * SLOTS, self.stacks[thread], drawn)
                if self.lent:
                    self.park(thread, m)
                    self.free.insert(0, m)


def main(path, threads, way):
    heap = Heap(path, int(threads), way == "lent")
    running = [threading.Thread(target=heap.run, args=(thread,)) for thread in range(int(threads))]
    for it in running:
        it.start()
    for it in running:
        it.join()
    print(heap.record.walk(heap))
    heap.record.close()


if __name__ == "__main__":
    main(*sys.argv[1:])
