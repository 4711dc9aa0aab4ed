#!/usr/bin/env python3
"""The walks of walks.c, by g1record.py.

    tests/recorder/walks.py RECORD KIND N POINTERS REGISTERS
    tests/recorder/walks.py RECORD sizes WORDS MUTATORS GLOBALS REGISTERS
"""
import sys
from pathlib import Path

sys.dont_write_bytecode = True
sys.path.insert(0, str(Path(__file__).resolve().parent.parent.parent / "recorder"))
from g1record import Record  # noqa: E402


class Node:
    def __init__(self, name, pointers):
        self.name, self.pointers = name, pointers


class View:
    weaks = None

    def __init__(self, stack):
        self.stack = stack

    def roots(self, m):
        return 0 if m < 0 else 2

    def root(self, m, i):
        return self.stack[i]

    def name(self, it):
        return it.name

    def pointers(self, it):
        return len(it.pointers)

    def words(self, it):
        return 0

    def pointer(self, it, i):
        return it.pointers[i]


def main(path, kind, count, fields, registers):
    r, node = Record(path, 100000, 1, 0, int(registers)), None
    for i in range(int(count)):
        before, node = node, Node(r.new(0, 1, int(fields), 0), [None] * int(fields))
        if i > 0:
            node.pointers[0] = before
            r.put(0, 1, 0, 0)
        r.move(0, 0, 1)
    copy = Node(node.name, list(node.pointers))
    node.name = {"wild": 2 ** 31, "without": None}.get(kind, node.name)
    print((r.sync if kind == "sync" else r.walk)(View([node, copy if kind == "twice" else node])))
    r.close()


if __name__ == "__main__":
    if sys.argv[2] == "sizes":
        Record(sys.argv[1], *map(int, sys.argv[3:])).close()
    else:
        main(*sys.argv[1:])
