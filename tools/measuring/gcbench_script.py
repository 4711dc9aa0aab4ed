#!/usr/bin/env python3
"""Writes a script of the third format that does what GCBench does, for pages, pauses and figures.

    tools/measuring/gcbench_script.py --regions 64 --words 512 --depth 6 > gcbench.heap

GCBench, by John Ellis and Pete Kovac, then Hans Boehm: a tree and an array that live to the end, and beside them trees that are made and
dropped, of growing depth, half of them from the root down and half from the leaves up. A node has two pointers and two data words. Frames of
the recursion are registers, which `scope` leaves. A cycle of the collector begins each time that so many words were made: `begin`, some
`mark` between mutators' steps, `remark`, `cleanup`, and pauses.
"""
import argparse
import sys


class Script:
    def __init__(self, options):
        self.options, self.lines, self.made, self.since, self.marks = options, [], 0, 0, None
        self.heap_words = options.regions * options.words

    def gc(self, step):
        self.lines.append(f"gc {step}")

    def mutate(self, step):
        self.lines.append(f"0 {step}")
        if self.marks is not None and len(self.lines) % self.options.between == 0:
            self.mark()

    def mark(self):
        self.gc(f"mark {self.options.units}")
        self.marks -= 1
        if self.marks == 0:
            self.gc("remark")
            self.gc("cleanup")
            self.gc(f"pause {self.heap_words}")
            self.marks, self.since = None, 0

    def new(self, register, pointers, values):
        self.mutate(f"new r{register} {pointers} {values}")
        self.made += 1
        self.since += 2 + pointers + values
        if self.marks is None and self.since > self.heap_words * self.options.share // 100:
            self.gc("refine 100000")
            self.gc("begin")
            self.marks = self.options.marks
        elif self.made % self.options.young == 0 and self.marks is None:
            self.gc(f"pause {self.options.words * 4}")

    def from_the_leaves(self, register, depth):
        """A tree in a register; those above it are free."""
        if depth == 0:
            return self.new(register, 2, 2)
        self.from_the_leaves(register + 1, depth - 1)
        self.from_the_leaves(register + 2, depth - 1)
        self.new(register, 2, 2)
        self.mutate(f"put r{register} 0 r{register + 1}")
        self.mutate(f"put r{register} 1 r{register + 2}")
        self.mutate(f"scope r{register + 1}")

    def from_the_root(self, register, depth):
        """Grows a tree below the node in a register."""
        if depth == 0:
            return
        for field in (0, 1):
            self.new(register + 1, 2, 2)
            self.mutate(f"put r{register} {field} r{register + 1}")
            self.from_the_root(register + 1, depth - 1)
        self.mutate(f"scope r{register + 1}")

    def tree(self, register, depth, down):
        if not down:
            return self.from_the_leaves(register, depth)
        self.new(register, 2, 2)
        self.from_the_root(register, depth)


def main():
    parser = argparse.ArgumentParser(description=__doc__, formatter_class=argparse.RawDescriptionHelpFormatter)
    parser.add_argument("--regions", type=int, default=64)
    parser.add_argument("--words", type=int, default=512)
    parser.add_argument("--buffer", type=int, default=64)
    parser.add_argument("--depth", type=int, default=6, help="of the tree that lives; the others have 2 to this")
    parser.add_argument("--rounds", type=int, default=3, help="how often trees of each depth are made")
    parser.add_argument("--array", type=int, default=200, help="words of the array that lives")
    parser.add_argument("--share", type=int, default=35, help="a cycle begins when so many percent of the heap were made")
    parser.add_argument("--marks", type=int, default=12, help="marks of a cycle")
    parser.add_argument("--units", type=int, default=60, help="units of a mark")
    parser.add_argument("--between", type=int, default=40, help="lines from mark to mark")
    parser.add_argument("--young", type=int, default=700, help="objects from pause to pause beside the cycles")
    options = parser.parse_args()
    script = Script(options)
    script.tree(0, options.depth, True)
    script.new(1, 0, options.array)
    for depth in range(2, options.depth + 1, 2):
        for _ in range(options.rounds * 2 ** (options.depth - depth)):
            for down in (True, False):
                script.tree(2, depth, down)
                script.mutate("scope r2")
    sys.stdout.write(f"heap3 {options.regions} {options.words} {options.buffer} 1 0 8 2 {2 * options.depth + 8}\n")
    sys.stdout.write("\n".join(script.lines) + "\n")


main()
