#!/usr/bin/env python3
"""Judges a record of a script, by a graph of objects by name and by the script: it knows of no heap.

    plain/judge.py SCRIPT RECORD [--markers K] [--refiners K]

The record has the script's heap line. Each event's reply is one that the graph gives (a new object may be refused as
full), each mutator's events and the collector's are its lines of the script in their order, and background actors are
below the counts given: a marker's step is `mark 4`, a refiner's `refine 2`. Prints `yes EVENTS`, or what is wrong with status 1.
"""
import argparse
import re
import sys
from pathlib import Path

sys.dont_write_bytecode = True
sys.path.append(str(Path(__file__).resolve().parent.parent))
from plain import verbs  # noqa: E402

# The replies that a step of the collector may have, as a pattern.
FORMS = {step.verb: "|".join(map(verbs.pattern_of, step.replies())) for step in verbs.COLLECTOR}


class Told(str):
    """A reply that remembers what it was last compared with."""

    __hash__ = str.__hash__

    def __eq__(self, other):
        self.given = other
        return str.__eq__(self, other)

    def __ne__(self, other):
        self.given = other
        return str.__ne__(self, other)


class Roots(dict):
    """What globals hold, or a mutator's registers, by number: a name, or None. One that was never set isn't there, so that a
    million registers take no room."""

    def __missing__(self, place):
        return None


class Graph:
    """Objects by name, from which nothing is taken away, and the roots of each mutator: an object is its pointers, its weak
    slots and its data words. From a `begin` that replied ok on there is a snapshot of that moment."""

    def __init__(self, heap):
        """The graph of a heap line. It doesn't ask how many registers and globals there are: a text that was read names no others."""
        regions, words, _, mutators, first_name = map(int, heap.split(" ")[1:6])
        self.limit = min(regions * words, 16777216)
        self.first = self.next = first_name
        self.objects = {}
        self.registers = [Roots() for _ in range(mutators)]
        self.globals = Roots()
        # The objects that have weak slots.
        self.holders = []
        self.snapshot = None

    def allows(self, actor, words, reply):
        """Whether an event may come now; the graph is the one after it then."""
        if actor.isdigit():
            return getattr(self, words[0])(self.registers[int(actor)], reply, *words[1:])
        if re.fullmatch(FORMS[words[0]], reply) is None:
            return False
        if words[0] == "begin" and reply == "ok":
            self.snapshot = Snapshot(self)
        elif words[0] == "remark" and reply.startswith("marked") and self.snapshot is not None:
            self.clear()
        return True

    def given(self, actor, words, reply):
        """What may come in place of a reply with which an event may not come now. The graph is of no use after it."""
        if not actor.isdigit():
            return " or ".join(next(step.replies() for step in verbs.COLLECTOR if step.verb == words[0]))
        told = Told(reply)
        self.allows(actor, words, told)
        makes = words[0] in ("new", "newweak") and told.given.startswith("#")
        return told.given + " or refused 3 Full" * makes

    def clear(self):
        """The weak slots that hold what the snapshot doesn't reach become nil, and the snapshot is given up."""
        held = {name for holder in self.holders for name in self.objects[holder][1]}
        if any(map(self.snapshot.has, held)):
            reached = self.snapshot.reached(self.objects)
            for holder in self.holders:
                slots = self.objects[holder][1]
                slots[:] = [name if not self.snapshot.has(name) or name in reached else None for name in slots]
        self.snapshot = None

    def new(self, registers, reply, register, pointers, data):
        return self.newweak(registers, reply, register, pointers, 0, data)

    def newweak(self, registers, reply, register, pointers, weaks, data):
        pointers, weaks, data = int(pointers), int(weaks), int(data)
        if 2 + pointers + weaks + data > self.limit:
            return reply == "refused 4 TooBig"
        if self.next == verbs.LARGEST:
            return reply == "refused 5 NamesSpent"
        if reply == "refused 3 Full":
            return True
        if reply != f"#{self.next}":
            return False
        self.objects[self.next] = ([None] * pointers, [None] * weaks, [0] * data)
        if weaks:
            self.holders.append(self.next)
        registers[place_of(register)] = self.next
        self.next += 1
        return True

    def part(self, registers, register, index, part):
        """The list that a word is in, or the refusal."""
        name = registers[place_of(register)]
        if name is None:
            return None, "refused 1 Nil"
        words = self.objects[name][part]
        return (words, None) if int(index) < len(words) else (None, "refused 2 NoField")

    def get(self, registers, reply, to, register, index):
        pointers, refusal = self.part(registers, register, index, 0)
        if refusal:
            return reply == refusal
        registers[place_of(to)] = pointers[int(index)]
        return reply == spelled(pointers[int(index)])

    def put(self, registers, reply, register, index, value):
        pointers, refusal = self.part(registers, register, index, 0)
        if refusal:
            return reply == refusal
        if self.snapshot is not None:
            self.snapshot.keep(registers[place_of(register)], pointers)
        pointers[int(index)] = None if value == "nil" else registers[place_of(value)]
        return reply == "ok"

    def getweak(self, registers, reply, to, register, index):
        slots, refusal = self.part(registers, register, index, 1)
        if refusal:
            return reply == refusal
        name = registers[place_of(to)] = slots[int(index)]
        if self.snapshot is not None:
            self.snapshot.touch(name)
        return reply == spelled(name)

    def putweak(self, registers, reply, register, index, value):
        slots, refusal = self.part(registers, register, index, 1)
        if refusal:
            return reply == refusal
        slots[int(index)] = None if value == "nil" else registers[place_of(value)]
        return reply == "ok"

    def read(self, registers, reply, register, index):
        values, refusal = self.part(registers, register, index, 2)
        return reply == (refusal or str(values[int(index)]))

    def write(self, registers, reply, register, index, value):
        values, refusal = self.part(registers, register, index, 2)
        if refusal:
            return reply == refusal
        values[int(index)] = int(value)
        return reply == "ok"

    def move(self, registers, reply, to, register):
        registers[place_of(to)] = registers[place_of(register)]
        return reply == "ok"

    def drop(self, registers, reply, register):
        registers[place_of(register)] = None
        return reply == "ok"

    def scope(self, registers, reply, first):
        for place in [place for place in registers if place >= place_of(first)]:
            del registers[place]
        return reply == "ok"

    def load(self, registers, reply, to, place):
        registers[place_of(to)] = self.globals[place_of(place)]
        return reply == spelled(self.globals[place_of(place)])

    def save(self, registers, reply, place, register):
        self.globals[place_of(place)] = registers[place_of(register)]
        return reply == "ok"

    def shape(self, registers, reply, register):
        name = registers[place_of(register)]
        if name is None:
            return reply == "refused 1 Nil"
        pointers, _, data = self.objects[name]
        return reply == f"{len(pointers)} {len(data)}"

    def weaks(self, registers, reply, register):
        name = registers[place_of(register)]
        return reply == ("refused 1 Nil" if name is None else str(len(self.objects[name][1])))


class Snapshot:
    """The objects that were there when marking began, the roots of then with the names that were touched since, and the
    pointers of then of those objects whose pointers were changed since."""

    def __init__(self, graph):
        self.first, self.next = graph.first, graph.next
        self.roots = {name for roots in (graph.globals, *graph.registers) for name in roots.values() if name is not None}
        self.changed = {}

    def has(self, name):
        return name is not None and self.first <= name < self.next

    def touch(self, name):
        if self.has(name):
            self.roots.add(name)

    def keep(self, name, pointers):
        """Called before an object's pointers change."""
        if self.has(name) and name not in self.changed:
            self.changed[name] = list(pointers)

    def reached(self, objects):
        """The names that its pointers reach from its roots."""
        reached, left = set(self.roots), list(self.roots)
        while left:
            name = left.pop()
            for target in self.changed.get(name, objects[name][0]):
                if target is not None and target not in reached:
                    reached.add(target)
                    left.append(target)
        return reached


def place_of(word):
    """The number of a register or a global."""
    return int(word[1:])


def spelled(name):
    return "nil" if name is None else f"#{name}"


def events_of(record):
    """The heap line, and each event as actor, step and reply; None where a line has another form."""
    lines = record.split("\n")
    if lines.pop() != "":
        return None
    events = []
    for count, line in enumerate(lines[1:], 1):
        left, equal, reply = line.partition(" = ")
        words = left.split(" ", 2)
        if equal == "" or len(words) != 3 or words[0] != str(count):
            return None
        events.append((words[1], words[2], reply))
    return lines[0], events


def scripts_of(lines):
    """The steps of each actor, in their order."""
    scripts = {}
    for actor, step in lines:
        scripts.setdefault(actor, []).append(step)
    return scripts


def fault_of(script, record, markers=0, refiners=0):
    """What is wrong with a record, or None."""
    read = events_of(record)
    if read is None:
        return "a line isn't a record's"
    heap, events = read
    lines = script.split("\n")[:-1]
    if heap != lines[0]:
        return "another heap line"
    wanted = scripts_of(line.split(" ", 1) for line in lines[1:])
    background = {f"m{number}": "mark 4" for number in range(markers)}
    background.update({f"f{number}": "refine 2" for number in range(refiners)})
    if scripts_of((actor, step) for actor, step, _ in events if actor not in background) != wanted:
        return "not an interleaving of the scripts"
    graph = Graph(heap)
    for count, (actor, step, reply) in enumerate(events, 1):
        if background.get(actor, step) != step:
            return f"event {count} isn't its actor's"
        if not graph.allows(actor, step.split(" "), reply):
            return f"event {count} isn't one of the graph's"
    return None


def main():
    parser = argparse.ArgumentParser(description=__doc__, formatter_class=argparse.RawDescriptionHelpFormatter)
    parser.add_argument("script")
    parser.add_argument("record")
    parser.add_argument("--markers", type=int, default=0)
    parser.add_argument("--refiners", type=int, default=0)
    words = parser.parse_args()
    with open(words.script) as script, open(words.record) as record:
        text = record.read()
        fault = fault_of(script.read(), text, words.markers, words.refiners)
    print(fault or f"yes {text.count(chr(10)) - 1}")
    sys.exit(1 if fault else 0)


if __name__ == "__main__":
    main()
