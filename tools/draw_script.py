#!/usr/bin/env python3
"""Draws a heap script from a seed, and prints it: tools/draw_script.py SEED [options], --help tells which.

The drawer follows the script's objects, roots and pointers, so that most steps name what is there. It knows
nothing of regions: where a heap refuses an object as full, its picture is a little wrong from there on, and the
script has some more refused steps.
"""
import argparse
import random
import sys
from pathlib import Path

sys.dont_write_bytecode = True
sys.path.append(str(Path(__file__).resolve().parent.parent))
from plain import verbs  # noqa: E402

# How often each step comes, as weights. `begin`, `mark`, `remark` and `cleanup` are drawn where they make sense,
# but for `wrong`, one of them out of place.
WEIGHTS = {
    "new": 24, "put": 17, "put_nil": 5, "get": 9, "move": 3, "drop": 9, "load": 3, "save": 4,
    "read": 3, "write": 3, "shape": 1,
    "begin": 3, "mark": 5, "remark": 3, "cleanup": 3, "refine": 3, "pause": 7, "wrong": 0.3,
}
# How often the steps on weak slots come where they are wanted.
WEAK_WEIGHTS = {"newweak": 10, "putweak": 10, "putweak_nil": 1, "getweak": 10, "weaks": 0.5}
MOST_WEAKS = 255
# How often frames are entered and left in the third format.
FRAME_WEIGHTS = {"call": 8, "scope": 8}
# How many registers and globals a burst needs.
BURST_ROOTS = {"many_cards": (8, 3), "many_deletions": (2, 0), "many_copies": (5, 0), "many_reuses": (3, 0), "many_slots": (4, 0),
               "many_frames": (1, 0), "many_gaps": (8, 0), "many_limits": (8, 0)}
MOST_ROOTS = 2 ** 20
# All registers from each of them on.
ORDERS = [[(start + place) % 8 for place in range(8)] for start in range(8)]
MARK_STEPS = ("begin", "mark", "remark", "cleanup")
COLLECTOR_STEPS = MARK_STEPS + ("refine", "pause", "wrong")
WEIGHT_OPTIONS = COLLECTOR_STEPS + ("new", "drop", "put")


class Object:
    __slots__ = ("pointers", "weaks", "data")

    def __init__(self, pointers, data, weaks=0):
        self.pointers = [None] * pointers
        self.weaks = [None] * weaks
        self.data = data


class Row(dict):
    """The globals, or a mutator's registers: by number what each names, and nothing where it is nil. The last of `frames` is the
    register at which the mutator's present frame begins."""

    def __init__(self, count):
        super().__init__()
        self.count, self.frames = count, [0]

    def __missing__(self, number):
        return None

    def __setitem__(self, number, target):
        if target is None:
            self.pop(number, None)
        else:
            super().__setitem__(number, target)

    def leave(self, first):
        """All from a register on are nil, and no frame begins there or after it."""
        for number in [number for number in self if number >= first]:
            del self[number]
        self.frames = [number for number in self.frames if number < first] or [0]


def is_third(chosen, card, globals, registers):
    """Whether a script is of the third format. Where roots are told it is, but for 0 registers; where a card alone is told it isn't;
    else a third of all scripts are."""
    if globals is not None or registers is not None:
        return registers != 0
    return card is None and chosen.random() < 1 / 3


def third_roots(chosen, globals, registers, mutators):
    """How many globals, registers and mutators a script of the third format has, where they aren't told."""
    if registers is None:
        registers = chosen.choice((1, 2, 3, 7, 8, 8, 9, 12, 16, 16, 40, 100, 255, 256, 300, 65536))
    if globals is None:
        globals = chosen.choice((0, 0, 1, 2, 5, 16, 16, 17, 100, 255, 256, 300, 65536))
    mutators = mutators or chosen.choice((1, 1, 1, 2, 2, 3, 5, 16, 17, 33, 64))
    return globals, registers, min(mutators, (MOST_ROOTS - globals) // registers)


class Drawer:
    """Draws one script. Each option left as None is drawn too."""

    def __init__(self, seed, steps=80, regions=None, words=None, buffer=None, mutators=None, large=None,
                 weights=None, card=None, globals=None, registers=None, first=None):
        self.random = random.Random(seed)
        self.chance = self.random.random
        self.steps = steps
        # What a script may have many of at once: cards that lead into one region, deletions while marking runs,
        # objects that one pause copies, or dirty cards in regions that are reclaimed and taken again.
        self.burst = self.pick((None, None, None, None, None, None, "many_cards", "many_deletions", "many_copies",
                                "many_copies", "many_reuses"))
        self.large = self.chance() < 0.4 if large is None else large
        self.words = words or self.pick((16, 16, 16, 32, 32, 64))
        # Few regions for the steps that there are, so that the heap is nearly full at times.
        self.told_regions = regions
        self.regions = regions or self.number(3, 4 + max(2, steps * 96 // (self.words * 20)))
        if self.burst == "many_cards" and words is None:
            self.words = 16 if self.large and self.chance() < 0.5 else 256
            self.regions = regions or (self.number(20, 40) if self.words == 16 else self.number(3, 6))
        if self.burst == "many_copies" and regions is None:
            self.regions = max(self.regions, self.number(8, 16))
        self.regions = min(self.regions, 1024, 1048576 // self.words)
        self.buffer = buffer or self.number(4, self.words // 2 if self.chance() < 0.5 else min(16, self.words // 2))
        count = mutators or self.pick((1, 1, 1, 1, 2, 2, 3, 5, 1, 1, 2, 2, 16))
        self.first_name = self.pick((0, 0, 0, 0, 0, 1, 1000000, 2 ** 63, 2 ** 64 - 3, 2 ** 64 - 20, 2 ** 64 - 60))
        if first is not None:
            self.first_name = first
        # Some scripts pause often, some mark for long, some lose many objects.
        self.weights = dict(WEIGHTS)
        self.weights["pause"] *= self.pick((0.05, 0.3, 1, 1, 1, 2))
        self.weights["refine"] *= self.pick((0.1, 1, 1, 2))
        self.weights["remark"] *= self.pick((0.3, 0.6, 1, 2))
        self.weights["mark"] *= self.pick((0.2, 1, 2))
        loss = self.pick((0.3, 1, 1, 2, 4))
        self.weights["drop"] *= loss
        self.weights["put_nil"] *= loss
        self.weights["new"] *= self.pick((0.7, 1, 1, 1.5))
        self.weights.update(weights or {})
        self.marking = False
        self.marked_once = False
        # Drawn apart, so that a seed's steps are the same in either of the first two formats.
        chosen = random.Random(f"roots {seed}")
        self.third = is_third(chosen, card, globals, registers)
        if card is None:
            cards = random.Random(f"card {seed}")
            card = cards.choice((0, 0, 8, 16, min(self.words, 32), min(self.words, 64)))
            if self.third and cards.random() < 0.3:
                card = min(self.words, cards.choice((128, 256, 512)))
        # In the third format some of the pauses are compactions, drawn apart too.
        self.compactions = random.Random(f"compactions {seed}")
        self.compacted = self.compactions.choice((0, 0.2, 0.5, 0.9)) if self.third else 0
        # And some of the objects between gaps take more than half a region each.
        self.runs = random.Random(f"runs {seed}")
        self.large_share = self.runs.choice((0, 0.2, 0.5))
        # Some of the others are within cards, or of young regions.
        self.limits = random.Random(f"limits {seed}")
        self.limited = self.limits.choice((0, 0.2, 0.5, 0.9)) if self.third else 0
        # And what a remark leaves in weak slots is cleared in pieces.
        self.clears = random.Random(f"clears {seed}")
        if self.third:
            self.make_third(chosen, card or 8, globals, registers, mutators)
        else:
            self.make_roots(16, 8, count)
            line = f"{self.regions} {self.words} {self.buffer} {self.mutators} {self.first_name}"
            self.lines = [f"heap2 {line} {card}" if card else f"heap {line}"]

    def make_roots(self, globals, registers, mutators):
        self.mutators = mutators
        self.globals = Row(globals)
        self.roots = [Row(registers) for _ in range(mutators)]
        # The mutators that take steps.
        self.actors = range(mutators)

    def make_third(self, chosen, card, globals, registers, mutators):
        """Makes the roots and the line of a script in the third format."""
        self.make_roots(*third_roots(chosen, globals, registers, mutators))
        self.actors = chosen.sample(self.actors, min(self.mutators, chosen.choice((1, 2, 3, 5, 64))))
        self.weights.update(FRAME_WEIGHTS)
        if self.globals.count == 0:
            self.weights.update(load=0, save=0)
        if chosen.random() < 0.4:
            self.burst = "many_frames"
        if self.compacted and chosen.random() < 0.6:
            self.burst = "many_gaps"
            self.regions = self.told_regions or min(max(self.regions, self.number(6, 24)), 1048576 // self.words)
        if self.limited and self.limits.random() < 0.4:
            self.burst = "many_limits"
            self.regions = self.told_regions or min(max(self.regions, self.limits.randint(6, 24)), 1048576 // self.words)
        self.lines = [f"heap3 {self.regions} {self.words} {self.buffer} {self.mutators} {self.first_name} {card} "
                      f"{self.globals.count} {self.roots[0].count}"]

    def pick(self, choices):
        return choices[int(self.chance() * len(choices))]

    def number(self, low, high):
        return low + int(self.chance() * (high - low + 1))

    def any_mutator(self):
        return self.actors[int(self.chance() * len(self.actors))]

    def any_register(self, registers):
        """Some register; in the third format mostly one of the first eight of the present frame."""
        if not self.third:
            return int(self.chance() * 8)
        chance, last = self.chance(), registers.count - 1
        if chance < 0.04:
            return self.pick((0, last))
        if chance < 0.08:
            return self.number(0, last)
        return min(self.number(0, 7) + registers.frames[-1], last)

    def register(self, registers, suits=lambda target: True):
        """A register that names an object that suits, where there is one."""
        if self.third:
            found = [number for number, target in registers.items() if suits(target)]
            return self.pick(found) if found else self.any_register(registers)
        start = int(self.chance() * 8)
        for register in ORDERS[start]:
            if registers[register] is not None and suits(registers[register]):
                return register
        return start

    def holder(self, registers):
        """A register that names an object with pointers, where there is one."""
        return self.register(registers, lambda target: target.pointers)

    def dataful(self, registers):
        """A register that names an object with data words, where there is one."""
        return self.register(registers, lambda target: target.data)

    def index(self, count):
        """A place below a count, and now and then the first beyond it."""
        if count == 0 or self.chance() < 0.02:
            return count
        return int(self.chance() * count)

    def draw(self):
        names = list(self.weights)
        limit = self.steps + 1
        kinds = self.random.choices(names, [self.weights[name] for name in names], k=self.steps)
        if self.burst and self.has_roots_for(self.burst):
            for first in range(0, self.steps, 200):
                kinds[self.number(first, min(first + 30, self.steps - 1))] = self.burst
        for kind in kinds:
            if kind in COLLECTOR_STEPS:
                self.collector_step(kind)
            elif kind.startswith("many_"):
                getattr(self, kind)()
            else:
                self.mutator_step(kind)
            if len(self.lines) >= limit:
                break
        del self.lines[limit:]
        return "\n".join(self.lines) + "\n"

    def has_roots_for(self, burst):
        registers, globals = BURST_ROOTS[burst]
        return registers <= self.roots[0].count and globals <= self.globals.count

    def say(self, actor, verb, *numbers):
        self.lines.append(verbs.line(actor, verb, *numbers))

    def collect(self, step, number):
        """A step of the collector; one of weight 0 never comes."""
        if self.weights[step] > 0:
            self.say("gc", *self.kind_of_pause(number) if step == "pause" else (step, number))

    def kind_of_pause(self, budget):
        """A pause or what comes in its place, with its numbers."""
        if self.compactions.random() < self.compacted:
            return "compact", budget
        if self.limits.random() < self.limited:
            return self.limits.choice(("pausewithin", "young")), budget, self.most_cards()
        return "pause", budget

    def clear_some(self):
        """After a remark weak slots are cleared little by little, or not before something else needs it."""
        while self.third and self.clears.random() < 0.5:
            self.say("gc", "clear", self.clears.choice((0, 1, 1, 2, 3, self.clears.randrange(20), 4294967295)))

    def most_cards(self):
        """How many cards may lead into what a pause takes: often few, so that it passes over regions."""
        return self.limits.choice((0, 1, 2, 3, self.limits.randrange(10), self.limits.randrange(100), 1000, 4294967295))

    def mutator_step(self, kind):
        mutator = self.any_mutator() if self.mutators > 1 else 0
        registers = self.roots[mutator]
        if kind not in ("new", "load") and self.chance() < 0.9 and not registers:
            kind = "load" if self.chance() < 0.4 and self.globals else "new"
        getattr(self, kind)(mutator, registers)

    def make(self, mutator, register, pointers, data):
        self.say(mutator, "new", register, pointers, data)
        self.roots[mutator][register] = Object(pointers, data)

    def fill(self, mutator, holder, place, source):
        self.say(mutator, "put", holder, place, source)
        registers = self.roots[mutator]
        registers[holder].pointers[place] = None if source is None else registers[source]

    def many_cards(self):
        """An object that is named from more cards than a remembered set holds one by one."""
        mutator = self.any_mutator()
        if self.words < 128 and self.large:
            sizes = [self.number(120, 220)]
        else:
            sizes = [self.words // 2] * self.pick((1, 2, 2, 3))
        for place, size in enumerate(sizes):
            self.make(mutator, place, size - 2, 0)
            self.say(mutator, "save", place, place)
            self.globals[place] = self.roots[mutator][place]
        self.make(mutator, 7, self.number(0, 2), self.number(0, 2))
        for place, size in enumerate(sizes):
            for field in range(self.number(0, 7), size - 2, 8):
                self.fill(mutator, place, field, 7)
        if self.chance() < 0.7:
            self.drop(mutator, self.roots[mutator], 7)
        if self.chance() < 0.5:
            self.collect("refine", 1000)
        if self.chance() < 0.8:
            self.pause()

    def many_deletions(self):
        """An object that names many others, which marking can find by the deleted pointers alone."""
        mutator = self.any_mutator()
        count = min(self.number(8, 14), self.words - 2 if self.large else self.words // 2 - 2)
        if self.marking:
            self.mark_step("remark")
        self.make(mutator, 0, count, 0)
        for place in range(count):
            self.make(mutator, 1, self.number(0, 1), self.number(0, 1))
            self.fill(mutator, 0, place, 1)
        self.drop(mutator, self.roots[mutator], 1)
        self.mark_step("begin")
        for place in range(count):
            self.fill(mutator, 0, place, None)
            if self.chance() < 0.05:
                self.mark_step("mark")

    def many_copies(self):
        """A tree of objects of many sizes, held by its root alone."""
        mutator = self.any_mutator()
        registers = self.roots[mutator]
        self.make(mutator, 0, self.number(3, min(6, self.words // 2 - 2)), 0)
        for place in range(self.number(6, 14)):
            pointers = self.number(0, 4)
            self.make(mutator, 4, pointers, self.number(0, self.words // 2 - 2 - pointers))
            parents = [register for register in range(4)
                       if registers[register] is not None and None in registers[register].pointers]
            if parents:
                parent = self.pick(parents)
                self.fill(mutator, parent, registers[parent].pointers.index(None), 4)
            if pointers:
                self.move(mutator, registers, 1 + place % 3, 4)
        for register in (4, 3, 2, 1)[:self.number(2, 4)]:
            self.drop(mutator, registers, register)
        for _ in range(self.number(1, 3)):
            self.collect("pause", 1000)
            self.refine_after_pause()
            self.get(mutator, registers)

    def many_reuses(self):
        """Objects with pointers into another region that are lost and reclaimed; then others in their place."""
        mutator = self.any_mutator()
        registers = self.roots[mutator]
        pointers, stride = self.words // 2 - 2, self.pick((2, 3, 6))
        self.make(mutator, 1, 0, 1)
        if self.marking:
            self.mark_step("remark")
        for number in range(2):
            for _ in range(2):
                self.make(mutator, 0, pointers, 0)
                for place in range(0, min(pointers, 24), stride):
                    self.fill(mutator, 0, place, 1)
            if number == 0:
                self.drop(mutator, registers, 0)
                # These take another region, so that the objects before aren't in the current one.
                self.make(mutator, 2, pointers, 0)
                self.make(mutator, 2, pointers, 0)
                self.mark_step("begin")
                self.mark_step("remark")
                self.mark_step("cleanup")
        self.collect("refine", 1000)

    def shape_to_make(self):
        chance = self.chance()
        if chance < 0.01:
            heap = self.regions * self.words
            return self.pick(((0, 4294967295), (4294967295, 0), (heap, 0), (1, heap - 2))
                             + (((3, heap - 5), (1, heap - 4)) if self.large else ()))
        if self.large and chance < 0.12:
            size = self.number(self.words // 2 + 1, self.words * self.pick((1, 2, 2, 3, 5)))
        elif chance < 0.4:
            size = self.number(2, self.buffer)
        elif chance < 0.75:
            size = self.number(2, min(8, self.words // 2))
        else:
            size = self.number(2, self.words // 2)
        pointers = self.number(0, size - 2)
        if self.chance() < 0.3:
            pointers = size - 2
        return pointers, size - 2 - pointers

    def new(self, mutator, registers):
        pointers, data = self.shape_to_make()
        register = self.any_register(registers)
        if registers[register] is not None and self.chance() < 0.5:
            register = self.any_register(registers)
        self.say(mutator, "new", register, pointers, data)
        if pointers + data + 2 <= self.regions * self.words:
            made = Object(pointers, data)
            registers[register] = made
            # Objects that nothing is stored in or names are dull: mostly it is linked at once.
            if self.chance() < 0.5:
                holder = self.holder(registers)
                target = registers[holder]
                if target is not None and target.pointers:
                    place = int(self.chance() * len(target.pointers))
                    self.say(mutator, "put", holder, place, register)
                    target.pointers[place] = made

    def put(self, mutator, registers):
        holder, source = self.holder(registers), self.register(registers)
        target = registers[holder]
        place = self.index(len(target.pointers) if target else 0)
        self.say(mutator, "put", holder, place, source)
        if target and place < len(target.pointers):
            target.pointers[place] = registers[source]

    def put_nil(self, mutator, registers):
        holder = self.holder(registers)
        target = registers[holder]
        place = self.index(len(target.pointers) if target else 0)
        self.say(mutator, "put", holder, place, None)
        if target and place < len(target.pointers):
            target.pointers[place] = None

    def get(self, mutator, registers):
        holder, register = self.holder(registers), self.any_register(registers)
        target = registers[holder]
        place = self.index(len(target.pointers) if target else 0)
        if target and place < len(target.pointers) and target.pointers[place] is None:
            place = int(self.chance() * len(target.pointers))
        self.say(mutator, "get", register, holder, place)
        if target and place < len(target.pointers):
            registers[register] = target.pointers[place]

    def move(self, mutator, registers, target=None, source=None):
        if target is None:
            target, source = self.any_register(registers), self.register(registers)
        self.say(mutator, "move", target, source)
        registers[target] = registers[source]

    def drop(self, mutator, registers, register=None):
        if register is None:
            register = self.register(registers)
        self.say(mutator, "drop", register)
        registers[register] = None

    def load(self, mutator, registers):
        register, place = self.any_register(registers), int(self.chance() * self.globals.count)
        if self.globals[place] is None:
            held = list(self.globals) if self.third else ()
            place = self.pick(held) if held else int(self.chance() * min(4, self.globals.count))
        self.say(mutator, "load", register, place)
        registers[register] = self.globals[place]

    def save(self, mutator, registers):
        count = self.globals.count
        place, register = int(self.chance() * min(count, self.pick((4, 4, count)))), self.register(registers)
        self.say(mutator, "save", place, register)
        self.globals[place] = registers[register]

    def call(self, mutator, registers):
        """A frame begins after the present one, mostly with what the caller hands over in its first register."""
        first, last = registers.frames[-1], registers.count - 1
        if first == last:
            self.scope(mutator, registers)
            return
        start = min(first + self.number(1, 8), last) if self.chance() < 0.9 else self.number(first + 1, last)
        registers.frames.append(start)
        if registers and self.chance() < 0.7:
            self.move(mutator, registers, start, self.register(registers))

    def scope(self, mutator, registers):
        """Mostly the present frame is left, if it isn't the outermost, and else some registers."""
        chance, first = self.chance(), registers.frames[-1]
        if chance > 0.9:
            first = self.any_register(registers)
        elif chance > 0.75 or first == 0:
            first = self.register(registers)
        self.say(mutator, "scope", first)
        registers.leave(first)

    def many_frames(self):
        """Frames with objects of their own, of which some are left, mostly while marking runs."""
        mutator = self.any_mutator()
        registers = self.roots[mutator]
        for _ in range(self.number(1, 6)):
            self.call(mutator, registers)
            for _ in range(self.number(1, 4)):
                self.new(mutator, registers)
        if self.chance() < 0.7:
            self.mark_step("begin")
        for _ in range(self.number(1, 4)):
            self.scope(mutator, registers)
            if not registers:
                break
            if self.chance() < 0.5:
                self.put(mutator, registers)
        for kind in ("remark", "begin", "remark")[:self.number(0, 3)]:
            self.mark_step(kind)
        if self.chance() < 0.6:
            self.pause()

    def many_gaps(self):
        """Objects over many regions, some of them large, of which the first and some others are lost, and compactions of what is left."""
        mutator = self.any_mutator()
        registers = self.roots[mutator]
        if self.marking:
            self.mark_step("remark")
        for place in range(self.number(8, 30)):
            size = self.pick((self.words // 2, self.words // 2, self.words // 4 + 2, self.number(3, self.words // 2)))
            if self.runs.random() < self.large_share:
                size = self.words // 2 + self.runs.randint(1, 2 * self.words)
            pointers = self.number(1, size - 2)
            self.make(mutator, place % 8, pointers, size - 2 - pointers)
            self.fill(mutator, place % 8, 0, self.number(0, 7))
        for kind in ("begin", "remark", "cleanup"):
            self.mark_step(kind)
        for _ in range(self.number(1, 5)):
            budget = self.pick((0, self.words // 2, self.words, 2 * self.words, self.number(0, 4 * self.words), 4294967295))
            self.say("gc", "compact", budget)
            self.refine_after_pause()
            for _ in range(self.number(0, 2)):
                self.get(mutator, registers)
                self.put(mutator, registers)

    def many_limits(self):
        """Objects over many regions, which name some that are old when marking begins, and pauses within limits of what is left."""
        mutator = self.any_mutator()
        registers = self.roots[mutator]
        if self.marking:
            self.mark_step("remark")
        count = self.number(8, 30)
        begins = self.number(0, count)
        for place in range(count):
            size = self.pick((self.words // 2, self.words // 4 + 2, self.number(3, self.words // 2)))
            pointers = self.number(1, size - 2)
            self.make(mutator, place % 8, pointers, size - 2 - pointers)
            for field in range(0, pointers, self.pick((1, 8, 8, size))):
                self.fill(mutator, place % 8, field, self.number(0, 7))
            if place == begins:
                self.mark_step("begin")
        if self.chance() < 0.7:
            self.mark_step("remark")
        for _ in range(self.number(1, 6)):
            budget = self.pick((self.words // 2, self.words, 2 * self.words, self.number(0, 4 * self.words), 4294967295))
            self.say("gc", self.limits.choice(("pausewithin", "young")), budget, self.most_cards())
            self.refine_after_pause()
            for _ in range(self.number(0, 2)):
                self.get(mutator, registers)
                self.put(mutator, registers)

    def read(self, mutator, registers):
        register = self.dataful(registers)
        place = self.index(registers[register].data if registers[register] else 0)
        self.say(mutator, "read", register, place)

    def write(self, mutator, registers):
        register = self.dataful(registers)
        place = self.index(registers[register].data if registers[register] else 0)
        value = self.pick((0, 1, 2, 257, 4098, 2 ** 32, 2 ** 64 - 1, self.number(0, 999)))
        self.say(mutator, "write", register, place, value)

    def shape(self, mutator, registers):
        self.say(mutator, "shape", self.register(registers))

    def collector_step(self, kind):
        if kind == "refine":
            self.collect("refine", self.pick((0, 1, 1, 2, 3, 1000)))
        elif kind == "pause":
            self.pause()
        elif kind == "wrong":
            self.mark_step(self.pick(MARK_STEPS))
        elif self.marking:
            # `begin` and `cleanup` would be refused: marking goes on instead.
            self.mark_step("remark" if kind == "remark" else "mark")
        elif kind in ("begin", "remark"):
            self.mark_step("begin")
        elif kind == "cleanup" and (self.marked_once or self.chance() < 0.1):
            self.mark_step("cleanup")

    def mark_step(self, kind):
        if kind == "mark":
            self.collect("mark", self.pick((0, 1, 1, 2, 3, 5, 1000)))
            return
        if self.weights[kind] == 0:
            return
        self.say("gc", kind)
        if kind == "begin":
            self.marking = True
        elif kind == "remark":
            self.marked_once = self.marked_once or self.marking
            self.marking = False
            self.clear_some()
            if self.chance() < 0.6:
                self.mark_step("cleanup")

    def pause(self):
        """A pause, or what comes in its place."""
        budget = self.pick((0, self.number(1, 12), self.words // 2, self.words, self.number(0, 4 * self.words), 1000, 1000,
                            4294967295))
        self.collect("pause", budget)
        self.refine_after_pause()

    def refine_after_pause(self):
        # How long the queue is after a pause shows in the replies to `refine` alone.
        chance = self.chance()
        if chance < 0.2:
            for _ in range(self.number(1, 5)):
                self.collect("refine", 1)
        elif chance < 0.5:
            self.collect("refine", 1000)


class WeakDrawer(Drawer):
    """Draws a script with steps on weak slots; `weak` says how many."""

    def __init__(self, seed, weak, **options):
        super().__init__(seed, **options)
        for name, weight in WEAK_WEIGHTS.items():
            self.weights[name] = weight * weak
        if self.chance() < 0.3:
            self.burst = "many_slots"
        self.holders = []
        # What weak slots alone held when marking began, and nobody took since: they become nil when it ends.
        self.lost = set()

    def reached_from(self, objects):
        """All that pointers reach from some objects, these too."""
        reached, left = set(objects), list(objects)
        while left:
            for target in left.pop().pointers:
                if target is not None and target not in reached:
                    reached.add(target)
                    left.append(target)
        return reached

    def mark_step(self, kind):
        was_marking = self.marking
        super().mark_step(kind)
        if self.marking and not was_marking:
            roots = {root for part in (self.globals, *self.roots) for root in part.values()}
            held = {target for holder in self.holders for target in holder.weaks if target is not None}
            self.lost = held - self.reached_from(roots)
        elif was_marking and not self.marking:
            for holder in self.holders:
                holder.weaks = [None if target in self.lost else target for target in holder.weaks]

    def slotted(self, registers):
        """A register that names an object with weak slots, where there is one."""
        return self.register(registers, lambda target: target.weaks)

    def slot(self, registers):
        """Such a register, and a place in its object's weak slots."""
        holder = self.slotted(registers)
        return holder, self.index(len(registers[holder].weaks) if registers[holder] else 0)

    def make_weak(self, mutator, register, pointers, weaks, data):
        self.say(mutator, "newweak", register, pointers, weaks, data)
        if 2 + pointers + weaks + data <= self.regions * self.words:
            made = Object(pointers, data, weaks)
            self.roots[mutator][register] = made
            self.holders.append(made)

    def newweak(self, mutator, registers):
        pointers, data = self.shape_to_make()
        weaks = min(MOST_WEAKS, pointers if self.chance() < 0.3 else self.number(0, pointers))
        self.make_weak(mutator, self.any_register(registers), pointers - weaks, weaks, data)
        if self.chance() < 0.5:
            self.putweak(mutator, registers)

    def put_slot(self, mutator, registers, holder, place, source):
        self.say(mutator, "putweak", holder, place, source)
        target = registers[holder]
        if target and place < len(target.weaks):
            target.weaks[place] = None if source is None else registers[source]

    def putweak(self, mutator, registers):
        holder, place = self.slot(registers)
        self.put_slot(mutator, registers, holder, place, self.register(registers))

    def putweak_nil(self, mutator, registers):
        holder, place = self.slot(registers)
        self.put_slot(mutator, registers, holder, place, None)

    def take_slot(self, mutator, registers, register, holder, place):
        self.say(mutator, "getweak", register, holder, place)
        target = registers[holder]
        if target and place < len(target.weaks):
            registers[register] = target.weaks[place]
            if self.marking and target.weaks[place] is not None:
                self.lost -= self.reached_from([target.weaks[place]])

    def getweak(self, mutator, registers):
        holder, place = self.slot(registers)
        target = registers[holder]
        if target and place < len(target.weaks) and target.weaks[place] is None:
            place = int(self.chance() * len(target.weaks))
        self.take_slot(mutator, registers, self.any_register(registers), holder, place)

    def weaks(self, mutator, registers):
        self.say(mutator, "weaks", self.register(registers))

    def many_slots(self):
        """An object with many weak slots, which alone hold what they name; some of it is taken while marking runs."""
        mutator = self.any_mutator()
        registers = self.roots[mutator]
        most = min(MOST_WEAKS, 2 * self.words - 2 if self.large else self.words // 2 - 2)
        count = self.number(1, min(most, 14) if self.chance() < 0.8 else most)
        if self.marking:
            self.mark_step("remark")
        self.make_weak(mutator, 0, 0, count, 0)
        for place in range(0, count, 1 + count // 15):
            self.make(mutator, 1, self.number(0, 2), self.number(0, 2))
            if self.chance() < 0.3 and registers[1].pointers and registers[2] is not None:
                self.fill(mutator, 1, 0, 2)
            self.put_slot(mutator, registers, 0, place, 1)
            if self.chance() < 0.2:
                self.move(mutator, registers, 2, 1)
        self.drop(mutator, registers, 1)
        if self.chance() < 0.4:
            self.pause()
        self.mark_step("begin")
        for _ in range(self.number(0, 20)):
            self.take_slot(mutator, registers, self.number(1, 3), 0, int(self.chance() * count))
            if self.chance() < 0.1:
                self.mark_step("mark")
            elif self.chance() < 0.05:
                self.pause()
        for register in (1, 2, 3)[:self.number(0, 3)]:
            self.drop(mutator, registers, register)
        self.mark_step("remark")
        if self.chance() < 0.5:
            self.pause()
        for _ in range(self.number(2, 10)):
            self.take_slot(mutator, registers, 1, 0, int(self.chance() * count))


def draw(seed, weak=0, **options):
    """The text of the script that a seed draws."""
    drawer = WeakDrawer(seed, weak, **options) if weak else Drawer(seed, **options)
    return drawer.draw()


def spoil(text, seed):
    """The text with one byte changed, taken away or put in, or cut short: most such texts have a faulty line."""
    chosen = random.Random(seed)
    place = chosen.randrange(len(text))
    kind = chosen.randrange(8)
    if kind == 0:
        return text[:place]
    if kind == 1:
        return text[:place] + text[place + 1:]
    byte = chosen.choice("0123456789 rgcmn\n\tx-")
    return text[:place] + byte + text[place + (0 if kind < 5 else 1):]


def add_options(parser):
    """Options that say what is drawn; `options_of` gives them to `draw`."""
    parser.add_argument("--steps", type=int, default=80, help="steps a script (80)")
    parser.add_argument("--regions", type=int, help="regions of the heap")
    parser.add_argument("--words", type=int, help="words a region")
    parser.add_argument("--buffer", type=int, help="words a buffer")
    parser.add_argument("--mutators", type=int, help="mutators")
    parser.add_argument("--card", type=int,
                        help="words a card: 8 to 64, or 512 in the third format; 0 for the first format; alone: not the third format")
    parser.add_argument("--globals", type=int, help="globals, in the third format")
    parser.add_argument("--registers", type=int, help="registers of each mutator, in the third format; 0: never the third format")
    parser.add_argument("--first", type=int, help="the first object's name; drawn, some are above what a signed number holds")
    parser.add_argument("--weak", type=float, default=0, metavar="FACTOR",
                        help="how often steps on weak slots come, 1 for about a quarter of all (0: never)")
    parser.add_argument("--large", choices=("yes", "no"), help="with objects of more than half a region, or without")
    for name in WEIGHT_OPTIONS:
        never = "; 0: never" if name in COLLECTOR_STEPS else ""
        step = "a marking step out of place" if name == "wrong" else f"`{name}`"
        parser.add_argument(f"--{name}", type=float, metavar="WEIGHT",
                            help=f"how often {step} comes ({WEIGHTS[name]}{never})")


def options_of(words):
    weights = {name: getattr(words, name) for name in WEIGHT_OPTIONS if getattr(words, name) is not None}
    return {"steps": words.steps, "regions": words.regions, "words": words.words, "buffer": words.buffer,
            "mutators": words.mutators, "large": None if words.large is None else words.large == "yes",
            "weights": weights, "card": words.card, "globals": words.globals, "registers": words.registers, "first": words.first,
            "weak": words.weak}


def main():
    parser = argparse.ArgumentParser(description=__doc__, formatter_class=argparse.RawDescriptionHelpFormatter)
    parser.add_argument("seed", type=int)
    add_options(parser)
    words = parser.parse_args()
    print(draw(words.seed, **options_of(words)), end="")


if __name__ == "__main__":
    main()
