"""Writes the record of a heap, which `g1heap check` judges: a line for each event, written whole. Copy this file (MIT licence);
docs/CHECKING.md tells how to use it. Call where the step took effect, under the same lock. Objects have names by birth, from 0.
Registers are the slots of a mutator's stack, globals those of tables that all mutators see. g1record.h writes the same text."""


class Record:
    """A record at a path, of a heap of so many words, with one mutator and one global more, for the walk. `next` is the next object's
    name. A name that is given is the one of the object that the heap found, or None for nil."""

    def __init__(self, path, words, mutators, global_count, registers):
        region = 16
        while region < 2097152 and region * 1024 < words:
            region *= 2
        regions = min(max(2, -(-words // region)), 1024)
        roots = (mutators + 1) * registers + global_count + 1
        if not (1 <= mutators <= 63 and 0 <= global_count <= 65535 and 2 <= registers <= 65536 and roots <= 1048576):
            raise ValueError("the judge takes no such sizes")
        self.mutators, self.globals, self.registers = mutators, global_count, registers
        self.events, self.next, self.limit = 0, 0, min(regions * region, 16777216)
        self.file = open(path, "wb", buffering=0)
        self.write_line(f"heap3 {regions} {region} 4 {mutators + 1} 0 8 {global_count + 1} {registers}")

    def write_line(self, line):
        """Writes a line whole. Where that fails the record is closed: what came later would be in a line that is cut."""
        try:
            line = line.encode("ascii")
            if len(line) > 120 or b"\n" in line:
                raise ValueError("an event is one line of at most 120 bytes")
            if self.file.write(line + b"\n") != len(line) + 1:
                raise OSError("a line wasn't written")
        except (OSError, ValueError):
            self.close()
            raise

    def close(self):
        self.file.close()

    def event(self, event):
        """Any event, as docs/TEXTS.md spells it, a refusal too: record.event("0 read r3 1 = refused 1 Nil")."""
        self.write_line(f"{self.events + 1} {event}")
        self.events += 1

    def born(self, event):
        self.event(f"{event} = #{self.next}")
        self.next += 1
        return self.next - 1

    # The steps of mutator m. A new object's name is returned. Where None is stored, nil is.
    def new(self, m, to, pointers, words):
        return self.born(f"{m} new r{to} {pointers} {words}")

    def newweak(self, m, to, pointers, weaks, words):
        return self.born(f"{m} newweak r{to} {pointers} {weaks} {words}")

    def new_refused(self, m, to, pointers, weaks, words):
        why = "4 TooBig" if 2 + pointers + weaks + words > self.limit else "3 Full"
        self.event(f"{m} newweak r{to} {pointers} {weaks} {words} = refused {why}")

    def get(self, m, to, of, i, name):
        self.event(f"{m} get r{to} r{of} {i} = {spelled(name)}")

    def getweak(self, m, to, of, i, name):
        self.event(f"{m} getweak r{to} r{of} {i} = {spelled(name)}")

    def put(self, m, of, i, source):
        self.event(f"{m} put r{of} {i} {'nil' if source is None else f'r{source}'} = ok")

    def putweak(self, m, of, i, source):
        self.event(f"{m} putweak r{of} {i} {'nil' if source is None else f'r{source}'} = ok")

    def read(self, m, of, j, word):
        self.event(f"{m} read r{of} {j} = {word}")

    def write(self, m, of, j, word):
        self.event(f"{m} write r{of} {j} {word} = ok")

    def move(self, m, to, source):
        self.event(f"{m} move r{to} r{source} = ok")

    def drop(self, m, it):
        self.event(f"{m} drop r{it} = ok")

    def load(self, m, to, place, name):
        self.event(f"{m} load r{to} g{place} = {spelled(name)}")

    def save(self, m, place, source):
        self.event(f"{m} save g{place} r{source} = ok")

    def scope(self, m, first):
        self.event(f"{m} scope r{first} = ok")

    def shape(self, m, of, pointers, words):
        self.event(f"{m} shape r{of} = {pointers} {words}")

    def weaks(self, m, of, weaks):
        self.event(f"{m} weaks r{of} = {weaks}")

    # Any step of the collector, its events as in docs/TEXTS.md: collector("pause 4096", "moved 1 8").
    def collector(self, step, reply="ok"):
        self.event(f"gc {step} = {reply}")

    def walk(self, view):
        """After a collection: reads what every root reaches, so what was lost is found though nobody asks for it. `view` has
        roots(mutator), how many are in use, -1 for the globals; root(mutator, i); name, pointers, weaks and words of an object; pointer,
        weak and word of an object and a number. An object equals itself alone, as an address does; None is nil. While marking runs
        `view.weaks` must be None: no weak slot is read then. The answer is how many objects weren't followed, for want of registers."""
        walk = Walk(self, view)
        for m in range(-1, self.mutators):
            for i in range(view.roots(m)):
                found = view.root(m, i)
                if m >= 0:
                    self.save(m, self.globals, i)
                name, fresh = walk.meet(found, True)
                self.load(self.mutators, 0, i if m < 0 else self.globals, name)
                if fresh:
                    walk.follow(found)
        self.scope(self.mutators, 0)
        self.save(self.mutators, self.globals, 0)
        return walk.left

    def sync(self, view):
        """In place of a walk, where the heap clears weak slots when it likes: each object that is reached, by pointers and by weak slots
        that still hold something, takes a register; the judge clears the slots of all others; then the slots that are nil are read.
        Meanwhile all these objects are held. The answer is how many objects found no register, and then nothing is cleared."""
        taking = Taking(self, view)
        for m in range(-1, self.mutators):
            for i in range(view.roots(m)):
                if m >= 0:
                    self.save(m, self.globals, i)
                taking.take(lambda to, name: self.load(self.mutators, to, i if m < 0 else self.globals, name), view.root(m, i))
        for at, found in enumerate(taking.held):
            taking.take_fields(at, found)
        if taking.left == 0:
            self.collector("begin")
            self.collector("remark", "marked 0")
            taking.read_nil_slots()
        self.scope(self.mutators, 0)
        self.save(self.mutators, self.globals, 0)
        return taking.left


class Walk:
    def __init__(self, record, view):
        self.record, self.view, self.places, self.left = record, view, {}, 0

    def meet(self, found, room):
        """The name to write for an object: none of the heap's, where its name is at two places; and whether it is to be looked at."""
        if found is None:
            return None, False
        name = self.view.name(found)
        given = name is not None and 0 <= name < self.record.next
        first = given and name not in self.places
        self.left += first and not room
        if first and room:
            self.places[name] = found
        known = given and (first or self.places[name] == found)
        return (name if known else 2 ** 64 - 2 if given or name is None else min(name, 2 ** 64 - 2)), first and room

    def look(self, at, found):
        """Reads an object in register `at` of the walk, and gives its fields still to be followed."""
        record, view, m = self.record, self.view, self.record.mutators
        record.shape(m, at, view.pointers(found), view.words(found))
        if view.weaks is not None:
            record.weaks(m, at, view.weaks(found))
        for j in range(view.words(found)):
            record.read(m, at, j, view.word(found, j))
        fields = [(record.get, i, view.pointer) for i in range(view.pointers(found))]
        return found, fields + [(record.getweak, i, view.weak) for i in range(view.weaks(found) if view.weaks is not None else 0)]

    def follow(self, found):
        """The last field of an object may take its register, so a list needs no more."""
        held = [self.look(0, found)]
        while held:
            (holder, fields), at = held[-1], len(held) - 1
            if not fields:
                held.pop()
                continue
            write, i, field = fields.pop(0)
            found, last = field(holder, i), not fields
            name, fresh = self.meet(found, last or (at + 2 < self.record.registers and at < 10000))
            to = at if fresh and last else at + 1
            write(self.record.mutators, to, at, i, name)
            if fresh:
                held[to:] = [self.look(to, found)]


class Taking(Walk):
    """What a sync takes: held[i] is in register i of the walk; the one after them is for what was met before."""

    def __init__(self, record, view):
        super().__init__(record, view)
        self.held = []

    def take(self, write, found):
        to = len(self.held)
        name, fresh = self.meet(found, to + 1 < self.record.registers)
        write(to, name)
        if fresh:
            self.held.append(found)

    def take_fields(self, at, holder):
        for write, i, field in self.look(at, holder)[1]:
            found = field(holder, i)
            if found is not None or write == self.record.get:
                self.take(lambda to, name: write(self.record.mutators, to, at, i, name), found)

    def read_nil_slots(self):
        for at, holder in enumerate(self.held):
            for i in range(self.view.weaks(holder) if self.view.weaks is not None else 0):
                if self.view.weak(holder, i) is None:
                    self.record.getweak(self.record.mutators, len(self.held), at, i, None)


def spelled(name):
    return "nil" if name is None else f"#{name}"
