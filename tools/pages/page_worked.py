"""What a page works out of its data, worked out anew of the plain heap: roots, what they reach, objects by shape. For tools/check_page."""
from pages import page_data

NOT_REACHED, NOT_SEEN = "not reached now", "not seen to be reached"


class Objects:
    """The objects of a moment of the plain heap, as its regions' lines tell them: all of it, or what a page tells."""

    def __init__(self, moment, sizes, regions, most_roots=None):
        self.pointers, self.names, self.tiles, self.untold = {}, {}, {}, 0
        for region, lines in enumerate(regions):
            kind = lines[0].split()[2]
            tiles = [line.split() for line in lines if line[0] == "o"]
            self.untold += kind in "oh" and not any(line[0] in "ox" for line in lines)
            for words in tiles:
                first = words.index(";")
                self.pointers[words[2]] = words[4:first]
                self.names[region * sizes.words + int(words[1])] = words[2]
                self.tiles[words[2]] = words
        numbers = [int(word) for line in moment.lines if line[0] == "n" for word in line.split()[1:]]
        self.roots = [*zip(numbers[::2], numbers[1::2])][:most_roots]
        logs = [[int(word) for word in line.split()[1:]] for line in moment.lines if line[0] == "d"]
        self.deleted = [(mutator, address) for mutator, *addresses in logs for address in addresses]

    def reached(self):
        """The names that roots reach by pointers."""
        order, found = [self.names[address] for _, address in self.roots if address in self.names], set()
        while order:
            name = order.pop()
            if name in found or name not in self.pointers:
                continue
            found.add(name)
            order += self.pointers[name]
        return found

    def is_sure(self):
        """Whether nothing is left out that could lead to more."""
        cut = any(field[0] == "+" for name in self.reached() for field in self.pointers[name])
        return len(self.roots) < page_data.MOST_ROOTS and not cut and not self.untold


def root_name(place, sizes):
    if place < sizes.globals:
        return f"g{place}"
    mutator, register = divmod(place - sizes.globals, sizes.registers)
    return f"r{register} of mutator {mutator}" if sizes.mutators > 1 else f"r{register}"


def called(objects, sizes, address):
    """How the page calls an object, by its address where the page doesn't tell it."""
    return f"#{objects.names[address]}" if address in objects.names else f"{address}, region {address // sizes.words}"


def root_labels(objects, sizes):
    """How the page calls each root, and where it leads."""
    return [f"{root_name(place, sizes)} leads to {called(objects, sizes, address)}" for place, address in objects.roots]


def deletion_labels(objects, sizes):
    """What the page says of each object in a deletion log."""
    return [f"The deletion log of mutator {mutator} has {called(objects, sizes, address)}" for mutator, address in objects.deleted]


def fields_count(fields):
    return sum(int(field[1:]) if field[0] == "+" else 1 for field in fields)


def shapes_of(objects):
    """Of each shape its objects, words, words not reached, words dead; and the objects and words that aren't reached."""
    reached, shapes, lost = objects.reached(), {}, [0, 0]
    for name, words in objects.tiles.items():
        first = words.index(";")
        second = words.index(";", first + 1)
        shape = [fields_count(it) for it in (words[4:first], words[first + 1:second], words[second + 1:])]
        size, counts = 2 + sum(shape), shapes.setdefault(" ".join(map(str, shape)), [0, 0, 0, 0])
        parts = [1, size, 0 if name in reached else size, size if words[3][0] == "d" else 0]
        shapes[" ".join(map(str, shape))] = [one + other for one, other in zip(counts, parts)]
        if name not in reached:
            lost = [lost[0] + 1, lost[1] + size]
    rows = [[shape, *(f"{it:,}" for it in counts[:2]), *(f"{it:,}" if it else "" for it in counts[2:])] for shape, counts in shapes.items()]
    return sorted(rows), lost


def worked_out(moment, sizes):
    """What the page of a small heap shows after an event beside its data; and whether what it takes as reached is so."""
    told = [page_data.told_region(lines, page_data.has_tiles(sizes)) for lines in moment.regions]
    objects = Objects(moment, sizes, told, page_data.MOST_ROOTS)
    whole = Objects(moment, sizes, moment.regions)
    rows, lost = shapes_of(objects)
    shown = {
        "roots": root_labels(objects, sizes), "reached": sorted(objects.reached()), "sure": objects.is_sure(), "shapes": rows, "lost": lost,
        "deletions": deletion_labels(objects, sizes), "diamonds": sorted({address for _, address in objects.deleted}),
    }
    reached = objects.reached()
    return shown, reached == whole.reached() if objects.is_sure() else reached <= whole.reached()


# ---- the lives of objects

def told_objects(moment, sizes):
    """The objects that a page tells at a moment, by name: region, address, words, state; and the regions whose objects it doesn't tell."""
    found, untold = {}, set()
    for region, lines in enumerate(moment.regions):
        told = page_data.told_region(lines, page_data.has_tiles(sizes))
        if told[0].split()[2] in "oh" and not any(line[0] in "ox" for line in told):
            untold.add(region)
        for words in (line.split() for line in told if line[0] == "o"):
            size = 2 + sum(fields_count(word for word in part.split()) for part in " ".join(words[4:]).split(";"))
            found[words[2]] = region, region * sizes.words + int(words[1]), size, words[3]
    return found, untold


def changes_of(last, place):
    """What happened to an object from one moment to the next."""
    notes = [f"moved from {last[1]} to {place[1]}, in region {place[0]}"] if place[1] != last[1] else []
    said = [(1, "g", "found by marking: grey"), (1, "s", "scanned"), (0, "m", "marked when marking ended: live"),
            (0, "d", "not marked when marking ended: dead")]
    return notes + [text for at, letter, text in said if place[3][at:at + 1] == letter != last[3][at:at + 1]]


def gone_from(region, untold):
    if region in untold:
        return f"told no more: the objects of region {region} aren't in this file from here on"
    return f"gone from region {region}, or moved to where objects aren't told" if untold else f"gone: region {region} was reclaimed"


def lives_of_objects(lives, sizes):
    """What happened to each object that a page tells, a moment after each event: `[event, text]`, in order, by name."""
    notes, last = {}, {}
    for event in sorted(lives):
        here, untold = told_objects(lives[event], sizes)
        for name in sorted({*last, *here}):
            place, before = here.get(name), last.get(name)
            if place and before:
                said = changes_of(before, place)
            elif place:
                how = "told again" if name in notes else "made"
                said = [f"{how} in region {place[0]}, at {place[1]}, {place[2]} words"]
            else:
                said = [gone_from(before[0], untold)]
            notes.setdefault(name, []).extend([event, text] for text in said)
        last = here
    return notes


# ---- runs that move

def runs_of(moment):
    """The runs of a moment, by the names of their objects: the object's words, and the regions."""
    runs = {}
    for region, lines in enumerate(moment.regions):
        kind = lines[0].split()[2]
        if kind == "h":
            # the plain heap tells each field: a line is `o OFFSET NAME STATE`, the fields, and two semicolons
            words = next(line for line in lines if line[0] == "o").split()
            regions = [region]
            runs[words[2]] = len(words) - 4, regions
        elif kind == "t":
            regions.append(region)
    return runs


def moved_run(before, after):
    """The run that is at another place after a step: its name, its words, its old regions, its new ones; nothing where there is none."""
    was, now = runs_of(before), runs_of(after)
    moved = [(name, words, was[name][1], regions) for name, (words, regions) in now.items() if name in was and was[name][1] != regions]
    return moved[0] if moved else None
