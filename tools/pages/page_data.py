"""The texts of a page against the plain heap: what docs/DRAWING.md says under 'How much is told', and crates/page_parts/page/README.md.
For tools/check_page."""
import importlib.machinery
import importlib.util
import re
import urllib.parse
from pathlib import Path

from plain import verbs

TOP = Path(__file__).resolve().parents[2]
MOST_CARDS, MOST_ROOTS, MOST_FIELDS, MOST_TILES = 512, 64, 16, 400
TOLD_WORDS, TOLD_BYTES, TOLD_EVENTS = 65536, 8_000_000, 100_000


def embedding():
    """The tool that writes the page's files into sources: it knows their order."""
    loader = importlib.machinery.SourceFileLoader("embed_page", str(TOP / "tools" / "embed_page"))
    module = importlib.util.module_from_spec(importlib.util.spec_from_loader("embed_page", loader))
    loader.exec_module(module)
    return module


EMBEDDING = embedding()


def text_of(page, name):
    found = re.search(f'<script type="text/plain" id="{name}">\n(.*?)</script>', page, re.S)
    return found.group(1) if found else ""


def page_around(record, life):
    """The page of two texts, by the files of the page."""
    folder = EMBEDDING.PAGE
    style = (folder / "page.css").read_text(encoding="utf-8")
    names = [name for name in EMBEDDING.SCRIPTS if name not in EMBEDDING.THIRD or record.startswith("heap3 ")]
    script = "".join((folder / f"{name}.js").read_text(encoding="utf-8") for name in names)
    before, rest = (folder / "page.html").read_text(encoding="utf-8").replace("{{style}}\n", style).split("{{record}}")
    between, rest = rest.split("{{life}}")
    return before + record + between + life + rest.replace("{{script}}\n", script)


# ---- a page that is read

class PageMoment:
    """A moment of a page: its lines, the regions told under it, and whether tiles end with it, after how many bytes."""

    def __init__(self, line):
        self.event, self.lines, self.regions, self.bytes_at_end = int(line.split()[1]), [line], {}, None


def read_life(text):
    """The facts of a life's text, and its moments."""
    facts, moments, block, size = {}, [], None, 0
    for line in text.splitlines():
        letter = line.split(" ", 1)[0]
        if letter in ("file", "names"):
            facts[letter] = line.removeprefix(f"{letter} ")
            continue
        if letter in ("card", "roots", "pace", "events"):
            facts[letter] = [int(word) for word in line.split()[1:]]
            continue
        if letter == "m":
            moments.append(PageMoment(line))
        elif letter == "z":
            moments[-1].bytes_at_end = size
        elif letter == "r":
            block = moments[-1].regions.setdefault(int(line.split()[1]), [])
            block.append(line)
        elif letter in "soxy":
            block.append(line)
        else:
            moments[-1].lines.append(line)
        size += len(line) + 1
    return facts, moments


# ---- what the plain heap has, as a page tells it

def told_fields(words):
    told = ["?" if word[0] == "?" else word for word in words[:MOST_FIELDS]]
    return told + ([f"+{len(words) - MOST_FIELDS}"] if len(words) > MOST_FIELDS else [])


def told_tile(line):
    words = line.split()
    if words[0] != "o":
        return line
    first = words.index(";")
    second = words.index(";", first + 1)
    kinds = [told_fields(it) for it in (words[4:first], words[first + 1:second], words[second + 1:])]
    return " ".join([*words[:4], *kinds[0], ";", *kinds[1], ";", *kinds[2]])


def has_tiles(sizes):
    """Whether a heap of these sizes has its tiles told."""
    return sizes.regions * sizes.words <= TOLD_WORDS


def told_region(lines, tells_tiles):
    others, tiles = [it for it in lines if it[0] in "rs"], [it for it in lines if it[0] in "ox"]
    if not tells_tiles:
        return others
    return others + (["y"] if len(tiles) > MOST_TILES else [told_tile(it) for it in tiles])


def told_heap(moment):
    """The lines of a moment beside its regions."""
    lines = []
    for line in moment.lines:
        words = line.split()
        most = {"q": 1 + MOST_CARDS, "n": 1 + 2 * MOST_ROOTS}.get(words[0], len(words))
        if words[0] != "t":
            lines.append(" ".join(words[:most]))
    return lines


# ---- the pace

def is_collectors(line):
    return not line.split()[1].isdigit()


def is_small(line):
    """Whether a step of the collector is one that background actors take too."""
    return line.split()[2] in [it.verb for it in verbs.COLLECTOR if it.background]


def due_events(record, pace):
    """The events after which a page of this pace has its moments."""
    every, stride, small = pace
    lines = record.splitlines()[1:]
    due, counted = {0, len(lines), *range(0, len(lines) + 1, every)}, 0
    for event, line in enumerate(lines, 1):
        if is_collectors(line) and (small or not is_small(line)):
            due |= {event - 1, event} if counted % stride == 0 else set()
            counted += 1
    return sorted(due)


def most_moments(sizes):
    """About how many moments a life of such a heap has at most."""
    return max(64, min(8000, 2 ** 18 // sizes.regions, 2 ** 28 // (sizes.regions * sizes.words)))


def fault_of_pace(record, every, pace, most):
    """What is wrong with a pace for a run, or nothing: moments are left out only where there would be too many. Half of the most are for
    each so many events; a step of the collector has two of the others."""
    most_stops, most_turns = most // 2, most // 4
    lines = record.splitlines()[1:]
    turns = sum(is_collectors(line) for line in lines)
    large = sum(is_collectors(line) and not is_small(line) for line in lines)
    got_every, stride, small = pace
    least = max(every, -(-len(lines) // most_stops))
    if not (got_every == every if len(lines) <= every * most_stops else every < got_every <= 2 * least):
        return f"a moment each {got_every} events, and {every} was asked for"
    if turns <= most_turns:
        return None if (stride, small) == (1, 1) else f"stride {stride}, small {small} with {turns} turns"
    least = -(-large // most_turns)
    return None if small == 0 and 1 <= stride <= max(1, 2 * least) else f"stride {stride}, small {small} with {large} large turns"


# ---- the comparison

def told_bytes(text):
    """Bytes as a page tells them: letters, digits and `- . / _ ~`, and each other byte as % and two digits to the base 16."""
    return urllib.parse.quote_from_bytes(text, safe="/")


def told_name(path):
    """A file's name as a page tells it."""
    return told_bytes(str(path).encode())


def check_facts(count, name, path, record, facts, sizes, every):
    wanted = {"file": told_name(path), "card": [sizes.card], "roots": [sizes.globals, sizes.registers], "events": [record.count("\n") - 1]}
    count.note(f"{name}: what the page says of itself", {**wanted, "pace": facts.get("pace")} == facts, facts)
    fault = fault_of_pace(record, every, facts["pace"], most_moments(sizes)) if len(facts.get("pace", ())) == 3 else "none"
    count.note(f"{name}: its pace", fault is None, fault)


def check_told_record(count, name, record, told, moments):
    """All lines of the record are in the page, or where they are too many those next to a moment."""
    lines, events = record.splitlines(True), {moment.event for moment in moments}
    if len(lines) - 1 > TOLD_EVENTS:
        lines = [line for event, line in enumerate(lines) if event == 0 or event in events or event - 1 in events]
    count.note(f"{name}: the page's record", told == "".join(lines))


def check_moment(count, name, moment, plain, last, tells_tiles):
    """The heap's lines, and each region's, as it was told last."""
    where = f"{name}, after event {moment.event}"
    wanted = told_heap(plain)
    count.note(f"{where}: the heap", moment.lines == wanted, [*zip(moment.lines, wanted)])
    for region, lines in enumerate(plain.regions):
        wanted = told_region(lines, tells_tiles)
        if last.get(region) != wanted:
            count.note(f"{where}: region {region}", False, (last.get(region), wanted))
            return
    count.note(f"{where}: the regions", True)


def check_life(count, name, moments, lives, sizes):
    """Each moment of which the plain heap's is there. A region is told only where it isn't as it was told last."""
    last, tells_tiles, again = {}, has_tiles(sizes), []
    for moment in moments:
        tells_tiles = tells_tiles and moment.bytes_at_end is None
        again += [(moment.event, region) for region, lines in moment.regions.items() if last.get(region) == lines]
        last.update(moment.regions)
        if moment.event in lives:
            check_moment(count, name, moment, lives[moment.event], last, tells_tiles)
    count.note(f"{name}: regions told again as they were", not again, again[:9])


def check_page_text(count, name, path, page, record, lives, sizes, every=1):
    """The page of a script in a file against the record of its steps, and what the plain heap is after some events."""
    told, life = text_of(page, "record"), text_of(page, "life")
    count.note(f"{name}: the page is its files around two texts", page == page_around(told, life))
    facts, moments = read_life(life)
    check_facts(count, name, path, record, facts, sizes, every)
    check_told_record(count, name, record, told, moments)
    if len(facts.get("pace", ())) == 3:
        wanted, got = due_events(record, facts["pace"]), [moment.event for moment in moments]
        count.note(f"{name}: its moments", got == wanted, (got[:30], wanted[:30]))
    check_life(count, name, moments, lives, sizes)
    return moments


# ---- scripts beside those of examples/

def exact():
    """Names and data words that no number of JavaScript holds exactly: two names that it takes for one, and the largest word."""
    return "\n".join([
        "heap 4 32 12 1 9007199254740992", "0 new r0 3 3", "0 new r1 1 1", "0 write r0 0 18446744073709551615",
        "0 write r0 1 9007199254740993", "0 write r1 0 18446744073709551614", "0 put r0 0 r1", "0 put r0 1 r0", "0 put r1 0 r0",
        "0 newweak r2 1 2 0", "0 putweak r2 1 r1", "0 new r3 20 2", "0 put r3 19 r1", "gc begin", "gc mark 1",
        "0 write r3 1 12345678901234567890", "gc remark", "gc pause 32", "",
    ])


def dangling():
    """A dead object whose fields lead to no object, and then one of them to another one that has its place."""
    return "\n".join([
        "heap 8 16 8 1 0", "0 new r0 1 1", "0 newweak r1 1 1 0", "0 new r2 0 10", "0 new r3 0 11", "0 put r1 0 r2", "0 putweak r1 0 r3",
        "0 drop r1", "0 drop r2", "0 drop r3", "gc begin", "gc remark", "gc cleanup", "0 new r2 0 9", "0 read r0 0", "",
    ])


def broad():
    """Long queues and logs, full remembered sets, many roots, objects of many fields of each kind."""
    lines = ["heap3 24 128 16 2 5 16 70 40", "0 new r0 0 1", "0 new r1 600 3", "1 new r39 16 16", "1 new r38 17 17"]
    lines += ["1 newweak r37 15 18 20"] + [f"0 save g{number} r{number % 2}" for number in range(70)]
    lines += ["0 new r2 120 0", "0 new r3 120 0"] + [f"0 put r1 {place} r0" for place in range(0, 600, 9)]
    lines += ["0 put r2 5 r1", "0 put r3 9 r2", "1 putweak r37 17 r39", "1 put r38 16 r39"]
    lines += [f"0 put r2 {place} r0" for place in range(1, 120, 15)] + ["gc refine 30", "0 new r4 2 1", "0 new r5 1 0", "0 put r4 0 r5"]
    lines += ["gc begin", "gc mark 2", "1 put r38 16 nil", "0 new r6 1 1", "gc mark 1", "gc remark", "0 drop r4", "0 drop r5", "gc begin"]
    lines += ["gc mark 1", "gc remark", "gc cleanup", "gc pause 100", "gc pausewithin 200 3", "gc pause 200", "gc refine 5", "1 scope r30"]
    lines += ["1 new r29 60 0", "1 new r28 60 0", "1 put r29 0 r28", "1 put r28 9 r29", "gc young 300 9", "gc pause 0", ""]
    return "\n".join(lines)


def moved_runs():
    """Scripts whose compactions move runs, by name: over their own words and past them, among folded regions, where no objects are told."""
    cycle = ["gc begin", "gc remark", "gc cleanup"]
    near = ["heap3 12 16 8 1 0 8 2 8", "0 new r0 0 6", "0 new r1 0 30", "0 new r2 20 26", "0 new r3 1 15", "0 put r2 0 r2"]
    near += ["0 put r2 19 r3", "0 put r3 0 r2", "0 drop r1", *cycle, "0 put r2 19 r2", "gc compact 47", *["gc compact 48"] * 3]
    near += ["0 new r1 0 16", "0 drop r2", "0 put r3 0 nil", *cycle, *["gc compact 99"] * 3]

    def far(sizes, lost, words):
        lines = [f"heap3 {sizes} 2 8", "0 new r0 0 6", f"0 new r1 0 {lost}", f"0 new r2 3 {words}", "0 put r2 1 r2", f"0 new r3 0 {words}"]
        return [*lines, "0 drop r1", *cycle, *["gc compact 99999"] * 3]

    scripts = {"runs that move": near, "a run among folds": far("100 16 8 1 0 8", 400, 300),
               "a run that isn't told": far("64 2048 8 1 0 64", 9000, 13000)}
    return {name: "\n".join([*lines, ""]) for name, lines in scripts.items()}


def special():
    """Scripts that are short enough to be tried whole, by name."""
    return {"exact numbers": exact(), "fields that lead nowhere": dangling(), "many of each kind": broad()}


def long_queue():
    """A queue of 600 cards."""
    lines = ["heap2 12 1024 16 1 0 8", "0 new r0 0 1", "0 new r1 5000 0"] + [f"0 put r1 {place} r0" for place in range(0, 4840, 8)]
    return "\n".join([*lines, "0 read r0 0", ""])


def many_tiles():
    """Regions of 400 and of 401 tiles: after 400 objects of 2 words the next, of 302, needs another region."""
    lines = ["heap 4 1024 4 1 0"] + ["0 new r0 0 0"] * 400 + ["0 new r0 0 300"] + ["0 new r0 0 0"] * (360 + 400) + ["0 new r0 1 1"]
    return "\n".join([*lines, ""])


def large():
    """A heap of so many words that no tiles are told."""
    return "\n".join(["heap 65 1024 16 1 0", "0 new r0 1 1", "0 new r1 1100 0", "0 put r1 3 r0", "gc begin", "gc remark", "gc pause 9", ""])


def many_regions():
    """A heap of 4,096 regions, of which some hundred have objects: a cleanup leaves free ones between them, and pauses follow."""
    lines = ["heap3 4096 1024 127 2 0 64 16 16", "0 new r2 200 0", "0 save g0 r2"]
    for number in range(800):
        lines += ["0 new r0 2 500", "1 new r0 1 30"] if number % 8 == 5 else ["0 new r0 2 500"]
        lines += [f"0 put r2 {number // 4 + number % 8} r0"] if number % 8 < 2 else []
    lines += ["0 drop r0", "gc begin", "gc mark 50", "gc remark", "gc cleanup", "gc refine 9", "gc pause 3000"]
    for number in range(2000):
        lines += ["1 new r1 1 300", "1 put r1 0 r0", "0 get r0 r2 3", "0 write r0 3 7"]
        lines += ["gc pause 0"] if number % 500 == 499 else []
    return "\n".join([*lines, "gc begin", "gc remark", "gc cleanup", "gc pause 9999", ""])


def long(events):
    """A long run in a small heap."""
    lines = ["heap 4 16 8 1 0", "0 new r0 1 1"] + [f"0 write r0 0 {number}" for number in range(events - 1)]
    return "\n".join([*lines, ""])


def busy(turns):
    """A run of so many steps of the collector, marking steps among them."""
    lines = ["heap 4 16 8 1 0", "0 new r0 1 1"] + ["gc begin", "gc mark 1", "gc remark", "0 read r0 0", "gc refine 1"] * (turns // 4)
    return "\n".join([*lines, ""])


def much():
    """A life of more than 8,000,000 bytes, so that tiles aren't told to its end."""
    lines = ["heap 16 1024 4 1 0"] + ["0 new r0 0 1", "0 new r0 1 1"] * 1900 + [f"0 write r0 0 {number}" for number in range(100)]
    return "\n".join([*lines, ""])
