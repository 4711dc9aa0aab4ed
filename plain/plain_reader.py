"""Reads a record's text by the rules of docs/TEXTS.md: its lines, or its first fault."""
import re

from plain import verbs

NUMBER = r"(0|[1-9][0-9]*)"
SMALL, LARGE = verbs.LIMITS["N"], verbs.LIMITS["L"]


def form_of(text):
    """A form as a pattern, and the kinds of its numbers."""
    return re.compile(verbs.pattern_of(text, NUMBER).encode()), re.findall(r"\b[A-Z]\b", text)


HEAPS = [form_of(text) for text in ("heap N N N N L", "heap2 N N N N L N", "heap3 N N N N L N N N")]
FORMS = {(actor, third): [form_of(step.form()) for step in verbs.steps_of(actor, third)]
         for actor in ("gc", "m", "f", "mutator") for third in (False, True)}
REPLIES = [form_of(text) for text in sorted({reply for step in verbs.MUTATOR + verbs.COLLECTOR for reply in step.replies()})]


def numbers_of(text, form, limits):
    """The numbers of a text that has a form, or None."""
    pattern, letters = form
    found = pattern.fullmatch(text)
    if found is None:
        return None
    words = [(int(word), limits[letter]) for word, letter in zip(found.groups(), letters) if word is not None]
    return [number for number, _ in words] if all(number <= limit for number, limit in words) else None


def has_form(text, forms, limits):
    return any(numbers_of(text, form, limits) is not None for form in forms)


def is_number(word, limit):
    return re.fullmatch(NUMBER.encode(), word) is not None and int(word) <= limit


class Sizes:
    """What a heap line tells; `third` says whether it is of the third format, and there is no card in the first."""

    def __init__(self, third, regions, words, buffer, mutators, first, card=None, globals=16, registers=8):
        self.third, self.regions, self.words, self.buffer, self.mutators, self.card = third, regions, words, buffer, mutators, card
        self.globals, self.registers = globals, registers
        self.limits = {**verbs.LIMITS, "R": registers - 1, "S": registers - 1, "G": globals - 1}


def sizes_of(line):
    """The sizes that a heap line tells, or None where it is none."""
    for form in HEAPS:
        numbers = numbers_of(line, form, verbs.LIMITS)
        if numbers is not None:
            return Sizes(form is HEAPS[2], *numbers)
    return None


def kind_of(actor, sizes):
    """Whose steps an actor takes, or None where the word is no actor."""
    if actor == b"gc" or re.fullmatch(rb"[mf][0-7]", actor):
        return "gc" if actor == b"gc" else chr(actor[0])
    return "mutator" if is_number(actor, SMALL) and int(actor) < sizes.mutators else None


def event_fault(line, count, sizes):
    """The fault of an event's line of at most 120 bytes, or None."""
    number, *rest = line.split(b" ")
    if not is_number(number, LARGE) or int(number) != count:
        return "6 BadCount"
    kind = kind_of(rest[0], sizes) if rest else None
    if kind is None:
        return "4 BadActor"
    step, equals, reply = line[len(number) + 1 + len(rest[0]):].partition(b" = ")
    if not step.startswith(b" ") or not has_form(step[1:], FORMS[kind, sizes.third], sizes.limits):
        return "5 BadStep"
    return None if equals and has_form(reply, REPLIES, sizes.limits) else "7 BadReply"


def sizes_fault(sizes):
    """The first fault of a heap line's numbers."""
    most_words, most = (4096, 1048576) if sizes.card is None else (4194304, 2147483648) if sizes.third else (16384, 16777216)
    words, card = sizes.words, sizes.card
    if not 2 <= sizes.regions <= (16384 if sizes.third else 1024):
        return "1 BadRegions"
    if words & (words - 1) or not 16 <= words <= most_words or sizes.regions * words > most:
        return "2 BadWords"
    if not 4 <= sizes.buffer <= words // 2:
        return "3 BadBuffer"
    if not 1 <= sizes.mutators <= (64 if sizes.third else 16):
        return "4 BadMutators"
    if card is not None and (card not in (8, 16, 32, 64) + (128, 256, 512) * sizes.third or card > words):
        return "6 BadCard"
    if sizes.globals > 65536:
        return "7 BadGlobals"
    if not 1 <= sizes.registers <= 65536:
        return "8 BadRegisters"
    return "9 BadRoots" if sizes.globals + sizes.registers * sizes.mutators > 1048576 else None


def read(text):
    """The lines of a record and None, or None and the fault's line on standard error."""
    *lines, last = text.split(b"\n")
    if not text:
        return None, "g1heap: line 1: 3 BadHeap\n"
    sizes = None
    for place, line in enumerate(lines):
        if len(line) > 120:
            fault = "2 LongLine"
        elif place == 0:
            sizes = sizes_of(line)
            fault = None if sizes else "3 BadHeap"
        else:
            fault = event_fault(line, place, sizes)
        if fault:
            return None, f"g1heap: line {place + 1}: {fault}\n"
    if last:
        return None, f"g1heap: line {len(lines) + 1}: 1 Cut\n"
    fault = sizes_fault(sizes)
    if fault:
        return None, f"g1heap: heap: {fault}\n"
    return [line.decode("ascii") for line in lines], None


# What a line with a fault lacks, as `check --explain` says it.

SIZES = ["REGIONS", "WORDS", "BUFFER", "MUTATORS", "FIRST", "CARD", "GLOBALS", "REGISTERS"]
HEAP_WORDS = {b"heap": 5, b"heap2": 6, b"heap3": 8}


def stop_of(line, count, sizes):
    """The word at which reading an event's line stops, counted from 1, and what may be there."""
    words = line.split(b" ")
    if not is_number(words[0], LARGE) or int(words[0]) != count:
        return 1, f"the count {count}"
    kind = kind_of(words[1], sizes) if len(words) > 1 else None
    if kind is None:
        return 2, f"gc, m0 to m7, f0 to f7, or a mutator below {sizes.mutators}"
    steps = verbs.steps_of(kind, sizes.third)
    found = [step for step in steps if words[2:3] == [step.verb.encode()]]
    if not found:
        return 3, verbs.told(steps)
    register = f"a register below r{sizes.limits['R'] + 1}"
    texts = {"R": register, "G": f"a global below g{sizes.limits['G'] + 1}", "S": f"nil or {register}"}
    place = 3
    for form in found[0].words.split():
        if len(words) <= place or numbers_of(words[place], form_of(form), sizes.limits) is None:
            return place + 1, texts.get(form) or f"a number up to {sizes.limits[form]}"
        place += 1
    if len(words) <= place or words[place] != b"=":
        return place + 1, "= and a reply"
    return place + 2, "a reply, such as ok, nil, #3, 7, 1 2 or refused 1 Nil"


def heap_stop_of(line):
    """The same of a heap line."""
    words = line.split(b" ")
    if words[0] not in HEAP_WORDS:
        return 1, "heap, heap2 or heap3"
    for place, name in enumerate(SIZES[:HEAP_WORDS[words[0]]], 1):
        limit = LARGE if name == "FIRST" else SMALL
        if len(words) <= place or not is_number(words[place], limit):
            return place + 1, f"{name}, a number up to {limit}"
    return HEAP_WORDS[words[0]] + 2, "the line's end"


def is_script_line(line, sizes):
    """Whether a line is a step of a script of these sizes."""
    actor, _, step = line.partition(b" ")
    kind = None if actor[:1] in b"mf" else kind_of(actor, sizes)
    return kind is not None and has_form(step, FORMS[kind, sizes.third], sizes.limits)


def mistake_of(text, line, number, kind, sizes):
    """What is told of a common mistake that a record's line with a fault shows, or nothing."""
    words = line.split(b" ")
    if text[:2] in (b"\xff\xfe", b"\xfe\xff", b"h\0", b"\0h"):
        return "the text is in UTF-16: save it as plain ASCII\n"
    if number == 1 and text.startswith(b"\xef\xbb\xbf"):
        return "the text begins with a byte order mark: save it without one\n"
    if not line:
        return "the line is blank: there are no blank lines\n" if text else "the text is empty\n"
    if line.endswith(b"\r"):
        return "a carriage return ends the line, as line ends of another system have it: a line feed alone ends a line\n"
    if b"\t" in line:
        return "a tab stands in the line: one space parts two words\n"
    if line.startswith((b"#", b"//", b";", b"--")):
        return "there are no comments\n"
    if kind in ("Cut", "LongLine"):
        return ""
    if b"" in words[:12]:
        return "one space parts two words, and none stands at either end\n"
    if kind == "BadHeap":
        if words[0] not in HEAP_WORDS and words[0].startswith(b"heap") and is_number(words[0][4:], LARGE):
            return "this program reads heap, heap2 and heap3: the text may be of a newer format\n"
        return ("a heap line is heap REGIONS WORDS BUFFER MUTATORS FIRST, or heap2 and CARD after these, or heap3 and CARD GLOBALS "
                "REGISTERS\n")
    if is_script_line(line, sizes):
        return "it is a script's line: run makes its record, and view and draw take a script without --record\n"
    return ""


def reason_of(text, fault):
    """What tells of the first line with a fault what it lacks, and of a mistake; nothing where the fault is none of a line."""
    found = re.fullmatch(r"g1heap: line (\d+): . (\w+)\n", fault)
    if found is None:
        return ""
    number, kind = int(found[1]), found[2]
    lines = text.split(b"\n")
    line, sizes = lines[number - 1], None
    hint = {"Cut": "a line feed behind it", "LongLine": "at most 120 bytes"}.get(kind)
    if hint is None:
        sizes = sizes_of(lines[0])
        hint = "word %d: %s" % (heap_stop_of(line) if kind == "BadHeap" else stop_of(line, number - 1, sizes))
    shown = "".join(chr(byte) if 32 <= byte <= 126 else "?" for byte in line[:120])
    return f"line {number}: {shown}; {hint}\n" + mistake_of(text, line, number, kind, sizes)
