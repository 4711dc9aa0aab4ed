"""The limits that documents state, as the sources have them, for tools/check_quotes."""
import re
import sys

CONSTANT = re.compile(r"^(?:pub(?:\(crate\))? )?(?:const )?(\w+)(?: V\d)?(?: \([^)]*\))?(?:: \w+)? = (2 \^ \d+|1 << \d+|[\d_]+);?$", re.M)
CONFIGS = "heap_words/specs/Configs.antt"
# The files that have limits: the sizes of a heap, a script's lines, and what is told of a heap's life.
FILES = re.compile(r"heap_words/specs/Configs\.antt|script_text/src/read/script\.rt|heap_life/src/\w+\.rt")


class Constants(dict):
    def __missing__(self, name):
        sys.exit(f"stated_limits.py: no constant {name} is in the sources")


def value(text):
    base, sign, power = re.fullmatch(r"(\d+)(?: (\^|<<) (\d+))?", text.replace("_", "")).groups()
    return 2 ** int(power) if sign else int(base)


def by_format(source, name, most):
    """Returns a limit in each of the three formats: the cases of a definition, of which the last may name a constant."""
    cases = re.findall(rf"^{name} \(?V\d[^=]*= (.*)$", source, re.M)
    return [most[case] if case in most else value(case) for case in cases]


def of(sources):
    """Takes sources by their paths below crates/. Returns the numbers that may be said to be the most of something, by its unit; those of
    the rows of docs/TEXTS.md, by a fault's or an option's name, each number once; and of include/g1heap.h those of the comments on sizes and
    the largest sizes."""
    most = Constants((name, value(text)) for file in sources if FILES.fullmatch(file) for name, text in CONSTANT.findall(sources[file]))
    source = sources[CONFIGS]
    names = ("region_limit", "heap_limit", "count_limit", "mutator_limit", "card_limit")
    region, heap, regions, mutators, card = (by_format(source, name, most) for name in names)
    one, registers, roots = (most[f"max_{name}"] for name in ("globals", "registers", "roots"))
    least, buffer, short = (int(re.search(rf"(\d+) ≤ {name}", source)[1]) for name in (r"c\.words", r"c\.buffer", "card_words c"))
    cards = [short << n for n in range(card[2].bit_length()) if short << n <= card[2]]
    workers, actors = (int(re.search(rf"\b(\d+) < {name}\b", sources["mutators/src/threads.rt"])[1]) for name in ("workers", "markers"))
    weak = 2 ** int(re.search(r"\(w < 2 \^ (\d+)\)", sources["heap_words/specs/Headers.antt"])[1]) - 1
    # A recorder keeps a mutator and a global for its walk.
    limits = {"regions": {*regions}, "mutators": {*mutators, mutators[2] - 1}, "globals": {one, one - 1}, "registers": {registers},
              "slots": {registers}, "of each mutator": {registers}, "roots": {roots}, "in all": set(heap),
              "words": {*region, *heap, *card, most["max_object_words"], most["TOLD_WORDS"]}, "bytes": {most["LONGEST_LINE"], most["TOLD_BYTES"]},
              "weak slots": {weak}, "workers": {workers}, "refiners": {actors}, "markers": {actors}, "tiles": {most["MOST_TILES"]},
              "events": {most["MOST_EVENTS"]}, "moments": {most["MOST_MOMENTS"]}}
    rows = {"1 BadRegions": [2, *regions], "2 BadWords": [it for pair in zip(region, heap) for it in (least, *pair)], "3 BadBuffer": [buffer],
            "4 BadMutators": [1, *mutators], "6 BadCard": cards, "7 BadGlobals": [one], "8 BadRegisters": [1, registers],
            "9 BadRoots": [roots], "--workers": [1, workers], "--refiners": [0, actors]}
    sizes = {"regions": [2, regions[2]], "words": [least, region[2], heap[2]], "card": [short, card[2]], "mutators": [1, mutators[2]],
             "globals": [0, one], "registers": [1, registers, roots]}
    macros = {"REGIONS": regions[2], "REGION_WORDS": region[2], "WORDS": heap[2], "MUTATORS": mutators[2], "CARD": card[2], "GLOBALS": one,
              "REGISTERS": registers, "ROOTS": roots, "OBJECT_WORDS": most["max_object_words"], "WEAKS": weak}
    return limits, {name: once(numbers) for name, numbers in rows.items()}, sizes, macros


def once(numbers):
    """Returns the numbers in their order, each where it comes first."""
    return list(dict.fromkeys(numbers))
