#!/usr/bin/env python3
"""Writes the scripts whose times are wanted into a folder, all or those that are named: tools/measuring/cost_scripts.py FOLDER [SCRIPT ..].

No script has an object of more than half a region. All heaps but those that a name gives 256 or 512 regions, and those of
actors and of the third format, have 1,024 regions of 1,024 words, the largest that a heap line of the first format allows.

| Script | What it is |
|---|---|
| no_steps | the heap line alone: what a heap costs to make |
| pauses | 300 pauses, each copies a list of 400 words that 20 outside fields name too; 100 steps of a mutator between |
| pause_of_nothing_256, _1024 | 20,000 pauses of budget 0; half of the regions are full, no region is a candidate |
| pause_of_nothing_256_candidates, _1024_candidates | the same, and nearly every region is a candidate that is never taken |
| pause_every_1000 | 1,000,000 steps: four mutators on some 6,500 objects, a pause every 1,000, 20 marking cycles beside them |
| long_pause | 50 pauses, each copies 341,348 words in 10,688 objects, 31 of 32 of them of 32 words, the others of 30 |
| long_pause_base | the same without its pauses: the difference of the two is the pauses' time |
| covered_cards_N | pauses whose one chosen region of 56 words is named from N outside cards, up to 20,000 pauses |
| source_regions_N, _N_base | 12 and 2 pauses that move one object, which N full regions of 16,384 words name by one field each |
| candidates_N | 5,000 pauses with N candidates, of which the first, of 100 words, is taken and copied |
| roots_16 | 2,000 pauses with 16 mutators, where each register and each global names an object of its own |
| cleanups_256, _512, _1024 | 20 times: all regions but one are filled with garbage, which a marking cycle finds and `cleanup` reclaims |
| chain_in_order | 100 marking cycles over a list of 10,000 objects, each of which names the next one after it |
| chain_apart | the same, and every other object is in the other half of the heap |
| chain_in_order_base, chain_apart_base | the same without their marking cycles |
| actors_1, actors_16 | 50,000 steps of 1 or 16 mutators, in turn, each on an object of its own |
| actors_1_base, actors_16_base | the same with 10,000 steps |
| actors_1_long, actors_16_long | the same with 1,000,000 steps |
| many_objects | 1,000,000 steps, nearly all of them make an object of 2 words that is lost; a marking cycle every 50,000 |
| many_objects_P_V | the same with objects of P pointers and V data words |
| weak_kept_256, _1024 | 1,000 times `begin` and `remark` with 1,000 weak slots, in four objects, whose target is kept |
| weak_none_256, _1024 | the same with data words in the place of the weak slots |
| weak_cleared_256, _1024 | 50 times: 1,000 weak slots take new objects that nothing else names, and a marking cycle clears them all |
| weak_cleared_256_base, _1024_base | the same without the marking cycles |
| weak_spread | 100 times `begin` and `remark`; each of 1,000 regions has one object with one weak slot among 339 without, all of them dead |
| weak_spread_none | the same with a data word in the place of each weak slot |
| many_fields | 1,000,000 steps that read and write fields of 1,000 objects, taken from a table |
| root_steps_1, _3 | 1,000,000 steps that store in roots, in the first format, and in the third with registers from r500 on |
| frames | 1,000,000 steps: eight registers are stored in, and `scope` makes them nil |
| third_begin_none | 100,000 times `begin` and `remark` in the third format with 1,048,576 registers of 64 mutators, all nil |
| third_pause_none | 100,000 times `pause 0` with them |
| third_begin_all | 200 times `begin` and `remark`, where each of these registers names an object, one for each mutator |
| third_pause_all | 200 times `pause 0` with them; no region is taken |
| third_moved_all | 200 pauses with them, each of which moves the 64 objects |
| third_none_base, third_all_base | the same without these steps |
| passed_over | 5,000 times `pausewithin` where 510 regions are candidates, into each of which 64 cards lead: all are passed over |
| passed_over_base | the same without these steps |
| young_pauses | 1,000 times a `young` of five regions of garbage, but for one object in each, beside 20 old ones; 125 marking cycles |

A pause copies at most half of the free words, so never more than a third of the heap, here 349,525 words.
"""
import os
import random
import sys

REGIONS = 1024
WORDS = 1024
HALF = WORDS // 2
LONG_PAUSES = 50
LONG_WORDS = 341348
# Ten objects fill a region, so that a chain of two halves takes 1,000 regions.
CHAIN_WORDS = 102
CHAIN_HALF = 5000
CHAIN_CYCLES = 100
ACTOR_STEPS = {"": 50000, "_base": 10000, "_long": 1000000}
# The third format with as many registers as there may be, and no global.
THIRD_MUTATORS = 64
THIRD_REGISTERS = 16384


def heap(buffer, mutators=1, regions=REGIONS):
    return f"heap {regions} {WORDS} {buffer} {mutators} 0"


def shape(size, pointers):
    """The counts of an object of a size, of which so many words are pointers."""
    return f"{pointers} {size - 2 - pointers}"


def full_regions(count, register=0):
    """Regions that hold two objects of half a region each, so that no word of them is free."""
    return [f"0 new r{register} {shape(HALF, HALF - 2)}"] * (2 * count)


def no_steps():
    return [heap(8)]


def pauses():
    lines = [heap(64)] + full_regions(400, 7)
    # A list of 50 objects of 8 words; r0 names its first, and 20 cards of the last full region name some.
    for place in range(50):
        lines.append(f"0 new r1 {shape(8, 2)}")
        lines.append("0 put r1 0 r0")
        lines.append("0 move r0 r1")
        if place < 20:
            lines.append(f"0 put r7 {8 * place} r1")
    for number in range(300):
        for place in range(20):
            lines.append("0 get r1 r0 0" if place == 0 else "0 get r1 r1 0")
            lines.append(f"0 read r1 {place % 4}")
            lines.append(f"0 write r1 {place % 4} {number}")
            lines.append("0 put r1 1 r0")
            lines.append("0 shape r1")
        lines.append("gc pause 500")
    return lines


def pause_of_nothing(regions):
    return [heap(8, 1, regions)] + full_regions(regions // 2) + ["gc pause 0"] * 20000


def pause_of_nothing_candidates(regions):
    chosen = random.Random(1)
    lines = [heap(8, 1, regions)]
    for _ in range(regions - 2):
        # Two objects, and too little after them for a third.
        lines.append(f"0 new r0 {shape(HALF - chosen.randrange(100), 0)}")
        lines.append(f"0 new r0 {shape(HALF - 1 - chosen.randrange(60), 0)}")
    return lines + ["gc pause 0"] * 20000


def pause_every_1000():
    chosen = random.Random(2)
    mutators = 4
    lines = [heap(64, mutators)]
    # 16 tables of 510 places, each place with an object of 2 pointers and at least 2 data words.
    places = HALF - 2
    for table in range(16):
        lines.append(f"0 new r0 {shape(HALF, places)}")
        lines.append(f"0 save g{table} r0")
        for place in range(places):
            lines.append(f"0 new r1 2 {chosen.randrange(2, 15)}")
            lines.append(f"0 put r0 {place} r1")
    for mutator in range(mutators):
        lines += [f"{mutator} load r0 g0", f"{mutator} get r1 r0 0", f"{mutator} new r2 2 2"]
    # How often `mark` still comes before `remark`.
    marks = 0
    for step in range(1000000):
        if step % 1000 == 999:
            lines.append("gc pause 2000")
            continue
        if step % 50000 == 30000:
            lines.append("gc begin")
            marks = 100
            continue
        if lines[-1] == "gc remark":
            lines.append("gc cleanup")
            continue
        if marks and step % 100 == 50:
            marks -= 1
            lines.append("gc mark 50" if marks else "gc remark")
            continue
        mutator = chosen.randrange(mutators)
        kind = chosen.randrange(100)
        if kind < 15:
            lines.append(f"{mutator} load r0 g{chosen.randrange(16)}")
        elif kind < 35:
            lines.append(f"{mutator} get r1 r0 {chosen.randrange(places)}")
        elif kind < 50:
            lines.append(f"{mutator} read r1 {chosen.randrange(2)}")
        elif kind < 60:
            lines.append(f"{mutator} write r1 {chosen.randrange(2)} {step}")
        elif kind < 75:
            lines.append(f"{mutator} new r2 2 {chosen.randrange(2, 15)}")
        elif kind < 90:
            lines.append(f"{mutator} put r0 {chosen.randrange(places)} r2")
        elif kind < 94:
            lines.append(f"{mutator} put r1 {chosen.randrange(2)} r2")
        elif kind < 97:
            lines.append(f"{mutator} put r1 {chosen.randrange(2)} nil")
        else:
            lines.append(f"{mutator} shape r1")
    return lines


def long_pause(count):
    lines = [heap(8)]
    # A root table and 21 tables fill 11 regions; g0 names the root table, which names the others.
    tables = 21
    lines.append(f"0 new r0 {shape(HALF, HALF - 2)}")
    lines.append("0 save g0 r0")
    for table in range(tables):
        lines.append(f"0 new r1 {shape(HALF, HALF - 2)}")
        lines.append(f"0 put r0 {table} r1")
    # In each region an object of 30 words and 31 of 32: 1,022 words, so that the region is a candidate. The tables name
    # them in the order of their places, so that their copies fill regions in the same way.
    objects = LONG_WORDS // (30 + 31 * 32) * 32
    for number in range(objects):
        table, place = divmod(number, HALF - 2)
        if place == 0:
            lines.append(f"0 get r1 r0 {table}")
        lines.append(f"0 new r2 {shape(30 if number % 32 == 0 else 32, 2)}")
        lines.append(f"0 put r1 {place} r2")
        lines.append("0 put r2 0 r3")
        lines.append("0 move r3 r2")
    lines += [f"0 drop r{register}" for register in (2, 3)]
    return lines + ["gc pause 4294967295"] * count


def copied_list(size, times):
    """Pauses that copy a list of objects of so many words, nearly a region of them, and nothing else."""
    lines = [heap(8, 1, 8)]
    for _ in range(WORDS // size - 1):
        lines += [f"0 new r1 {shape(size, 1)}", "0 put r1 0 r0", "0 move r0 r1"]
    return lines + ["0 drop r1"] + [f"gc pause {WORDS}"] * times


def covered_cards(count):
    lines = [heap(64)]
    # The region that is chosen holds seven objects of 8 words; what is beside them in it at first isn't reached.
    lines += [f"0 new r{register} {shape(8, 1)}" for register in range(1, 8)]
    lines.append(f"0 new r0 {shape(450, 0)}")
    # Tables that fill regions in pairs; one field in each card of them names an object of the chosen region.
    tables = (count + 63) // 64
    for table in range(tables + tables % 2):
        lines.append(f"0 new r0 {shape(HALF, HALF - 2)}")
        for card in range(min(64, max(0, count - 64 * table))):
            lines.append(f"0 put r0 {8 * card} r{1 + card % 7}")
    lines.append("gc pause 600")
    return lines + ["gc pause 100"] * min(20000, 4000000 // count)


def source_regions(count, pauses):
    lines = [f"heap2 {REGIONS} 16384 512 1 0 64"]
    # The object that is moved; what is beside it in its region at first isn't reached.
    lines += [f"0 new r1 {shape(16, 1)}"] + [f"0 new r2 {shape(16, 0)}"] * 1023
    # A list of 1,024 objects of 16 words a region; the first one of each region names the object too.
    for region in range(count):
        for place in range(1024):
            lines += [f"0 new r2 {shape(16, 2)}", "0 put r2 0 r0", "0 move r0 r2"]
            if place == 0:
                lines.append("0 put r2 1 r1")
    lines += ["0 drop r2", "gc begin", "gc mark 1000000", "gc remark"]
    return lines + ["gc pause 16"] * pauses


def candidates(count):
    chosen = random.Random(3)
    lines = [heap(8)]
    # Ten objects of 10 words, reached from r0; what is beside them at first isn't reached.
    for _ in range(10):
        lines += [f"0 new r1 {shape(10, 1)}", "0 put r1 0 r0", "0 move r0 r1"]
    lines.append(f"0 new r1 {shape(413, 0)}")
    for _ in range(count - 1):
        lines.append(f"0 new r1 {shape(HALF, 0)}")
        lines.append(f"0 new r1 {shape(chosen.randrange(189, 289), 0)}")
    return lines + ["gc pause 800"] * 5000


def roots_16():
    lines = [heap(4, 16)]
    for place in range(16):
        lines += [f"0 new r0 {shape(7, 2)}", f"0 save g{place} r0"]
    for mutator in range(16):
        lines += [f"{mutator} new r{register} {shape(7, 2)}" for register in range(8)]
    return lines + ["gc pause 2000"] * 2000


def cleanups(regions):
    lines = [heap(8, 1, regions)]
    for _ in range(20):
        lines += full_regions(regions - 1) + ["0 drop r0", "gc begin", "gc remark", "gc cleanup"]
    return lines


def chain_in_order(cycles):
    lines = [heap(8), f"0 new r0 {shape(CHAIN_WORDS, 2)}", "0 save g0 r0"]
    for _ in range(2 * CHAIN_HALF - 1):
        lines += [f"0 new r1 {shape(CHAIN_WORDS, 2)}", "0 put r0 0 r1", "0 move r0 r1"]
    return lines + ["0 drop r0", "0 drop r1"] + ["gc begin", "gc remark"] * cycles


def chain_apart(cycles):
    lines = [heap(8), f"0 new r0 {shape(CHAIN_WORDS, 2)}", "0 save g0 r0"]
    # The lower half: each object's second pointer names the next one, until the upper half is there.
    for _ in range(CHAIN_HALF - 1):
        lines += [f"0 new r1 {shape(CHAIN_WORDS, 2)}", "0 put r0 1 r1", "0 move r0 r1"]
    # The upper half: one object between each two.
    lines.append("0 load r0 g0")
    for _ in range(CHAIN_HALF):
        lines += [f"0 new r1 {shape(CHAIN_WORDS, 2)}", "0 put r0 0 r1", "0 get r2 r0 1", "0 put r1 0 r2",
                  "0 put r0 1 nil", "0 move r0 r2"]
    return lines + [f"0 drop r{register}" for register in range(3)] + ["gc begin", "gc remark"] * cycles


def actors(mutators, steps):
    """Steps that take no place and mark nothing, so that each costs the same in whatever order they come."""
    lines = [heap(8, mutators, 64)] + [f"{mutator} new r0 {shape(4, 1)}" for mutator in range(mutators)]
    kinds = ("get r1 r0 0", "read r0 0")
    return lines + [f"{step % mutators} {kinds[step // mutators % 2]}" for step in range(steps)]


def many_objects(pointers, values):
    lines = [heap(64)]
    for step in range(1000000 - 60):
        if step % 50000 == 49999:
            lines += ["gc begin", "gc remark", "gc cleanup"]
        lines.append(f"0 new r0 {pointers} {values}")
    return lines


def weak_holders(regions, maker):
    """Four objects of 250 weak slots, or of as many data words, in the registers from r2 on; r0 names an object."""
    return [heap(8, 1, regions), "0 new r0 0 0"] + [f"0 {maker.format(register=register)}" for register in range(2, 6)]


def weak_places():
    return [(register, place) for register in range(2, 6) for place in range(250)]


def weak_kept(regions):
    lines = weak_holders(regions, "newweak r{register} 0 250 0")
    lines += [f"0 putweak r{register} {place} r0" for register, place in weak_places()]
    return lines + ["gc begin", "gc remark"] * 1000


def weak_none(regions):
    return weak_holders(regions, "new r{register} 0 250") + ["gc begin", "gc remark"] * 1000


def weak_cleared(regions, cycle):
    lines = weak_holders(regions, "newweak r{register} 0 250 0")
    for _ in range(50):
        for register, place in weak_places():
            lines += ["0 new r1 0 0", f"0 putweak r{register} {place} r1"]
        lines += ["0 drop r1"] + cycle
    return lines


def weak_spread(maker):
    """Regions of two buffers, each with 340 objects of 3 words, one of which has a weak slot or a data word."""
    lines = [heap(HALF), "0 new r0 0 0"]
    for _ in range(1000):
        lines += ["0 new r1 0 1"] * 339 + [f"0 {maker}"]
    return lines + ["0 drop r1", "0 drop r2"] + ["gc begin", "gc remark"] * 100


def many_fields():
    chosen = random.Random(4)
    places = HALF - 2
    lines = [heap(64)]
    for table in range(2):
        lines += [f"0 new r0 {shape(HALF, places)}", f"0 save g{table} r0"]
        for place in range(places):
            lines += ["0 new r1 2 2", f"0 put r0 {place} r1"]
    while len(lines) <= 1000000:
        lines += [f"0 load r0 g{chosen.randrange(2)}", f"0 get r1 r0 {chosen.randrange(places)}"]
        lines += [f"0 write r1 {chosen.randrange(2)} {chosen.randrange(1000)}", f"0 read r1 {chosen.randrange(2)}", "0 shape r1"]
        lines += [f"0 put r1 {chosen.randrange(2)} r1", f"0 get r2 r1 {chosen.randrange(2)}"]
    return lines[:1000001]


def root_steps(line, first):
    """Steps on the registers from one on, each of which stores in a register or a global."""
    two = first + 1
    lines = [line, f"0 new r{first} 1 0", f"0 put r{first} 0 r{first}"]
    kinds = (f"move r{two} r{first}", f"save g3 r{two}", f"drop r{two}", f"load r{two} g3", f"get r{two} r{first} 0")
    return lines + [f"0 {kinds[step % len(kinds)]}" for step in range(1000000)]


def frames():
    lines = [f"heap3 4 64 8 1 0 8 0 {THIRD_REGISTERS}", "0 new r0 0 0"]
    frame = [f"0 move r{register} r0" for register in range(100, 108)] + ["0 scope r100"]
    return (lines + frame * (1000000 // len(frame) + 1))[:1000002]


def passed_over(times):
    """Tables whose cards each name an object of the same candidate, and pauses that take no region, as too many cards lead into each."""
    lines = [f"heap3 {REGIONS} {WORDS} 8 1 0 8 16 8"]
    for _ in range(255):
        # Two tables fill a region; in the two after it are two objects each, and too little after them for a third.
        lines += [f"0 new r{register} {shape(HALF, HALF - 2)}" for register in (0, 1)]
        for register in (0, 1):
            lines += [f"0 new r2 {shape(HALF - 9, 0)}", f"0 new r3 {shape(HALF - 1, 0)}"]
            lines += [f"0 put r{register} {8 * card} r2" for card in range(64)]
    return lines + ["gc refine 100000"] + ["gc pausewithin 100000 63"] * times


def young_pauses():
    lines = [f"heap3 64 {WORDS} 8 1 0 8 16 8", f"0 new r0 {shape(HALF, 2)}"]
    for _ in range(39):
        lines += [f"0 new r1 {shape(HALF, 2)}", "0 put r1 0 r0", "0 move r0 r1"]
    for number in range(1000):
        lines += ["0 drop r2"] + ["gc begin", "gc remark", "gc cleanup"] * (number % 8 == 0)
        for _ in range(5):
            lines += [f"0 new r1 {shape(HALF, 2)}", f"0 new r3 {shape(40, 2)}", "0 put r3 0 r2", "0 move r2 r3"]
            lines += [f"0 new r1 {shape(HALF - 40, 2)}"]
        lines += ["gc young 100000 1000"]
    return lines


def third(is_used, steps):
    """Steps where no register is used, or all name an object of their mutator. The objects take a part of a region, so that a
    pause with room for them moves them each time."""
    lines = [f"heap3 8 1024 8 {THIRD_MUTATORS} 0 8 0 {THIRD_REGISTERS}"]
    for mutator in range(THIRD_MUTATORS if is_used else 0):
        lines.append(f"{mutator} new r0 {shape(9, 0)}")
        lines += [f"{mutator} move r{register} r0" for register in range(1, THIRD_REGISTERS)]
    return lines + steps


def run_moves(size, pointers, words, regions, budget, times):
    """An object of so many words near the heap's end, above runs of a region each, of which the highest ones are lost one at a time: a
    compaction moves it down by a region then, if the budget allows. A search for it passes nearly all regions, whether it finds it or not."""
    kept, chain = times + 1, times + 2
    lines = [f"heap3 {regions} {words} 4 1 0 8 0 {times + 3}"]
    for _ in range(regions - times - -(-size // words) - 2):
        lines += [f"0 new r{kept} {shape(words, 1)}", f"0 put r{kept} 0 r{chain}", f"0 move r{chain} r{kept}"]
    lines += [f"0 new r{register} {shape(words, 0)}" for register in range(times)]
    lines.append(f"0 new r{times} {shape(size, pointers)}")
    for register in reversed(range(times)):
        lines += [f"0 drop r{register}", "gc begin", "gc remark", "gc cleanup", f"gc compact {budget}"]
    return lines


SCRIPTS = {
    "no_steps": no_steps,
    "pauses": pauses,
    "pause_of_nothing_256": lambda: pause_of_nothing(256),
    "pause_of_nothing_1024": lambda: pause_of_nothing(1024),
    "pause_of_nothing_256_candidates": lambda: pause_of_nothing_candidates(256),
    "pause_of_nothing_1024_candidates": lambda: pause_of_nothing_candidates(1024),
    "pause_every_1000": pause_every_1000,
    "long_pause": lambda: long_pause(LONG_PAUSES),
    "long_pause_base": lambda: long_pause(0),
    **{f"covered_cards_{count}": lambda count=count: covered_cards(count) for count in (16, 100, 1000, 10000, 50000)},
    **{f"source_regions_{count}{ending}": lambda count=count, pauses=pauses: source_regions(count, pauses)
       for count in (10, 17, 100, 900) for ending, pauses in (("", 12), ("_base", 2))},
    **{f"candidates_{count}": lambda count=count: candidates(count) for count in (16, 64, 256, 1000)},
    "roots_16": roots_16,
    **{f"cleanups_{regions}": lambda regions=regions: cleanups(regions) for regions in (256, 512, 1024)},
    "chain_in_order": lambda: chain_in_order(CHAIN_CYCLES),
    "chain_in_order_base": lambda: chain_in_order(0),
    "chain_apart": lambda: chain_apart(CHAIN_CYCLES),
    "chain_apart_base": lambda: chain_apart(0),
    **{f"actors_{count}{ending}": lambda count=count, steps=steps: actors(count, steps)
       for count in (1, 16) for ending, steps in ACTOR_STEPS.items()},
    "many_objects": lambda: many_objects(0, 0),
    **{f"many_objects_{pointers}_{values}": lambda pointers=pointers, values=values: many_objects(pointers, values)
       for pointers, values in ((1, 0), (0, 1), (2, 2), (4, 4))},
    "many_fields": many_fields,
    **{f"weak_{name}_{regions}": lambda script=script, regions=regions: script(regions)
       for name, script in (("kept", weak_kept), ("none", weak_none)) for regions in (256, 1024)},
    **{f"weak_cleared_{regions}{ending}": lambda regions=regions, cycle=cycle: weak_cleared(regions, cycle)
       for regions in (256, 1024) for ending, cycle in (("", ["gc begin", "gc remark", "gc cleanup"]), ("_base", []))},
    "root_steps_1": lambda: root_steps(heap(8), 0),
    "root_steps_3": lambda: root_steps(f"heap3 {REGIONS} {WORDS} 8 1 0 8 16 1024", 500),
    "frames": frames,
    **{f"third_{name}_none": lambda steps=steps: third(False, steps * 100000)
       for name, steps in (("begin", ["gc begin", "gc remark"]), ("pause", ["gc pause 0"]))},
    "third_none_base": lambda: third(False, []),
    **{f"third_{name}_all": lambda steps=steps: third(True, steps * 200)
       for name, steps in (("begin", ["gc begin", "gc remark"]), ("pause", ["gc pause 0"]), ("moved", ["gc pause 1000"]))},
    "third_all_base": lambda: third(True, []),
    "passed_over": lambda: passed_over(5000),
    "passed_over_base": lambda: passed_over(0),
    "young_pauses": young_pauses,
    "weak_spread": lambda: weak_spread("newweak r2 0 1 0"),
    "weak_spread_none": lambda: weak_spread("new r2 0 1"),
}


# Steps whose instructions are counted: what makes ready, the heap line first, and the steps, which are taken again and again.
SMALL_HEAP = ["heap 4 16 8 1 0", "0 new r0 3 3", "0 new r1 3 3", "0 new r2 3 3"]
CARDS_HEAP = ["heap 4 64 8 1 0", "0 new r0 26 4", "0 new r1 26 4", "0 new r2 1 1"]
STEPS = {
    "`get` and `read` in turn": (["heap 4 16 8 1 0", "0 new r0 1 1"], ["0 get r1 r0 0", "0 read r0 0"]),
    "`write`": (SMALL_HEAP, ["0 write r0 0 7"]),
    "`move` and `drop` in turn": (SMALL_HEAP, ["0 move r3 r0", "0 drop r3"]),
    "`put` of nil": (SMALL_HEAP, ["0 put r0 0 nil"]),
    "`put` within a region": (SMALL_HEAP, ["0 put r0 0 r1"]),
    "`put` into another region, the card dirty already": (SMALL_HEAP, ["0 put r0 0 r2"]),
    "four `put` that make four cards dirty, and a `refine 4`, a step of these five":
        (CARDS_HEAP, [f"0 put r0 {field} r2" for field in (0, 8, 16, 24)] + ["gc refine 4"]),
    "the same within a region, and a `refine 4` of nothing":
        (CARDS_HEAP, [f"0 put r0 {field} r1" for field in (0, 8, 16, 24)] + ["gc refine 4"]),
    "`refine 1` on an empty queue": (SMALL_HEAP, ["gc refine 1"]),
    "`new` of 4 words, from a buffer of 512": (["heap 1024 1024 512 1 0"], ["0 new r0 1 1"]),
    "`newweak` of 5 words, from a buffer of 512": (["heap 1024 1024 512 1 0"], ["0 newweak r0 1 1 1"]),
    "`getweak` and `weaks` in turn": (["heap 4 16 8 1 0", "0 newweak r0 1 1 1"], ["0 getweak r1 r0 0", "0 weaks r0"]),
    "`putweak` within a region": (["heap 4 16 8 1 0", "0 newweak r0 1 1 1"], ["0 putweak r0 0 r0"]),
    "`move` and `scope` in turn": (["heap3 4 16 8 1 0 8 16 8", "0 new r0 1 1"], ["0 move r1 r0", "0 scope r1"]),
}


def steps_of(ready, steps, count):
    """A script that takes so many steps."""
    return ready + [steps[place % len(steps)] for place in range(count)]


def write_lines(path, lines):
    with open(path, "w") as file:
        file.write("\n".join(lines) + "\n")


def write(folder, names=SCRIPTS):
    os.makedirs(folder, exist_ok=True)
    for name in names:
        write_lines(os.path.join(folder, name + ".heap"), SCRIPTS[name]())


def main():
    names = sys.argv[2:] or SCRIPTS
    if len(sys.argv) < 2 or sys.argv[1].startswith("-") or any(name not in SCRIPTS for name in names):
        print("usage: tools/measuring/cost_scripts.py FOLDER [SCRIPT ..]", file=sys.stderr)
        sys.exit(2)
    write(sys.argv[1], names)


if __name__ == "__main__":
    sys.exit(print(__doc__) if sys.argv[1:] == ["--help"] else main())
