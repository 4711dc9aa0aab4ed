"""A built program on the largest heap of each format, 1,024 regions of 1,024 and of 16,384 words; the C library in heaps to 16 GiB.

    tools/measure large [PROGRAM] [--runs 3] [--plain] [--instructions] [--only NAME ..]
    tools/measure large --library [--words 24 27 30] [--card 64] [--objects N] [--runs 3] [--plain] [--java]
    tools/measure large --library --instructions [--words 24 27 30] [--card 64] [--objects N]
    tools/measure large --grey [--words 24 27 30]

Each line has what a script does, the processor seconds of it in the smaller and in the larger heap (the best of some runs,
less those of the script that only makes ready), and what one of its parts takes: a step, an object, a region, a word. With
--plain the plain heap is measured beside it, and the records of the two are compared first. With --instructions callgrind counts the
instructions of a part in the place of seconds, which other work on the machine doesn't change. The last lines are the largest
resident sets over what the heap's words and 100 bytes a step take.

With --library it measures lib/libg1heap.a, by tools/measuring/large_costs.c, in heaps of 2 to these powers of words: each row has what is
done, the processor time of all of it and of a part, and what is resident then, the best of some runs. A size that wants more memory than
the system has to give is left out, and a line says so. With --plain the plain heap behind the same header is beside it, and with --java
OpenJDK's G1, if a JDK is there, on objects of the same shapes: the last lines say what is compared to what.

With --instructions beside it callgrind counts those of an object that is marked, of a list and of a tree in order and in drawn order: what
the processor waits for memory isn't in them.

With --grey it measures, by tools/measuring/grey_costs.c, what marking costs an object where many are grey, at the top of such heaps.
"""
import argparse
import os
import re
import resource
import subprocess
import sys
import tempfile

from measuring import large_java, large_table
from measuring.counting import HERE, PROGRAM, TOP, instructions
from measuring.large_table import Row

OURS, PLAIN = "g1heap", "plain"
SMALL, LARGE = ("heap 1024 1024 512 1 0", 1024), ("heap2 1024 16384 512 1 0 64", 16384)


def reads(words, count):
    """Steps that read fields of 1,000 objects."""
    lines = ["0 new r0 500 0", "0 new r1 500 0"]
    for table in range(2):
        for place in range(500):
            lines += ["0 new r2 1 1", f"0 put r{table} {place} r2"]
    ready = len(lines)
    for step in range(count // 2):
        lines += [f"0 get r3 r{step % 2} {step * 7 % 500}", "0 read r3 0"]
    return lines, ready, count


def allocation(words, count):
    """Objects of 4 words that are lost at once, and a marking cycle where half of the heap is spent."""
    lines, spent, half = [], 0, 1024 * words // 2
    for _ in range(count):
        lines.append("0 new r0 1 1")
        spent += 4
        if spent > half:
            lines += ["gc begin", "gc remark", "gc cleanup"]
            spent = 0
    return lines, 0, count


def stores(words, count):
    """Stores into 32 objects of 200 pointers in several regions, and a `refine` every 1,000."""
    lines = []
    for place in range(16):
        lines += ["0 new r0 200 0", f"0 save g{place} r0", f"0 new r1 {words // 2 - 2} 0"]
    ready = len(lines)
    lines += ["0 load r0 g0", "0 load r1 g1"]
    for step in range(count):
        if step % 1000 == 999:
            lines += ["gc refine 1000", f"0 load r0 g{step // 1000 % 16}", f"0 load r1 g{step // 1000 * 5 % 16}"]
        lines.append(f"0 put r0 {step * 13 % 200} r1")
    return lines, ready, count


def chain(words, count, apart):
    """Objects of 4 words, each of which names the next one; where they are apart every other one is after all the rest."""
    lines = ["0 new r0 2 0", "0 save g0 r0"]
    if not apart:
        for _ in range(count - 1):
            lines += ["0 new r1 2 0", "0 put r0 0 r1", "0 move r0 r1"]
    else:
        for _ in range(count // 2 - 1):
            lines += ["0 new r1 2 0", "0 put r0 1 r1", "0 move r0 r1"]
        lines.append("0 load r0 g0")
        for _ in range(count // 2):
            lines += ["0 new r1 2 0", "0 put r0 0 r1", "0 get r2 r0 1", "0 put r1 0 r2", "0 put r0 1 nil", "0 move r0 r2"]
    lines += [f"0 drop r{register}" for register in range(3)]
    ready = len(lines)
    return lines + ["gc begin", "gc remark"] * 4, ready, 4 * count


def tree(words, count, cycles=2):
    """Objects of 14 words, each of which names the two at the places 2 n + 1 and 2 n + 2; they are found by 500 tables."""
    tables = 500
    lines = [f"0 new r0 {tables} 0", "0 save g0 r0"]
    for table in range(tables):
        lines += [f"0 new r1 {-(-count // tables)} 0", f"0 put r0 {table} r1"]
    for place in range(count):
        lines += ["0 new r2 2 10", f"0 get r1 r0 {place % tables}", f"0 put r1 {place // tables} r2"]
        if place > 0:
            above = (place - 1) // 2
            lines += [f"0 get r1 r0 {above % tables}", f"0 get r3 r1 {above // tables}", f"0 put r3 {(place - 1) % 2} r2"]
    # The tables go, and the first object alone is a root.
    lines += ["0 get r1 r0 0", "0 get r1 r1 0", "0 save g0 r1"] + [f"0 drop r{register}" for register in range(4)]
    return lines + ["gc begin", "gc remark"] * cycles, len(lines), cycles * count


def cleanup(words, count):
    """All regions but one are filled with garbage, which a cycle reclaims."""
    lines = [f"0 new r0 {words // 2 - 2} 0"] * 2 * count + ["0 drop r0", "gc begin", "gc remark"]
    return lines + ["gc cleanup"], len(lines), count


def pause(words, count):
    """Objects of 32 words are copied, so many words of them. The heap's buffers are of 8 words: each object goes alone."""
    half = words // 2
    objects = count // 32
    places = half - 2
    lines = ["0 new r0 500 0", "0 save g0 r0"]
    for number in range(objects):
        if number % places == 0:
            lines += [f"0 new r1 {places} 0", f"0 put r0 {number // places} r1"]
        # A region isn't full with objects of 32 words alone where one of them has 30.
        lines += [f"0 new r2 1 {29 if number % (words // 32) else 27}", f"0 put r1 {number % places} r2"]
    lines += [f"0 drop r{register}" for register in range(3)]
    return lines + ["gc pause 4294967295"], len(lines), count


SCRIPTS = (("reads", "step", reads, (1000000, 1000000)), ("new, with cycles", "step", allocation, (1000000, 1000000)),
           ("stores, with refinement", "step", stores, (1000000, 1000000)),
           ("marking, in order", "object", lambda words, count: chain(words, count, False), (200000, 1000000)),
           ("marking, alternating", "object", lambda words, count: chain(words, count, True), (200000, 1000000)),
           ("marking, a tree", "object", tree, (60000, 900000)),
           ("cleanup of all regions", "region", cleanup, (1023, 1023)), ("pause", "word", pause, (340000, 1000000)))


def seconds(program, script):
    """The processor seconds of a run, and its largest resident set in bytes."""
    read, write = os.pipe()
    child = os.fork()
    if child == 0:
        with open(os.devnull, "w") as nothing:
            done = subprocess.run([program, "run", script], stdout=nothing)
        used = resource.getrusage(resource.RUSAGE_CHILDREN)
        os.write(write, f"{done.returncode} {used.ru_utime + used.ru_stime} {used.ru_maxrss * 1024}".encode())
        os._exit(0)
    os.close(write)
    text = os.read(read, 200).decode()
    os.close(read)
    os.waitpid(child, 0)
    status, time, size = text.split()
    if status != "0":
        sys.exit(f"measure large: {program} run {script} ended with status {status}")
    return float(time), int(size)


def cell_of(program, scripts, part, parts, words):
    """What one part of the whole script takes that the base, the other one, is without."""
    if words.instructions:
        whole, base = (instructions(program, "run", script) for script in scripts)
        return f"{(whole - base) / parts:.1f} instructions/{part}"
    whole, base = (best(program, script, words.runs) for script in scripts)
    return f"{whole - base:.3f} s, {(whole - base) / parts * 1e9:.1f} ns/{part}"


def available():
    """The memory that the system can give, in bytes."""
    with open("/proc/meminfo") as file:
        return 1024 * int(re.search(r"^MemAvailable: +(\d+) kB$", file.read(), re.M)[1])


def compile_large(folder, with_plain):
    """The programs of large_costs.c: over the C library, and over the plain heap where it is asked for."""
    compiled = ["cc", "-O2", "-std=c11", "-D_DEFAULT_SOURCE", "-I", os.path.join(TOP, "include"), os.path.join(HERE, "large_costs.c")]
    programs = {OURS: os.path.join(folder, "large_costs")}
    subprocess.run([*compiled, os.path.join(TOP, "lib", "libg1heap.a"), "-o", programs[OURS]], check=True)
    if with_plain:
        plain, programs[PLAIN] = os.path.join(folder, "plain.o"), os.path.join(folder, "plain_costs")
        source = os.path.join(TOP, "plain", "plain_library.cpp")
        subprocess.run(["c++", "-O2", "-std=c++17", "-c", source, "-o", plain], check=True)
        subprocess.run([*compiled, plain, "-lstdc++", "-o", programs[PLAIN]], check=True)
    return programs


def rows_of(program, size, words, objects):
    """The rows of one run, and the lines that are none."""
    done = subprocess.run([program, str(size), str(words.card), str(objects)], stdout=subprocess.PIPE, text=True, check=False)
    if done.returncode != 0:
        sys.exit(f"{done.stdout}2^{size} words: the rows end here; if a call was refused with 18, ask for fewer --objects")
    found = re.findall(r"^(.+?) +([\d.]+) us +([\d.]+) ns/(\S+) +([\d.]+) MB$", done.stdout, re.M)
    rows = {name: Row(float(all_of) / 1e6, float(each) / 1e9, part, float(resident) * 1e6) for name, all_of, each, part, resident in found}
    return rows, [line for line in done.stdout.splitlines() if not line.endswith(" MB")]


def measure_size(folder, size, objects, programs, words):
    """Prints the table of a size, and the lines of the programs that are no rows."""
    runs, said, of_region = {name: [] for name in programs}, {}, (8 << size) // (1024 if size < 28 else 2048)
    for _ in range(words.runs):
        for name, program in programs.items():
            rows, said[name] = rows_of(program, size, words, objects)
            runs[name].append(rows)
        if words.java:
            rows = large_java.rows_of(folder, 8 << size, large_java.region_of(of_region), objects)
            runs.setdefault(large_java.NAME, []).append(rows)
    columns = {name: large_table.best_of(rows) for name, rows in runs.items()}
    large_table.show(said[OURS][0], columns, large_java.rows_apart(of_region))
    print("\n".join(f"{name}: {line}" for name in said for line in said[name][1:]))
    print(f"load of the machine: {os.getloadavg()[0]:.1f} on {os.cpu_count()} processors", flush=True)


def measure_library(folder, words):
    """Prints a table of each size: the C library, and beside it the plain heap and OpenJDK's G1 where they are asked for."""
    programs = compile_large(folder, words.plain)
    if words.java and not large_java.compile_java(folder):
        words.java = False
        print(f"{large_java.NAME} is left out: there is no JDK")
    for size in words.words:
        # The words that are written, and tables of a fifth of all: a quarter of the heap, or 2^23 objects of 16 words, and twice 100 MB.
        objects = words.objects or 1 << min(size - 6, 23)
        needs = min(8 << size, 8 * 16 * objects * 2 + 400_000_000) + (8 << size) // 5
        if available() < needs:
            print(f"2^{size} words: left out, {needs >> 20} MiB are asked for and {available() >> 20} are there", flush=True)
        else:
            measure_size(folder, size, objects, programs, words)
    if words.java:
        print(large_java.ABOUT)


def count_marking(folder, words):
    """Prints the instructions of a marked object in each size. Callgrind counts each call of g1_mark by itself: large_costs.c makes two in
    each of its first three cycles, and the first of these marks all."""
    program = compile_large(folder, False)[OURS]
    for size in words.words:
        objects, out = words.objects or 1 << min(size - 6, 21), os.path.join(folder, f"calls{size}")
        counting = ["valgrind", "--tool=callgrind", "--toggle-collect=g1_mark", "--dump-after=g1_mark", f"--callgrind-out-file={out}"]
        numbers = [str(size), str(words.card), str(objects)]
        subprocess.run([*counting, program, *numbers], check=True, stdout=subprocess.DEVNULL, stderr=subprocess.DEVNULL)
        for call, shape in ((1, "a list"), (3, "a tree in order"), (5, "a tree in drawn order")):
            with open(f"{out}.{call}", encoding="utf-8") as dump:
                count = int(re.search(r"^totals: (\d+)", dump.read(), re.M)[1]) / objects
            print(f"2^{size} words, {objects} objects of {shape}: {count:.1f} instructions an object marked", flush=True)


def measure_grey(folder, words):
    """Prints a row of each size, of which all words are written."""
    program = os.path.join(folder, "grey_costs")
    compiled = ["cc", "-O2", "-std=c11", "-D_DEFAULT_SOURCE", "-I", os.path.join(TOP, "include"), os.path.join(HERE, "grey_costs.c")]
    subprocess.run([*compiled, os.path.join(TOP, "lib", "libg1heap.a"), "-o", program], check=True)
    for size in words.words:
        if available() < (9 << size):
            print(f"2^{size} words: left out, {9 << size >> 20} MiB are asked for and {available() >> 20} are there", flush=True)
        elif subprocess.run([program, str(size)], check=False).returncode != 0:
            sys.exit(f"2^{size} words: a call was refused")


def write_script(folder, name, line, steps):
    path = os.path.join(folder, name + ".heap")
    with open(path, "w") as file:
        file.write(line + "\n" + "".join(step + "\n" for step in steps))
    return path


def best(program, script, runs):
    return min(seconds(program, script)[0] for _ in range(runs))


def measure_scripts(folder, words):
    """Prints a row of each script by the built program, and by the plain heap where it is asked for."""
    programs = [words.program]
    if words.plain:
        programs.append(os.path.join(folder, "plain_heap"))
        subprocess.run(["g++", "-O2", "-std=c++17", "-o", programs[1], os.path.join(TOP, "plain", "plain_heap.cpp")], check=True)
    sizes = []
    for name, part, make, counts in (script for script in SCRIPTS if script[0] in (words.only or [it[0] for it in SCRIPTS])):
        cells = []
        for (line, region), count in zip((SMALL, LARGE), counts):
            steps, ready, parts = make(region, count)
            if make is pause:
                line = line.replace(" 512 ", " 8 ")
            whole, base = write_script(folder, "whole", line, steps), write_script(folder, "base", line, steps[:ready])
            if words.plain:
                records = [subprocess.run([program, "run", whole], stdout=subprocess.PIPE, check=True).stdout for program in programs]
                if records[0] != records[1]:
                    sys.exit(f"measure large: the records of {name} differ")
            cells += [cell_of(program, (whole, base), part, parts, words) for program in programs]
            sizes.append((name, region, seconds(words.program, whole)[1], 1024 * region * 8, len(steps)))
        print(f"| {name} | " + " | ".join(cells) + " |", flush=True)
    for name, region, size, heap, steps in sizes:
        print(f"{name}, regions of {region} words: {size} bytes, {(size - 100 * steps) / heap:.2f} times the words less 100 bytes a step")


def main():
    parser = argparse.ArgumentParser(description=__doc__, formatter_class=argparse.RawDescriptionHelpFormatter)
    parser.add_argument("program", nargs="?", default=PROGRAM)
    parser.add_argument("--runs", type=int, default=3, help="of which the best counts (3)")
    parser.add_argument("--plain", action="store_true", help="measure the plain heap too")
    parser.add_argument("--instructions", action="store_true", help="count instructions in the place of seconds")
    parser.add_argument("--only", nargs="+", choices=[script[0] for script in SCRIPTS], metavar="NAME", help="these alone")
    parser.add_argument("--library", action="store_true", help="measure the library for C")
    parser.add_argument("--java", action="store_true", help="measure OpenJDK's G1 beside the library")
    parser.add_argument("--grey", action="store_true", help="measure marking where many objects are grey")
    parser.add_argument("--words", nargs="+", type=int, default=[24, 27, 30], help="the heaps, by powers of two of words")
    parser.add_argument("--card", type=int, default=64, help="words of a card")
    parser.add_argument("--objects", type=int, help="objects of 16 words that are marked")
    words = parser.parse_args()
    with tempfile.TemporaryDirectory(prefix="measure_large.") as folder:
        if words.library and words.instructions:
            count_marking(folder, words)
        elif words.library:
            measure_library(folder, words)
        if words.grey:
            measure_grey(folder, words)
        if not words.library and not words.grey:
            measure_scripts(folder, words)
