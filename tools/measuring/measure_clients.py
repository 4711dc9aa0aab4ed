"""The C library and its clients, beside other memories: tables for docs/GATE.md.

    tools/measure clients [ARCHIVE [LIBRARY ..]] [--runs 9] [--only calls programs clients millions growth threads]
    tools/measure clients [ARCHIVE [LIBRARY ..]] --only live [--sizes 16 128 1024 4096] [--shares 20 50 75]
                          [--loads trees lists hash arrays weak] [--options runs=2 pause_words=0 ..]

ARCHIVE is lib/libg1heap.a where it is left out. Each table goes over memories: g1heap by the archive; the same inlined by the kit's clang,
where its module is beside the archive; Boehm's collector; malloc, where nothing is freed; the heap without proofs behind the same header; and
tools/measuring/tuned_heap.c behind the same header, by calls and inlined, which says what such a heap takes at least and never frees either.

`calls` counts the instructions of a call with the making of the question in C, by callgrind, from two runs that differ by 20,000 calls; there
the recorded library is one more memory, while nothing is recorded. `programs` counts those of whole clients. `clients` takes the user
time of larger ones, the best of some runs in turns, and the peak memory; with a JDK also of GCBench and binary-trees on OpenJDK's G1, with
as much heap, one thread for each of its tasks, and the time in which the virtual machine starts and compiles. `millions` runs a Scheme
program of more than 10,000,000 objects in a heap of 2 MiB. `growth` counts the instructions of steps whose cost might grow with the heap, in
a large one. `threads` has trees that 1, 2 and 4 threads build and drop, by tools/measuring/thread_trees.c, which says what the ways are: the
seconds by the clock to those of heaps a thread, of the best of some runs in turns; those seconds, the processor seconds of the same run,
and the least longest wait in milliseconds. It wants 4 processors that do nothing else, and goes over the archive alone, or where there is
none, over the heap without proofs. All else needs gcc, g++, valgrind and Debian's libgc-dev.

`live`, which takes long and is run only where it is asked for, prints how long looks of the collector take where a share of a heap lives, by
tools/measuring/live_loads.c, which says what the loads and the columns are, and has the options. Beside that are the longest stop of
OpenJDK's G1, where a JDK is there, and of Boehm's collector, after the filling, and the processor time of the process for each object made.
G1 has as large a heap and one thread for each of its tasks; its stops are by the clock, the least of two runs. Boehm's has one thread and, at
first, as large a heap, which may grow: its size at the end comes third. Both lack weak slots, so `weak` isn't run there. A hyphen is where
a memory isn't there, or the heap was full.
"""
import argparse
import glob
import itertools
import os
import re
import shutil
import subprocess
import sys
import tempfile

from measuring import counting
from measuring.counting import TOP

ARCHIVE, INLINED, PLAIN, BOEHM = "g1heap", "inlined", "plain heap", "Boehm"
# Megabytes of the heap in which a benchmark runs on OpenJDK's G1, and one thread for each of its tasks.
JAVA = {"gcbench": 50, "binary_trees": 32}
THREADS = (1, 2, 4)
WAYS = ("call", "node", "tree", "turns", "heaps", "messages")
JAVA_FLAGS = ["-XX:+UseG1GC", "-XX:ParallelGCThreads=1", "-XX:ConcGCThreads=1", "-XX:G1ConcRefinementThreads=1"]
CALLS = ["get", "get word", "get many, 4", "put many, 4", "read", "write", "put", "put while marking", "get weak",
         "get weak while clearing", "move", "new 2 + 1", "new filled 2 + 1", "make 2 + 1", "make filled 2 + 1", "name", "scope",
         "no such register"]
# A step with its size, two numbers of times of which the difference is taken, and what the difference is divided by.
GROWTH = [
    *[("pause beside marked objects", size, 2, 12, 10) for size in (1000, 1000000)],
    *[("pause named from regions", size, 2, 12, 10) for size in (10, 17, 100, 900)],
    *[("pause with candidates", size, 2, 12, 10) for size in (16, 256, 1000)],
    # Of each object that is copied.
    *[(f"{step} of half regions", size, 0, 1, size * 512) for size in (4, 64)
      for step in ("pause", "pause within cards", "young pause", "compaction")],
    *[("cleanup", size, 0, 1, size) for size in (256, 1000)],
    ("begin", 1, 0, 1, 1),
    ("make", 0, 1, 6, 5),
]
# A client: its name, its source, what it runs, the size at which time is taken and the one at which instructions are counted, for which
# callgrind takes seconds. It runs a word, or a program of clients/programs, in which an expression gives way to a larger one.
CLIENTS = [
    ("Scheme, fib {}", "scheme", ("fib.scm", "(fib 15)", "(fib {})"), 23, 18),
    ("Scheme, lists, {} times", "scheme", ("lists.scm", "(run 25 0)", "(run {} 0)"), 600, 100),
    ("Scheme, queens {}", "scheme", ("queens.scm", "(queens 6)", "(queens {})"), 8, 6),
    ("Scheme, primes to {}", "scheme", ("vectors.scm", "(sieve 1000)", "(sieve {})"), 20000, 4000),
    ("Scheme, {} digits of pi", "scheme", ("pi.scm", "(digits 50)", "(digits {})"), 200, 100),
    ("GCBench, depth {}", "gcbench", "{}", 16, 12),
    ("binary-trees, depth {}", "binary_trees", "{}", 16, 12),
]


def scaled(what, size, folder):
    """The word of a client's command line: the size, or a program of this size."""
    if isinstance(what, str):
        return what.format(size)
    name, small, large = what
    with open(path("clients", "programs", name)) as source:
        text = source.read()
    assert small in text
    with open(os.path.join(folder, name), "w") as larger:
        larger.write(text.replace(small, large.format(size)))
    return larger.name


def path(*parts):
    return os.path.join(TOP, *parts)


def inlining(archive):
    """The compiler and the words that inline g1heap, and those for any other code, or nothing where the module isn't there."""
    package = os.path.join(os.path.dirname(archive), "g1heap.pc")
    if not os.path.exists(os.path.join(os.path.dirname(archive), "libg1heap.bc")) or not shutil.which("rt"):
        return None
    with open(package) as lines:
        link = next(line.partition("=")[2] for line in lines if line.startswith("link=")).split()
    kit = os.path.dirname(subprocess.run(["rt", "doc"], check=True, capture_output=True, text=True).stdout.strip())
    found = sorted(glob.glob("/usr/lib/llvm-*/lib/clang/*/include"), key=lambda it: int(re.search(r"llvm-(\d+)", it)[1]))
    headers = found[-1] if found else subprocess.run(["cc", "-print-file-name=include"], check=True, capture_output=True, text=True).stdout
    return [os.path.join(kit, "toolchain", "bin", "clang"), "-isystem", headers.strip(), *link]


def instructions(program, *words):
    """A program over a memory that lacks a call may end with another status."""
    return counting.instructions(program, *words, may_fail=True)


def compile_c(source, to, compiler, *linked):
    flags = ["-std=c11", "-D_DEFAULT_SOURCE", "-O2", "-I" + path("include")]
    subprocess.run([*compiler, *flags, path(source), *linked, "-o", to], check=True)


def spent(command):
    """User seconds and peak kilobytes of one run. A client tells the latter itself."""
    with subprocess.Popen(command, stdout=subprocess.DEVNULL, stderr=subprocess.PIPE, text=True, env={**os.environ, "VERBOSE": "1"}) as run:
        said = run.stderr.read()
        _, status, took = os.wait4(run.pid, 0)
        run.returncode = os.waitstatus_to_exitcode(status)
    if run.returncode != 0:
        print(f"{' '.join(command)}: status {run.returncode}", file=sys.stderr)
    peak = re.search(r"at most (\d+) KB", said)
    return took.ru_utime, int(peak.group(1)) if peak else took.ru_maxrss


def heading(what, names):
    print(f"| {what} | " + " | ".join(names) + " |\n|---|" + "---|" * len(names))


def row(name, cells):
    print(f"| {name} | " + " | ".join(cells) + " |", flush=True)


def ratio(figures, one, other):
    """One figure to another, where both are there."""
    return f"{figures[one] / figures[other]:.2f}" if figures.get(one) and figures.get(other) else "-"


def measure_calls(libraries, folder):
    heading("Instructions a call", [*libraries, "to plain"])
    programs = {}
    for place, (name, linked) in enumerate(libraries.items()):
        programs[name] = os.path.join(folder, f"costs{place}")
        compile_c("tools/measuring/library_costs.c", programs[name], *linked)
    for call in CALLS:
        counts = {name: (instructions(it, call, 30000) - instructions(it, call, 10000)) / 20000 for name, it in programs.items()}
        row(call, [*(f"{count:.0f}" for count in counts.values()), ratio(counts, ARCHIVE, PLAIN)])


def clients_on(memories, client, folder):
    """Compiles a client on each memory, and returns the programs."""
    programs = {}
    for place, (name, linked) in enumerate(memories.items()):
        programs[name] = os.path.join(folder, f"{client}{place}")
        compile_c(f"clients/{client}.c", programs[name], *linked)
    return programs


RATIOS = ["to Boehm", "inlined to Boehm", "to plain"]


def ratios_of(figures):
    return [ratio(figures, one, other) for one, other in ((ARCHIVE, BOEHM), (INLINED, BOEHM), (ARCHIVE, PLAIN))]


def count_programs(memories, folder):
    heading("Millions of instructions", [*RATIOS, *memories])
    for name, client, what, _, size in CLIENTS:
        word = scaled(what, size, folder)
        counts = {memory: instructions(it, word) / 1e6 for memory, it in clients_on(memories, client, folder).items()}
        row(name.format(size), [*ratios_of(counts), *(f"{count:,.0f}" for count in counts.values())])


def java_of(client, folder):
    """The command of a benchmark on OpenJDK's G1 with as much heap, or nothing where there is no JDK or it isn't such a benchmark."""
    if client not in JAVA or not shutil.which("javac"):
        return None
    subprocess.run(["javac", "-d", folder, path("tools/measuring/trees.java")], check=True)
    return ["java", *JAVA_FLAGS, f"-Xms{JAVA[client]}m", f"-Xmx{JAVA[client]}m", "-cp", folder, "Trees", client]


def measure_programs(memories, runs, folder):
    heading("Seconds and MB", [*RATIOS, *memories, "OpenJDK's G1"])
    for name, client, what, size, _ in CLIENTS:
        word = scaled(what, size, folder)
        commands = {memory: [it] for memory, it in clients_on(memories, client, folder).items()}
        java = java_of(client, folder)
        if java:
            commands["java"] = java
        best = {it: (float("inf"), 0) for it in commands}
        for _ in range(runs):
            for memory, command in commands.items():
                best[memory] = min(best[memory], spent([*command, word]))
        cells = [f"{seconds:.2f}, {kilobytes / 1024:.0f}" for seconds, kilobytes in best.values()]
        ratios = ratios_of({memory: seconds for memory, (seconds, _) in best.items()})
        row(name.format(size), [*ratios, *cells, *([] if java else ["-"])])


def measure_growth(libraries, folder):
    heading("Instructions", [ARCHIVE, PLAIN, "to plain"])
    programs = [os.path.join(folder, f"growth{place}") for place in range(2)]
    for program, name in zip(programs, (ARCHIVE, PLAIN)):
        compile_c("tools/measuring/growth_costs.c", program, *libraries[name])
    for step, size, few, many, parts in GROWTH:
        counts = [(instructions(program, step, size, many) - instructions(program, step, size, few)) / parts for program in programs]
        row(f"{step}, {size}", [*(f"{count:.0f}" for count in counts), f"{counts[0] / counts[1]:.2f}"])


def measure_millions(libraries, folder):
    for name in (ARCHIVE, PLAIN):
        program = os.path.join(folder, "millions")
        compile_c("clients/scheme.c", program, *libraries[name])
        done = subprocess.run([program, path("clients/programs/millions.scm")], capture_output=True, text=True, check=False,
                              env={**os.environ, "VERBOSE": "1", "G1HEAP_REGIONS": "256"})
        print(f"{name}: status {done.returncode}, {done.stdout.strip()}; {done.stderr.strip()}", flush=True)


def live_row(program, words):
    """The cells that live_loads prints, or none where its heap was full."""
    done = subprocess.run([program, *words], stdout=subprocess.PIPE, text=True, check=False)
    return [cell.strip() for cell in done.stdout.strip().strip("|").split("|")] if done.returncode == 0 else []


def live_on_java(load, size, share, folder):
    """The longest stop after the filling, and the time of each object made, of the best of two runs on OpenJDK's G1."""
    if load == "weak" or not shutil.which("javac"):
        return "-"
    log, stops, times = os.path.join(folder, "live.log"), [], []
    for _ in range(2):
        flags = [*JAVA_FLAGS, "-XX:-UseCompressedOops", f"-Xms{size}m", f"-Xmx{size}m", f"-Xlog:gc:file={log}:uptimemillis:filecount=0"]
        command = ["java", *flags, "-cp", folder, "Live", load, str(size), str(share)]
        done = subprocess.run(command, capture_output=True, text=True, check=False)
        if done.returncode != 0:
            return "-"
        filled, each = done.stdout.split()
        with open(log) as lines:
            pauses = re.findall(r"^\[(\d+)ms\] GC\(\d+\) Pause .* ([\d.]+)ms$", lines.read(), re.M)
        stops.append(max((float(took) for at, took in pauses if int(at) >= int(filled)), default=0))
        times.append(float(each) / 1e3)
    return f"{min(stops):.1f} ms, {min(times):.3f} us"


def measure_live(libraries, chosen, folder):
    heading("Heap", ["Live", "Load", "Longest look", "while it was filled", "Collector", "Scanned a word", "Copied a word", "Cycles",
                     "An object", "OpenJDK's G1", "Boehm"])
    program, boehm = os.path.join(folder, "live"), os.path.join(folder, "live_boehm")
    compile_c("tools/measuring/live_loads.c", program, *libraries[ARCHIVE])
    has_boehm = subprocess.run(["cc", "-E", "-include", "gc.h", "-xc", os.devnull], capture_output=True, check=False).returncode == 0
    if has_boehm:
        compile_c("tools/measuring/live_loads.c", boehm, ["cc", "-DMEMORY_BOEHM"], "-lgc")
    if shutil.which("javac"):
        subprocess.run(["javac", "-d", folder, path("tools/measuring/live_loads.java")], check=True)
    for size, share, load in itertools.product(chosen.sizes, chosen.shares, chosen.loads):
        words = [load, str(size), str(share), *chosen.options]
        first, *cells = live_row(program, words) or [f"{size} MiB", f"{share} %", load, *"-" * 7]
        other = live_row(boehm, words) if has_boehm and load != "weak" else []
        row(first, [*cells, live_on_java(load, size, share, folder), f"{other[3]}, {other[9]}, {other[0]}" if other else "-"])


def measure_threads(linked, runs, folder):
    """Prints the best run by the clock of each way, by numbers of threads, and the least longest wait."""
    program = os.path.join(folder, "threads")
    compile_c("tools/measuring/thread_trees.c", program, *linked, "-pthread")
    seen = {it: [] for it in itertools.product(WAYS, THREADS)}
    for _ in range(runs):
        for (way, threads), figures in seen.items():
            done = subprocess.run([program, way, str(threads)], check=True, stdout=subprocess.PIPE, text=True)
            figures.append([float(word) for word in done.stdout.split()])
    heading("Seconds", [f"{threads} thread{'s' * (threads > 1)}" for threads in THREADS])
    for way in WAYS:
        cells = []
        for threads in THREADS:
            seconds, spent_in_all, _ = min(seen[way, threads])
            waited = min(it[2] for it in seen[way, threads])
            cells.append(f"{seconds / min(seen['heaps', threads])[0]:.2f}: {seconds:.3f}, {spent_in_all:.3f}, {waited:.1f}")
        row(way, cells)


def plain_library(folder):
    """The object of the heap without proofs, and the library that it needs."""
    plain = os.path.join(folder, "plain.o")
    subprocess.run(["g++", "-O2", "-std=c++17", "-c", path("plain/plain_library.cpp"), "-o", plain], check=True)
    return plain, "-lstdc++"


def memories_of(archive, folder):
    """Each memory with its compiler and what is linked: those behind g1heap.h, and all that clients can be on."""
    tuned, recorded = (os.path.join(folder, name) for name in ("tuned.o", "recorded.a"))
    subprocess.run(["cc", "-O2", "-I" + path("include"), "-c", path("tools/measuring/tuned_heap.c"), "-o", tuned], check=True)
    subprocess.run([path("recorded_library/build"), archive[0], recorded], check=True)
    inlined, cc = inlining(archive[0]), ["cc"]
    module = [f"-Wl,{os.path.join(os.path.dirname(archive[0]), 'libg1heap.bc')}", *archive]
    first = {ARCHIVE: (cc, *archive), **({INLINED: (inlined, *module)} if inlined else {})}
    last = {PLAIN: (cc, *plain_library(folder)), "tuned": (cc, tuned)}
    if inlined:
        last["tuned, inlined"] = (inlined, path("tools/measuring/tuned_heap.c"))
    between = {BOEHM: (cc, "-DMEMORY_BOEHM", "-lgc"), "malloc, never freed": (cc, "-DMEMORY_MALLOC")}
    return {**first, **last, "recording off": (cc, recorded, *archive[1:])}, {**first, **between, **last}


def main():
    parser = argparse.ArgumentParser(description=__doc__, formatter_class=argparse.RawDescriptionHelpFormatter)
    parser.add_argument("archive", nargs="*", default=[path("lib/libg1heap.a")])
    parser.add_argument("--runs", type=int, default=9)
    parser.add_argument("--only", nargs="+", default=["calls", "programs", "clients", "millions", "growth", "threads"])
    parser.add_argument("--sizes", nargs="+", type=int, default=[16, 128, 1024, 4096], metavar="MEBIBYTES")
    parser.add_argument("--shares", nargs="+", type=int, default=[20, 50, 75], metavar="PERCENT")
    parser.add_argument("--loads", nargs="+", default=["trees", "lists", "hash", "arrays", "weak"], metavar="LOAD")
    parser.add_argument("--options", nargs="+", default=[], metavar="NAME=NUMBER")
    chosen = parser.parse_args()
    with tempfile.TemporaryDirectory() as folder:
        if "threads" in chosen.only:
            there = os.path.exists(chosen.archive[0])
            measure_threads((["cc"], *(chosen.archive if there else plain_library(folder))), chosen.runs, folder)
        if chosen.only == ["threads"]:
            return
        libraries, memories = memories_of(chosen.archive, folder)
        if "calls" in chosen.only:
            measure_calls(libraries, folder)
        if "programs" in chosen.only:
            count_programs(memories, folder)
        if "clients" in chosen.only:
            measure_programs(memories, chosen.runs, folder)
        if "millions" in chosen.only:
            measure_millions(libraries, folder)
        if "growth" in chosen.only:
            measure_growth(libraries, folder)
        if "live" in chosen.only:
            measure_live(libraries, chosen, folder)
