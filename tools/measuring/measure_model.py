"""The longest look by a model of costs, on the plain heap: the same on any machine, however busy it is.

    tools/measure model [--sizes 16 128] [--shares 20 50 75] [--loads trees lists hash arrays weak] [--options dying=10 ..] [--bar]

What each kind of work costs, and what the columns are, says the top of tools/measuring/live_loads.c. As many rows run at once as there are
processors. With --bar it ends with status 1 if a look at 50 percent live is longer than 10 ms, `weak` apart in heaps above 16 MiB, or a
whole collection came at 20 or 50 percent.
"""
import argparse
import concurrent.futures
import itertools
import os
import subprocess
import sys
import tempfile

from measuring.counting import TOP

LOADS = ["trees", "lists", "hash", "arrays", "weak"]
COLUMNS = ["Heap", "Live", "Load", "Longest look", "while filling", "Collector", "Scanned", "Copied", "Cycles", "An object", "MMU 100 ms",
           "A word made", "Whole", "The longest look"]


def path(name):
    return os.path.join(TOP, name)


def build(folder):
    plain, program = os.path.join(folder, "plain.o"), os.path.join(folder, "live_model")
    include = "-I" + path("include")
    library = ["g++", "-O2", "-std=c++17", "-DPLAIN_COUNTS", include, "-c", path("plain/plain_library.cpp"), "-o", plain]
    loads = ["cc", "-O2", "-D_DEFAULT_SOURCE", "-DMODEL", include, path("tools/measuring/live_loads.c"), plain, "-lstdc++", "-o", program]
    for command in (library, loads):
        subprocess.run(command, check=True)
    return program


def cells_of(program, words):
    done = subprocess.run([program, *words], stdout=subprocess.PIPE, text=True, check=True)
    return [cell.strip() for cell in done.stdout.strip().strip("|").split("|")]


def is_above(cells):
    """Whether a row misses a bar."""
    size, share, longest, whole = (int(cells[0].split()[0]), int(cells[1].split()[0]), float(cells[3].split()[0]), int(cells[12]))
    is_long = share == 50 and longest > 10 and (cells[2] != "weak" or size <= 16)
    return is_long or share <= 50 and whole != 0


def main():
    parser = argparse.ArgumentParser(description=__doc__, formatter_class=argparse.RawDescriptionHelpFormatter)
    parser.add_argument("--sizes", nargs="+", default=["16", "128"], metavar="MEBIBYTES")
    parser.add_argument("--shares", nargs="+", default=["20", "50", "75"], metavar="PERCENT")
    parser.add_argument("--loads", nargs="+", default=LOADS, metavar="LOAD")
    parser.add_argument("--options", nargs="+", default=[], metavar="NAME=NUMBER")
    parser.add_argument("--bar", action="store_true")
    chosen = parser.parse_args()
    print("| " + " | ".join(COLUMNS) + " |\n" + "|---" * len(COLUMNS) + "|", flush=True)
    with tempfile.TemporaryDirectory() as folder, concurrent.futures.ThreadPoolExecutor(os.cpu_count()) as pool:
        program, failed = build(folder), 0
        runs = [[load, size, share, *chosen.options] for size, share, load in itertools.product(chosen.sizes, chosen.shares, chosen.loads)]
        for cells in pool.map(lambda words: cells_of(program, words), runs):
            print("| " + " | ".join(cells) + " |", flush=True)
            failed |= chosen.bar and is_above(cells)
    return int(failed)


if __name__ == "__main__":
    sys.exit(main())
