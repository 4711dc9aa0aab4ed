"""A built program beside the heap without proofs, on the scripts of tools/measuring/cost_scripts.py.

    tools/measure costs [PROGRAM] [--runs 5] [--only SCRIPT ..]
    tools/measure costs [PROGRAM] [--runs 5] --actors
    tools/measure costs [PROGRAM] --steps
    tools/measure costs [PROGRAM] --parts
    tools/measure costs [PROGRAM] --weak
    tools/measure costs [PROGRAM] --moves
    tools/measure costs [PROGRAM] [--runs 5] --pages

The times are processor seconds, user and system, the best of some runs in which the two programs take turns; so other
work on the machine tells little. The records of the two programs are compared first.

With --actors the subcommands are measured against one another: how many instructions a step takes by `run`, by `sim` and by
`threads` with one worker, by callgrind's counts of two scripts that differ by some steps; and how long 1,000,000 steps take,
in processor seconds and from start to end, in threads of 1 to 8 workers too.

With --steps the instructions of single steps by `run` are counted, from bytes to bytes, by callgrind: the difference of 60,000
and 20,000 steps; and of the same events by `check` and by `check --follow`. With --parts those of parts of the collector's work, of both
programs: the difference of two scripts. With --weak those of a marking cycle with weak slots and without, by `run` and by `check`: the
difference of scripts that differ by some cycles.

With --moves a compaction that moves a run down by one region is counted, on top of one whose budget is a word too few for it, as is written
in as many digits, beside memmove of as many words.

With --pages `draw` is measured beside the `run` of the same script: seconds, instructions, the page's bytes and moments.
"""
import argparse
import os
import re
import subprocess
import sys
import tempfile
import time

from measuring import cost_scripts
from measuring.counting import HERE, PROGRAM, TOP, instructions, program_of, write_apart


def compile_program(source, program):
    subprocess.run(["g++", "-O2", "-std=c++17", "-o", program, source], check=True)


def record_of(program, script):
    done = subprocess.run([program, "run", script], stdout=subprocess.PIPE, stderr=subprocess.PIPE)
    return done.returncode, done.stdout, done.stderr


def seconds_of(program, script):
    """The processor seconds of one run."""
    process = os.posix_spawn(program, [program, "run", script], os.environ,
                             file_actions=[(os.POSIX_SPAWN_OPEN, 1, os.devnull, os.O_WRONLY, 0)])
    status, used = os.wait4(process, 0)[1:]
    if status != 0:
        print(f"{program} run {script}: status {os.waitstatus_to_exitcode(status)}", file=sys.stderr)
        return float("nan")
    return used.ru_utime + used.ru_stime


def measure(programs, script, runs):
    """The best time of each program, taking turns."""
    best = [float("inf")] * len(programs)
    for _ in range(runs):
        for place, program in enumerate(programs):
            seconds = seconds_of(program, script)
            best[place] = seconds if seconds != seconds else min(best[place], seconds)
    return best


def ratio(one, other):
    return f"{one / other:.2f}" if other > 0 else "-"


def main():
    parser = argparse.ArgumentParser(description=__doc__, formatter_class=argparse.RawDescriptionHelpFormatter)
    parser.add_argument("program", nargs="?", default=PROGRAM, help="the program (crates/g1heap/out/g1heap)")
    parser.add_argument("--runs", type=int, default=5, help="runs of each script (5)")
    parser.add_argument("--actors", action="store_true", help="the subcommands against one another")
    parser.add_argument("--steps", action="store_true", help="the instructions of single steps")
    parser.add_argument("--parts", action="store_true", help="the instructions of parts of the collector's work, of both programs")
    parser.add_argument("--weak", action="store_true", help="the instructions of cycles with weak slots")
    parser.add_argument("--moves", action="store_true", help="the instructions of compactions that move a run")
    parser.add_argument("--pages", action="store_true", help="`draw` beside `run`")
    parser.add_argument("--only", nargs="+", choices=cost_scripts.SCRIPTS, metavar="SCRIPT", help="these scripts alone")
    words = parser.parse_args()
    program = program_of(parser, words)
    if words.actors:
        measure_actors(program, words.runs)
        return
    if words.pages:
        measure_pages(program, words.runs)
        return
    for is_asked, counted in ((words.steps, measure_steps), (words.parts, measure_parts), (words.weak, measure_weak),
                              (words.moves, measure_moves)):
        if is_asked:
            counted(program)
            return
    names = words.only or [name for name in cost_scripts.SCRIPTS if not name.startswith("actors_")]
    if "long_pause" in names and "long_pause_base" not in names:
        names.append("long_pause_base")
    with tempfile.TemporaryDirectory(prefix="measure_costs.") as folder:
        plain = os.path.join(folder, "plain_heap")
        compile_program(os.path.join(TOP, "plain", "plain_heap.cpp"), plain)
        cost_scripts.write(folder, names)
        print("script | g1heap s | plain heap s | ratio")
        print("---|---|---|---")
        times = {}
        for name in names:
            script = os.path.join(folder, name + ".heap")
            same = record_of(program, script) == record_of(plain, script)
            times[name] = measure((program, plain), script, words.runs)
            one, other = times[name]
            print(f"{name} | {one:.4f} | {other:.4f} | {ratio(one, other)}{'' if same else ' | the records differ'}", flush=True)
        if "long_pause" in names:
            show_long_pause(times, folder)


def show_long_pause(times, folder):
    """What one long pause takes, and the copying of as many objects of 32 words alone."""
    copies = os.path.join(folder, "copies")
    compile_program(os.path.join(HERE, "copies.cpp"), copies)
    words = cost_scripts.LONG_WORDS
    done = subprocess.run([copies, str(words // 32), str(cost_scripts.LONG_PAUSES)], stdout=subprocess.PIPE, check=True)
    bare = float(done.stdout)
    print(f"\none long pause of {words} words | ms | million words a second | ratio to memcpy")
    print("---|---|---|---")
    for place, name in enumerate(("g1heap", "plain heap")):
        seconds = (times["long_pause"][place] - times["long_pause_base"][place]) / cost_scripts.LONG_PAUSES
        speed = f"{words / seconds / 1e6:.0f}" if seconds > 0 else "-"
        print(f"{name} | {seconds * 1000:.3f} | {speed} | {ratio(seconds, bare)}")
    print(f"memcpy of {words // 32} objects of 32 words | {bare * 1000:.3f} | {words / bare / 1e6:.0f} | 1.00")


WAYS = {
    "run": ["run"],
    "sim": ["sim", "--schedule", "1"],
    **{f"threads --workers {count}": ["threads", "--workers", str(count)] for count in (1, 2, 4, 8)},
}


def times_of(words):
    """The processor seconds of a command, its seconds from start to end, and its largest resident set in megabytes."""
    start = time.perf_counter()
    process = os.posix_spawn(words[0], words, os.environ, file_actions=[(os.POSIX_SPAWN_OPEN, 1, os.devnull, os.O_WRONLY, 0)])
    status, used = os.wait4(process, 0)[1:]
    if status != 0:
        sys.exit(f"{' '.join(words)}: status {os.waitstatus_to_exitcode(status)}")
    return used.ru_utime + used.ru_stime, time.perf_counter() - start, used.ru_maxrss / 1024


def measure_steps(program):
    """The instructions of single steps, and of the same events by the judge."""
    print("step | run | check | check --follow")
    print("---|---|---|---")
    with tempfile.TemporaryDirectory(prefix="measure_costs.") as folder:
        for name, (ready, steps) in cost_scripts.STEPS.items():
            counts = [instructions_by_verb(program, folder, cost_scripts.steps_of(ready, steps, count)) for count in (60000, 20000)]
            print(f"{name} | " + " | ".join(f"{(long - short) / 40000:.0f}" for long, short in zip(*counts)), flush=True)


REGISTERS = cost_scripts.THIRD_MUTATORS * cost_scripts.THIRD_REGISTERS
CHAIN = 2 * cost_scripts.CHAIN_HALF
CYCLE = ["gc begin", "gc remark"]


def repeated(lines, times):
    """A script whose last line is taken so many times, and not as often as it has it."""
    last = lines[-1]
    while lines[-1] == last:
        lines.pop()
    return lines + [last] * times


# Parts of the collector's work: what is counted, a script by how many times it does that, two such numbers, and the parts of one time.
PARTS = (
    ("an object of a list in order, marked (`chain_in_order`)", cost_scripts.chain_in_order, 11, 1, CHAIN),
    ("the same, every other object in the other half of the heap (`chain_apart`)", cost_scripts.chain_apart, 11, 1, CHAIN),
    ("a pause of nothing in 256 regions", lambda times: repeated(cost_scripts.pause_of_nothing(256), times), 2000, 1000, 1),
    ("in 1,024 regions", lambda times: repeated(cost_scripts.pause_of_nothing(1024), times), 2000, 1000, 1),
    ("in 1,024 regions, nearly each a candidate",
     lambda times: repeated(cost_scripts.pause_of_nothing_candidates(1024), times), 2000, 1000, 1),
    ("a word that a long pause copies (`long_pause`)", cost_scripts.long_pause, 6, 1, cost_scripts.LONG_WORDS),
    *((f"a word that a pause copies in a list of objects of {size} words", lambda times, size=size: cost_scripts.copied_list(size, times),
       300, 100, cost_scripts.WORDS - size) for size in (8, 16, 32)),
    ("a card outside, refined and visited, of 100", lambda times: repeated(cost_scripts.covered_cards(100), times), 3000, 1000, 100),
    ("of 1,000", lambda times: repeated(cost_scripts.covered_cards(1000), times), 300, 100, 1000),
    ("a register in use, at `begin` and `remark`", lambda times: cost_scripts.third(True, CYCLE * times), 11, 1, REGISTERS),
    ("at a pause that moves what it names", lambda times: cost_scripts.third(True, ["gc pause 1000"] * times), 11, 1, REGISTERS),
    ("`begin` and `remark`, all registers nil", lambda times: cost_scripts.third(False, CYCLE * times), 2000, 1000, 1),
    ("`pause 0`, all registers nil", lambda times: cost_scripts.third(False, ["gc pause 0"] * times), 2000, 1000, 1),
)


def measure_parts(program):
    """The instructions of parts of the collector's work, of both programs."""
    print("part | g1heap | plain heap | ratio")
    print("---|---|---|---")
    with tempfile.TemporaryDirectory(prefix="measure_costs.") as folder:
        plain, path = os.path.join(folder, "plain_heap"), os.path.join(folder, "parts.heap")
        compile_program(os.path.join(TOP, "plain", "plain_heap.cpp"), plain)
        for what, script, many, few, parts in PARTS:
            counts = []
            for times in (many, few):
                cost_scripts.write_lines(path, script(times))
                counts.append([instructions(tried, "run", path) for tried in (program, plain)])
            one, other = ((long - short) / (many - few) / parts for long, short in zip(*counts))
            print(f"{what} | {one:.1f} | {other:.1f} | {ratio(one, other)}", flush=True)


# What is counted of cycles with weak slots: the script, the same without its last cycles, and how many cycles these are. Each cycle is two
# steps, but for those that the script's base is without.
WEAK = {
    "`begin` and `remark` with a thousand weak slots that are kept, 256 regions": ("weak_kept_256", None, 500),
    "the same without weak slots": ("weak_none_256", None, 500),
    "a thousand weak slots are cleared, with `cleanup`": ("weak_cleared_256", "weak_cleared_256_base", 50),
    "kept, 1,024 regions": ("weak_kept_1024", None, 500),
    "without weak slots": ("weak_none_1024", None, 500),
    "cleared": ("weak_cleared_1024", "weak_cleared_1024_base", 50),
    "a thousand dead objects of one weak slot, one a region": ("weak_spread", None, 50),
    "the same without weak slots, 1,024 regions": ("weak_spread_none", None, 50),
}


def measure_weak(program):
    """The instructions of a marking cycle, with weak slots and without."""
    print("what | script | run | check")
    print("---|---|---|---")
    with tempfile.TemporaryDirectory(prefix="measure_costs.") as folder:
        for what, (name, base, cycles) in WEAK.items():
            lines = cost_scripts.SCRIPTS[name]()
            fewer = cost_scripts.SCRIPTS[base]() if base else lines[:-2 * cycles]
            counts = [instructions_by_verb(program, folder, script) for script in (lines, fewer)]
            run, check = ((long - short) / cycles for long, short in list(zip(*counts))[:2])
            print(f"{what} | {name} | {run:.0f} | {check:.0f}", flush=True)


# Runs that move down by one region: words of the object, words of a region, how many regions the heap has.
MOVES = ((16, 16, 64), (64, 16, 64), (1024, 16, 256), (4096, 16, 512), (512, 512, 64), (1024, 1024, 64), (4096, 1024, 64), (4096, 1024, 1024),
         (65536, 1024, 128), (65536, 1024, 1024))
MOVE_TIMES = 20


def measure_moves(program):
    """The instructions of a run's move, of both programs, and of memmove."""
    print("words | of a region | regions | pointers | g1heap | plain heap | memmove | g1heap to memmove")
    print("---|---|---|---|---|---|---|---")
    with tempfile.TemporaryDirectory(prefix="measure_costs.") as folder:
        plain, copies, path = (os.path.join(folder, name) for name in ("plain_heap", "copies", "moves.heap"))
        compile_program(os.path.join(TOP, "plain", "plain_heap.cpp"), plain)
        compile_program(os.path.join(HERE, "copies.cpp"), copies)
        for size, words, regions in MOVES:
            long, short = (instructions(copies, size, times, words) for times in (1000, 500))
            bare = (long - short) / 500
            for pointers in (0, size // 2):
                counts = []
                for budget in (size, size - 1):
                    cost_scripts.write_lines(path, cost_scripts.run_moves(size, pointers, words, regions, budget, MOVE_TIMES))
                    counts.append([instructions(tried, "run", path) for tried in (program, plain)])
                one, other = ((moved - still) / MOVE_TIMES for moved, still in zip(*counts))
                print(f"{size} | {words} | {regions} | {pointers} | {one:.0f} | {other:.0f} | {bare:.0f} | {ratio(one, bare)}", flush=True)


def instructions_by_verb(program, folder, lines):
    """The instructions of a script's run, of the check of its record, and of that as it is written."""
    script, record = os.path.join(folder, "given.heap"), os.path.join(folder, "given.record")
    cost_scripts.write_lines(script, lines)
    with open(record, "wb") as file:
        file.write(record_of(program, script)[1])
    return [instructions(program, *words) for words in (["run", script], ["check", record], ["check", record, "--follow"])]


def measure_actors(program, runs):
    """The subcommands against `run`: instructions a step, and seconds for 1,000,000 steps."""
    steps = cost_scripts.ACTOR_STEPS[""] - cost_scripts.ACTOR_STEPS["_base"]
    with tempfile.TemporaryDirectory(prefix="measure_costs.") as folder:
        for count in (1, 16):
            write_apart(folder, [f"actors_{count}{ending}" for ending in cost_scripts.ACTOR_STEPS])
            path = os.path.join(folder, f"actors_{count}")
            lines = {name: [program, words[0], path + "_long.heap", *words[1:]] for name, words in WAYS.items()}
            best = {}
            for _ in range(runs):
                for name, line in lines.items():
                    best[name] = [min(pair) for pair in zip(best.get(name, (9e9, 9e9, 9e9)), times_of(line))]
            cost = {}
            for name in ("run", "sim", "threads --workers 1"):
                long, short = ([*lines[name][:2], path + ending + ".heap", *lines[name][3:]] for ending in ("", "_base"))
                cost[name] = (instructions(*long) - instructions(*short)) / steps
            print(f"mutators {count} | instructions a step | of run | processor s | of run | elapsed s | of run | MB")
            print("---|---|---|---|---|---|---|---")
            for name, (used, elapsed, room) in best.items():
                shown = f"{cost[name]:.0f} | {ratio(cost[name], cost['run'])}" if name in cost else "- | -"
                shown += f" | {used:.3f} | {ratio(used, best['run'][0])} | {elapsed:.3f} | {ratio(elapsed, best['run'][1])}"
                print(f"{name} | {shown} | {room:.0f}")
            print(flush=True)


# The scripts whose pages are measured: those of cost_scripts.py by name, those of gcbench_script.py by its options.
PAGES = {
    "`get` and `read` in turn, 64 regions of 1,024 words": "actors_1_long",
    "four mutators, a pause every 1,000": "pause_every_1000",
    "GCBench on 1,024 regions of 1,024 words":
        ["--regions", "1024", "--words", "1024", "--buffer", "64", "--depth", "12", "--rounds", "4", "--young", "100"],
}


def measure_pages(program, runs):
    """`draw` beside `run`: processor seconds, instructions, and the page's size."""
    print("script | steps | run s | draw s | ratio | run instructions a step | draw | ratio | page MB | moments")
    print("---|---|---|---|---|---|---|---|---|---")
    with tempfile.TemporaryDirectory(prefix="measure_costs.") as folder:
        for what, made_by in PAGES.items():
            script = os.path.join(folder, "page.heap")
            if isinstance(made_by, str):
                write_apart(folder, [made_by])
                os.replace(os.path.join(folder, made_by + ".heap"), script)
            else:
                with open(script, "w") as file:
                    subprocess.run([sys.executable, os.path.join(HERE, "gcbench_script.py"), *made_by], stdout=file, check=True)
            with open(script) as file:
                steps = sum(1 for _ in file) - 1
            page = subprocess.run([program, "draw", script], stdout=subprocess.PIPE, check=True).stdout
            moments = len(re.findall(rb"^m \d", page, re.M))
            best = [min(times_of([program, verb, script])[0] for _ in range(runs)) for verb in ("run", "draw")]
            cost = [instructions(program, verb, script) / steps for verb in ("run", "draw")]
            print(f"{what} | {steps} | {best[0]:.3f} | {best[1]:.3f} | {ratio(best[1], best[0])} | {cost[0]:.0f} | {cost[1]:.0f} | "
                  f"{ratio(cost[1], cost[0])} | {len(page) / 1e6:.1f} | {moments}", flush=True)
