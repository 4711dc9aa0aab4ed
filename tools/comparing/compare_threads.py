"""Runs drawn scripts in threads, many times, and judges each record.

    tools/compare threads [PROGRAM [FIRST_SEED [COUNT]]] [options of tools/draw_script.py]

Unless told otherwise the scripts are of 16 mutators, 400 steps, with pauses and marking cycles, and are run by 32 workers
with 8 markers and 8 refiners. Each run has to end within 60 seconds with status 0 and nothing on standard error. Each record
is judged twice: by the graph and the script (plain/judge.py), and by the plain heap, which does the record's events in their
order and has to give the same replies. The first record that isn't right is kept; the status is then 1.

Before that it runs a script that has something to do for each background actor, in two cycles of marking and between idle rounds. By one
worker turns go round, so each marker has one in every other round of each cycle at least, and each refiner while cards are queued. By
more workers, where an actor may wait for a thread that is held up, each has a turn in one of a few long runs.
"""
import argparse
import collections
import os
import subprocess
import sys
import tempfile

import draw_script
from plain import build_plain, judge

TOP = os.path.dirname(os.path.dirname(os.path.dirname(os.path.abspath(__file__))))
PROGRAM = os.path.join(TOP, "crates", "g1heap", "out", "g1heap")
SECONDS = 60
# How often a long run by many workers is done until each background actor was seen.
TRIES = 20


def is_of_plain_heap(plain, folder, record):
    """Whether the plain heap gives the same replies to the events of a record."""
    heap, events = judge.events_of(record)
    path = os.path.join(folder, "events.heap")
    with open(path, "w") as file:
        file.write(heap + "\n")
        file.writelines(f"{actor if actor.isdigit() else 'gc'} {step}\n" for actor, step, _ in events)
    done = subprocess.run([plain, "run", path], stdout=subprocess.PIPE, check=True, text=True)
    return [reply for _, _, reply in judge.events_of(done.stdout)[1]] == [reply for _, _, reply in events]


def fault_of(words, plain, folder, script):
    """What is wrong with a run of a script, or None, and its record."""
    path = os.path.join(folder, "script.heap")
    with open(path, "w") as file:
        file.write(script)
    line = [os.path.abspath(words.program), "threads", path, "--workers", str(words.workers), "--markers",
            str(words.markers), "--refiners", str(words.refiners)]
    try:
        done = subprocess.run(line, stdout=subprocess.PIPE, stderr=subprocess.PIPE, text=True, timeout=SECONDS)
    except subprocess.TimeoutExpired:
        return f"it didn't end within {SECONDS} seconds", ""
    if done.returncode != 0 or done.stderr:
        return f"status {done.returncode}, {done.stderr!r}", done.stdout
    fault = judge.fault_of(script, done.stdout, words.markers, words.refiners)
    if fault is None and not is_of_plain_heap(plain, folder, done.stdout):
        fault = "the plain heap gives other replies"
    return fault, done.stdout


def busy_script(rounds):
    """A script of 16 mutators, each with an object of two regions whose fields in the second lead into the first: so each round makes
    up to 16 cards dirty, more than 4 refiners take. Marking runs for 20 rounds, and to the end."""
    lines = ["heap 40 256 16 16 0"]
    for mutator in range(16):
        lines += [f"{mutator} new r0 500 0", *[f"{mutator} shape r0"] * 10]
        lines += [f"{mutator} put r0 {254 + 8 * (number % 31)} r0" for number in range(rounds)]
    lines += [f"gc {step}" for step in ["refine 0"] * 10 + ["begin"] + ["refine 0"] * 20 + ["remark"] + ["refine 0"] * 10 + ["begin"]]
    return "\n".join(lines) + "\n"


def turns_by_phase(record):
    """How many events each actor has: before marking, in its first cycle, before the second, and in that one to the end."""
    phases = [collections.Counter()]
    for actor, step, _ in judge.events_of(record)[1]:
        phases[-1][actor] += 1
        if actor == "gc" and step in ("begin", "remark"):
            phases.append(collections.Counter())
    return phases


def faults_of_turns(words, plain, folder):
    """What is wrong with the turns of background actors, or None, and the record."""
    actors = [f"{letter}{number}" for letter in "mf" for number in range(4)]
    few = argparse.Namespace(**{**vars(words), "workers": 1, "markers": 4, "refiners": 4})
    fault, record = fault_of(few, plain, folder, busy_script(100))
    phases = turns_by_phase(record) if fault is None else []
    for phase in phases[1::2]:
        rare = [actor for actor in actors[:4] if 2 * phase[actor] < phase["0"]]
        fault = fault or (f"in a cycle of {phase['0']} rounds few turns of {', '.join(rare)}" if rare else None)
    turns = sum(phases, collections.Counter())
    rare = [actor for actor in actors[4:] if turns[actor] < 50]
    fault = fault or (f"in 100 rounds with cards queued few turns of {', '.join(rare)}" if rare else None)
    for workers in (4, 32):
        seen, many = set(), argparse.Namespace(**{**vars(few), "workers": workers})
        for _ in range(TRIES):
            if fault is not None or seen >= set(actors):
                break
            fault, record = fault_of(many, plain, folder, busy_script(1000))
            seen |= {actor for actor, _, _ in judge.events_of(record)[1]} if fault is None else set()
        missing = sorted(set(actors) - seen)
        fault = fault or (f"in {TRIES} runs by {workers} workers no turn of {', '.join(missing)}" if missing else None)
    return fault, record


def keep(what, fault, script, record):
    """Keeps a record that isn't right, and ends."""
    kept = tempfile.mkdtemp(prefix="compare_threads.")
    for name, text in (("script.heap", script), ("program.record", record)):
        with open(os.path.join(kept, name), "w") as file:
            file.write(text)
    print(f"{what}: {fault}; {kept}")
    sys.exit(1)


def main():
    parser = argparse.ArgumentParser(description=__doc__, formatter_class=argparse.RawDescriptionHelpFormatter)
    parser.add_argument("program", nargs="?", default=PROGRAM, help="the program (crates/g1heap/out/g1heap)")
    parser.add_argument("first", nargs="?", type=int, default=0, metavar="FIRST_SEED", help="the first seed (0)")
    parser.add_argument("count", nargs="?", type=int, default=1000, metavar="COUNT", help="how many runs (1000)")
    parser.add_argument("--workers", type=int, default=32, help="workers (32)")
    parser.add_argument("--markers", type=int, default=8, help="background markers (8)")
    parser.add_argument("--refiners", type=int, default=8, help="background refiners (8)")
    build_plain.add_option(parser)
    draw_script.add_options(parser)
    parser.set_defaults(steps=400, mutators=16)
    words = parser.parse_args()
    options = draw_script.options_of(words)
    counts = collections.Counter()
    with tempfile.TemporaryDirectory(prefix="compare_threads.") as folder:
        plain = build_plain.plain_of(words, folder)
        fault, record = faults_of_turns(words, plain, folder)
        if fault is not None:
            keep("background actors", fault, busy_script(100), record)
        for seed in range(words.first, words.first + words.count):
            script = draw_script.draw(seed, **options)
            fault, record = fault_of(words, plain, folder, script)
            if fault is not None:
                keep(f"seed {seed}", fault, script, record)
            for actor, step, reply in judge.events_of(record)[1]:
                counts["events"] += 1
                counts["background"] += actor[0] in "mf"
                counts["pauses"] += step.startswith("pause")
                counts["moving"] += reply.startswith("moved") and not reply.endswith(" 0")
                counts["marked"] += reply.startswith("marked")
    print(f"{words.count} runs, each ended and was judged yes twice: {counts['events']} events, {counts['background']} of them by "
          f"background actors, {counts['pauses']} pauses, {counts['moving']} of them moved objects, {counts['marked']} cycles marked")
