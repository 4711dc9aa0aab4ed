"""Compares the records that `sim` prints with those that the plain heap gives for the same turns, byte for byte.

    tools/compare schedules [PROGRAM [FIRST_SEED [COUNT]]] [options of tools/draw_script.py]

For each seed a script is drawn, and counts of markers and refiners. The turns are drawn here, by a generator written
from its description (Permuted Congruential Generator, XSH RR 64/32); the plain heap does all of them in that order,
those of background actors as the collector's. A background turn that the plain heap finds nothing to do for is left
out of what is expected. The first script on which the program differs is kept; the status is then 1.
"""
import argparse
import os
import random
import re
import subprocess
import sys
import tempfile

import draw_script
from plain import build_plain

TOP = os.path.dirname(os.path.dirname(os.path.dirname(os.path.abspath(__file__))))
PROGRAM = os.path.join(TOP, "crates", "g1heap", "out", "g1heap")
IDLE = {"mark 4": "refused 7 NotMarking", "refine 2": "refined 0"}
STREAM = 54


def words_of(seed):
    """The generator's words of 32 bits."""
    increment = STREAM << 1 | 1
    state = (seed + increment) * 6364136223846793005 + increment & 2 ** 64 - 1
    while True:
        mixed = (state >> 18 ^ state) >> 27 & 2 ** 32 - 1
        turn = state >> 59
        yield (mixed >> turn | mixed << 32 - turn) & 2 ** 32 - 1
        state = state * 6364136223846793005 + increment & 2 ** 64 - 1


def turns_of(script, seed, markers, refiners):
    """Each turn that the seed draws, as actor and step."""
    lines = script.split("\n")[:-1]
    mutators = int(lines[0].split(" ")[4])
    left = {str(mutator): [] for mutator in range(mutators)}
    left["gc"] = []
    for line in lines[1:]:
        actor, step = line.split(" ", 1)
        left[actor].append(step)
    for steps in left.values():
        steps.reverse()
    background = [(f"m{number}", "mark 4") for number in range(markers)]
    background += [(f"f{number}", "refine 2") for number in range(refiners)]
    words, turns = words_of(seed), []
    while True:
        actors = [actor for actor, steps in left.items() if steps]
        if not actors:
            return turns
        actor = actors[next(words) % len(actors)]
        turns.append((actor, left[actor].pop()))
        if background:
            turns.append(background[next(words) % len(background)])


def expected(plain, folder, script, turns):
    """The record of these turns, by the plain heap."""
    path = os.path.join(folder, "turns.heap")
    with open(path, "w") as file:
        file.write(script.split("\n", 1)[0] + "\n")
        file.writelines(f"{actor if actor.isdigit() else 'gc'} {step}\n" for actor, step in turns)
    done = subprocess.run([plain, "run", path], stdout=subprocess.PIPE, check=True, text=True)
    heap, *lines = done.stdout.split("\n")[:-1]
    if len(lines) != len(turns):
        sys.exit(f"the plain heap's record has {len(lines)} events, not {len(turns)}")
    record = [heap]
    for (actor, step), line in zip(turns, lines):
        reply = line.partition(" = ")[2]
        if actor[0] in "mf" and reply == IDLE[step]:
            continue
        record.append(f"{len(record)} {actor} {step} = {reply}")
    return "\n".join(record) + "\n"


def main():
    parser = argparse.ArgumentParser(description=__doc__, formatter_class=argparse.RawDescriptionHelpFormatter)
    parser.add_argument("program", nargs="?", default=PROGRAM, help="the program (crates/g1heap/out/g1heap)")
    parser.add_argument("first", nargs="?", type=int, default=0, metavar="FIRST_SEED", help="the first seed (0)")
    parser.add_argument("count", nargs="?", type=int, default=2000, metavar="COUNT", help="how many scripts (2000)")
    build_plain.add_option(parser)
    draw_script.add_options(parser)
    words = parser.parse_args()
    options = draw_script.options_of(words)
    events = background = 0
    with tempfile.TemporaryDirectory(prefix="compare_schedules.") as folder:
        plain = build_plain.plain_of(words, folder)
        for seed in range(words.first, words.first + words.count):
            chosen = random.Random(seed)
            markers, refiners = chosen.choice((0, 0, 1, 2, 8)), chosen.choice((0, 0, 1, 3, 8))
            schedule = chosen.choice((seed, chosen.randrange(2 ** 64)))
            script = draw_script.draw(seed, **options)
            path = os.path.join(folder, "script.heap")
            with open(path, "w") as file:
                file.write(script)
            line = [os.path.abspath(words.program), "sim", path, "--schedule", str(schedule), "--markers", str(markers),
                    "--refiners", str(refiners)]
            done = subprocess.run(line, stdout=subprocess.PIPE, stderr=subprocess.PIPE, text=True)
            wanted = expected(plain, folder, script, turns_of(script, schedule, markers, refiners))
            if done.returncode != 0 or done.stdout != wanted or done.stderr:
                kept = tempfile.mkdtemp(prefix="compare_schedules.")
                for name, text in (("script.heap", script), ("expected.record", wanted), ("program.record", done.stdout)):
                    with open(os.path.join(kept, name), "w") as file:
                        file.write(text)
                print(f"seed {seed} differs: {kept}\n  {' '.join(line)}\n  status {done.returncode} {done.stderr}")
                sys.exit(1)
            events += wanted.count("\n") - 1
            background += len(re.findall(r"^\d+ [mf]", wanted, re.M))
    print(f"{words.count} scripts, {events} events, {background} of them by background actors: all the same")
