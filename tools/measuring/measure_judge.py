"""`check` on the records of tools/measuring/cost_scripts.py, beside the `run` that made them.

    tools/measure judge [PROGRAM] [--runs 5] [--only SCRIPT ..]

The times are processor seconds, user and system, the best of some runs in which the two take turns. Memory is the largest
resident set of `check`, over the number of events. Each verdict must be yes, with all events.
"""
import argparse
import os
import subprocess
import sys
import tempfile

from measuring import cost_scripts
from measuring.counting import PROGRAM, program_of, write_apart

NAMES = ("pause_every_1000", "many_fields", "many_objects", "many_objects_1_0", "many_objects_0_1", "many_objects_2_2", "many_objects_4_4",
         "long_pause_base", "frames")


def used(program, verb, file):
    """The processor seconds of one run, and its largest resident set in bytes."""
    process = os.posix_spawn(program, [program, verb, file], os.environ,
                             file_actions=[(os.POSIX_SPAWN_OPEN, 1, os.devnull, os.O_WRONLY, 0)])
    status, usage = os.wait4(process, 0)[1:]
    if status != 0:
        sys.exit(f"{program} {verb} {file}: status {os.waitstatus_to_exitcode(status)}")
    return usage.ru_utime + usage.ru_stime, usage.ru_maxrss * 1024


def main():
    parser = argparse.ArgumentParser(description=__doc__, formatter_class=argparse.RawDescriptionHelpFormatter)
    parser.add_argument("program", nargs="?", default=PROGRAM, help="the program (crates/g1heap/out/g1heap)")
    parser.add_argument("--runs", type=int, default=5, help="runs of each script (5)")
    parser.add_argument("--only", nargs="+", choices=cost_scripts.SCRIPTS, metavar="SCRIPT", help="these scripts alone")
    words = parser.parse_args()
    program = program_of(parser, words)
    names = words.only or NAMES
    with tempfile.TemporaryDirectory(prefix="measure_judge.") as folder:
        write_apart(folder, names)
        print("script | events | run s | check s | ratio | bytes an event")
        print("---|---|---|---|---|---")
        for name in names:
            script, record = os.path.join(folder, name + ".heap"), os.path.join(folder, name + ".record")
            with open(record, "w") as file:
                subprocess.run([program, "run", script], stdout=file, check=True)
            with open(record) as file:
                events = sum(1 for _ in file) - 1
            verdict = subprocess.run([program, "check", record], stdout=subprocess.PIPE, text=True).stdout
            if verdict != f"yes {events}\n":
                sys.exit(f"{name}: {verdict!r}")
            done = [(used(program, "run", script), used(program, "check", record)) for _ in range(words.runs)]
            run, check = (min(pair[place][0] for pair in done) for place in range(2))
            room = min(pair[1][1] for pair in done)
            print(f"{name} | {events} | {run:.4f} | {check:.4f} | {check / run:.2f} | {room / max(events, 1):.0f}", flush=True)
