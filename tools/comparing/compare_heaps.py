"""Runs drawn scripts on a heap program and on the plain heap, and compares what they print byte for byte.

    tools/compare heaps [PROGRAM [FIRST_SEED [COUNT]]] [options of tools/draw_script.py]

One script in 16 has a byte changed, so that faults are compared too. The first script on which the programs
differ is kept, with both outputs; the status is then 1.
"""
import argparse
import collections
import multiprocessing
import os
import re
import resource
import shutil
import signal
import sys
import tempfile

import draw_script
from plain import build_plain

TOP = os.path.dirname(os.path.dirname(os.path.dirname(os.path.abspath(__file__))))
PROGRAM = os.path.join(TOP, "crates", "g1heap", "out", "g1heap")
SECONDS = 10
CHUNK = 50
AT_ONCE = 5
ENOUGH = 10
SLOT_LINE = re.compile(rb"^\d+ \d+ getweak [ \w]+ = (nil|#)", re.M)
COLLECTOR_LINE = re.compile(rb"^\d+ gc (\w+)[ \d]* = (\w+)(?: (\d+))?(?: (\d+))?$", re.M)


# The programs that this process started and hasn't waited for.
RUNNING = set()


class TooLong(Exception):
    pass


def too_long(number, frame):
    raise TooLong


def give_up(number, frame):
    for process in RUNNING:
        try:
            os.kill(process, signal.SIGKILL)
        except ProcessLookupError:
            pass
    os._exit(1)


def prepare():
    """Makes a process ready to run programs: a wrong one may take too long, print without end, or be stopped halfway."""
    signal.signal(signal.SIGALRM, too_long)
    signal.signal(signal.SIGTERM, give_up)
    signal.signal(signal.SIGINT, signal.SIG_IGN)
    resource.setrlimit(resource.RLIMIT_FSIZE, (1 << 26, 1 << 26))


def start(words, base):
    """Starts a program whose output and faults go to files of this name."""
    flags = os.O_WRONLY | os.O_CREAT | os.O_TRUNC
    actions = [(os.POSIX_SPAWN_OPEN, 1, base + ".out", flags, 0o644),
               (os.POSIX_SPAWN_OPEN, 2, base + ".err", flags, 0o644)]
    process = os.posix_spawn(words[0], words, os.environ, file_actions=actions, setsigdef=[signal.SIGINT])
    RUNNING.add(process)
    return process, base


def outcome(started):
    """A program's status, its output and its faults. A program that takes too long is stopped."""
    process, base = started
    signal.setitimer(signal.ITIMER_REAL, SECONDS)
    try:
        status = os.waitstatus_to_exitcode(os.waitpid(process, 0)[1])
    except TooLong:
        os.kill(process, signal.SIGKILL)
        os.waitpid(process, 0)
        status = f"stopped after {SECONDS} seconds"
    finally:
        signal.setitimer(signal.ITIMER_REAL, 0)
    RUNNING.remove(process)
    with open(base + ".out", "rb") as file:
        record = file.read()
    with open(base + ".err", "rb") as file:
        return status, record, file.read()


def tally(record):
    """What happened in a record, as counts."""
    counts = collections.Counter(scripts=1, steps=record.count(b"\n") - 1, full=record.count(b"= refused 3 Full\n"),
                                 third=record.startswith(b"heap3 "), scopes=record.count(b" scope r"))
    taken = SLOT_LINE.findall(record)
    counts.update(slots=len(taken), nil_slots=taken.count(b"nil"))
    marking = False
    for step, form, first, second in COLLECTOR_LINE.findall(record):
        if step == b"begin":
            marking = True
        elif step == b"remark":
            marking = False
            counts["marked"] += form == b"marked"
        elif step == b"cleanup":
            if form == b"reclaimed":
                counts["cleaned"] += int(first)
        elif step == b"refine":
            counts["refined"] += int(first)
        elif step == b"compact":
            counts["compactions"] += 1
            counts["compacted"] += int(first)
            counts["compacted_words"] += int(second)
        elif step in (b"pause", b"pausewithin", b"young"):
            counts["pauses"] += 1
            counts[step.decode()] += 1
            counts["paused"] += int(first)
            if second != b"0":
                counts["copied"] += 1
                counts["copied_marking"] += marking
                counts["words"] += int(second)
    return counts


def compare_chunk(job):
    """Compares the scripts of some seeds. Answers the counts, and the first difference if there is one."""
    words, seeds = job
    base = os.path.join(words.folder, str(os.getpid()))
    options = draw_script.options_of(words)
    counts, difference = collections.Counter(), None
    for first in range(seeds.start, seeds.stop, AT_ONCE):
        # Some programs are started before the first is waited for: on a busy machine most of the time is waiting.
        started = []
        for seed in range(first, min(first + AT_ONCE, seeds.stop)):
            text = draw_script.draw(seed, **options)
            if seed % 16 == 15:
                text = draw_script.spoil(text, seed)
            name = f"{base}-{seed - first}"
            with open(name + ".heap", "w") as file:
                file.write(text)
            started.append((seed, text, start([words.plain, "run", name + ".heap"], name + "-plain"),
                            start([words.program, "run", name + ".heap"], name + "-program")))
        for seed, text, plain, program in started:
            plain, program = outcome(plain), outcome(program)
            if plain[0] == 0:
                counts += tally(plain[1])
            else:
                counts["scripts"] += 1
                counts["faulty"] += 1
            if plain != program or plain[0] not in (0, 1):
                counts["different"] += 1
                if difference is None:
                    difference = (seed, text, plain, program)
        if counts["different"] >= ENOUGH:
            break
    return counts, difference


def show(folder, difference):
    """Keeps a script on which the programs differ, and prints where."""
    seed, text, plain, other = difference
    base = os.path.join(folder, f"seed-{seed}")
    for ending, content in ((".heap", text.encode()), (".plain.out", plain[1]), (".plain.err", plain[2]),
                            (".program.out", other[1]), (".program.err", other[2])):
        with open(base + ending, "wb") as file:
            file.write(content)
    print(f"seed {seed} differs: {base}.heap")
    for name, place in (("status", 0), ("faults", 2)):
        if plain[place] != other[place]:
            print(f"  {name}: plain heap {plain[place]!r}, program {other[place]!r}")
    lines, others = plain[1].split(b"\n"), other[1].split(b"\n")
    length = max(len(lines), len(others))
    lines += [b"(no line)"] * (length - len(lines))
    others += [b"(no line)"] * (length - len(others))
    for number, (line, another) in enumerate(zip(lines, others), 1):
        if line != another:
            print(f"  line {number}\n    plain heap: {line.decode('latin-1')}\n    program:    {another.decode('latin-1')}")
            break


def compare(words, counts):
    """Compares all scripts, adds up the counts, and answers the first difference if there is one."""
    last = words.first + words.count
    jobs = ((words, range(seed, min(seed + CHUNK, last))) for seed in range(words.first, last, CHUNK))
    first = None
    with multiprocessing.Pool(words.processes, prepare) as pool:
        for done, difference in pool.imap(compare_chunk, jobs):
            counts.update(done)
            first = first or difference
            if counts["different"] >= ENOUGH:
                break
        else:
            # Leaving the pool stops its processes by a signal, and one that comes just before a process waits for a lock is lost.
            pool.close()
            pool.join()
    return first


def main():
    parser = argparse.ArgumentParser(description=__doc__, formatter_class=argparse.RawDescriptionHelpFormatter)
    parser.add_argument("program", nargs="?", default=PROGRAM, help="the program (crates/g1heap/out/g1heap)")
    parser.add_argument("first", nargs="?", type=int, default=0, metavar="FIRST_SEED", help="the first seed (0)")
    parser.add_argument("count", nargs="?", type=int, default=50000, metavar="COUNT", help="how many scripts (50000)")
    parser.add_argument("--processes", type=int, default=2, help="how many scripts run at once (2)")
    build_plain.add_option(parser)
    draw_script.add_options(parser)
    words = parser.parse_args()
    words.program = os.path.abspath(words.program)
    if not os.access(words.program, os.X_OK):
        parser.error(f"{words.program} isn't there: build it first")
    words.folder = tempfile.mkdtemp(prefix="compare_heaps.")
    signal.signal(signal.SIGTERM, lambda number, frame: sys.exit("compare_heaps: stopped by a signal"))
    counts = collections.Counter()
    try:
        words.plain = build_plain.plain_of(words, words.folder)
        shown = compare(words, counts)
    finally:
        shutil.rmtree(words.folder)
    if shown is not None:
        show(tempfile.mkdtemp(prefix="compare_heaps."), shown)
    print(f"{counts['scripts']} scripts ({counts['faulty']} faulty), {counts['steps']} steps, "
          f"{counts['pauses']} pauses: {counts['copied']} copied, {counts['copied_marking']} of them while marking ran, "
          f"{counts['words']} words; regions reclaimed: {counts['cleaned']} by cleanup, {counts['paused']} by pause; "
          f"{counts['marked']} cycles marked, {counts['refined']} cards refined, {counts['full']} Full; "
          f"weak slots taken: {counts['slots']}, {counts['nil_slots']} of them nil; "
          f"of the third format: {counts['third']} scripts, {counts['scopes']} frames left, "
          f"{counts['compactions']} compactions: {counts['compacted_words']} words, {counts['compacted']} regions reclaimed, "
          f"pauses within cards: {counts['pausewithin']}, young ones: {counts['young']}; "
          f"different: {counts['different']}{', stopped there' if counts['different'] >= ENOUGH else ''}")
    sys.exit(1 if counts["different"] else 0)
