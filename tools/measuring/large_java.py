"""What OpenJDK's G1 takes where tools/measuring/large_costs.c has its rows, by tools/measuring/large.java and the collector's log."""
import os
import re
import shutil
import subprocess
import sys

from measuring.counting import HERE
from measuring.large_table import Row

NAME = "OpenJDK's G1"
# One thread for each task; references of 64 bits; no cycle but those that are asked for; what survives a young pause is old then; a mixed
# pause takes one old region, whatever it gives back.
FLAGS = ["-XX:+UseG1GC", "-XX:ParallelGCThreads=1", "-XX:ConcGCThreads=1", "-XX:G1ConcRefinementThreads=1", "-XX:-UseCompressedOops",
         "-XX:+ExplicitGCInvokesConcurrent", "-XX:InitiatingHeapOccupancyPercent=100", "-XX:-G1UseAdaptiveIHOP", "-XX:+AlwaysTenure",
         "-XX:+UnlockExperimentalVMOptions", "-XX:G1OldCSetRegionThresholdPercent=0", "-XX:G1MixedGCCountTarget=1000000",
         "-XX:G1HeapWastePercent=0"]
BEGIN, MARK, REMARK, EMPTY = "Pause Young (Concurrent Start)", "Concurrent Mark From Roots", "Pause Remark", "Reclaim Empty Regions"
REBUILD, CLEANUP, CLEAR = "Concurrent Rebuild Remembered Sets", "Pause Cleanup", "Concurrent Cleanup for Next Mark"
YOUNG, MIXED = "Pause Young (Normal)", "Pause Young (Mixed)"
# Shapes of large.java, each with the names of its rows and the phases of the log that are added up for a row.
MARKED = [("list", "a list"), ("tree", "a tree in order"), ("drawn", "a tree in drawn order")]
SHAPES = {
    "empty": {"begin, empty": (BEGIN,), "cleanup, empty": (EMPTY, CLEANUP), "pause 0, empty": (YOUNG,)},
    **{shape: {f"begin, {name}": (BEGIN,), f"marking, {name}": (MARK,), f"remark, {name}": (REMARK,),
               f"begin after marking {name}": (CLEAR, BEGIN), f"cleanup, {name}": (EMPTY, CLEANUP)} for shape, name in MARKED},
    "garbage": {"cleanup, regions that were never marked": (EMPTY, CLEANUP)},
    "few": {"pause of one region, few fields": (MIXED,)},
    "apart": {"pause of one region, fields all over": (MIXED,), "remembered sets made anew, fields all over": (REBUILD,)},
    "net": {"pause of one region, fields at random": (MIXED,), "remembered sets made anew, fields at random": (REBUILD,)},
    "many": {"pause of 100 MB": (YOUNG,)},
}
# The rows that say the same of both, and so have a ratio; and those of them that do if regions are as large.
SAME = [*(f"marking, {name}" for _, name in MARKED), "pause of 100 MB"]
SAME_OF_REGIONS = ["cleanup, regions that were never marked", "pause of one region, fields all over",
                   "pause of one region, fields at random"]
SMALLEST_REGION, LARGEST_REGION = 1 << 20, 32 << 20
ABOUT = f"""
{NAME} has as many bytes, as many regions but of 1 MiB at least, one thread for each of its tasks, and objects of as many words: a
header of 16 bytes, 3 references of 8 bytes, where 4 are its default, and 11 longs. Its times are those of its log, by the clock, so other
work on the machine is in them; g1heap's and plain's are processor times. Its memory has the virtual machine's in it, some 40 MB. What is
beside what:
- marking: its concurrent marking, while the program waits. Both count the live words of each region.
- pause of one region: a mixed pause that takes one old region, and 4 young ones without survivors. It has no ratio where regions differ.
- pause of 100 MB: a young pause. g1heap's takes old regions.
- cleanup: the part of its remark that frees regions without live objects, and its pause 'Cleanup'.
The other rows have no ratio, since most of their time goes to what only one of the two does:
- begin: the young pause that starts marking. After a marking also the clearing of marks, which it does beside the program.
- remark: it also looks through weak references, tables of the virtual machine and classes.
- pause 0: a young pause without survivors. It frees 4 regions and visits the roots of the virtual machine, as its other pauses do.
- start: a process and its virtual machine, with the heap asked for, in processor time; g1heap's row is 'make'.
- remembered sets made anew: after a marking it looks through all live objects; g1heap refines cards, and keeps its sets."""


def region_of(bytes_of_region):
    """The bytes of G1's regions where others have so many."""
    return min(max(bytes_of_region, SMALLEST_REGION), LARGEST_REGION)


def rows_apart(bytes_of_region):
    """The rows without a ratio, where others' regions have so many bytes."""
    same = SAME + SAME_OF_REGIONS if region_of(bytes_of_region) == bytes_of_region else SAME
    return {(NAME, row) for rows in SHAPES.values() for row in rows if row not in same}


def compile_java(folder):
    """Compiles large.java, or answers False where there is no JDK."""
    if not shutil.which("javac") or not shutil.which("java"):
        return False
    done = subprocess.run(["javac", "-d", folder, os.path.join(HERE, "large.java")], capture_output=True, text=True, check=False)
    if done.returncode != 0:
        sys.exit(done.stderr)
    return True


def run_shape(folder, shape, objects, size, region):
    """Runs a shape in a heap of this many bytes, and answers its log, its processor seconds and the bytes that were resident at its end."""
    log = os.path.join(folder, "large.log")
    young = 320 << 20 if shape == "many" else 4 * region
    heap = [f"-Xms{size}", f"-Xmx{size}", f"-Xmn{young}", f"-XX:G1HeapRegionSize={region}"]
    command = ["java", *FLAGS, *heap, f"-Xlog:gc*,gc+phases=debug:file={log}:none:filecount=0", "-cp", folder, "Large"]
    with subprocess.Popen([*command, shape, str(objects), str(region)], stdout=subprocess.PIPE, text=True) as run:
        said = run.stdout.read()
        status, took = os.wait4(run.pid, 0)[1:]
        run.returncode = os.waitstatus_to_exitcode(status)
    if run.returncode != 0:
        sys.exit(f"large.java, {shape} of {objects}: status {run.returncode}")
    with open(log) as file:
        return file.read(), took.ru_utime + took.ru_stime, int(said)


def collections_of(log, shape, phase):
    """The numbers of the collections that count for a phase, each with its seconds."""
    found = re.findall(rf"^GC\((\d+)\) {re.escape(phase)}(?: .*)? ([\d.]+)ms$", log, re.M)
    seconds = {int(number): float(time) / 1e3 for number, time in found}
    if phase == YOUNG:
        return seconds
    if phase == MIXED:
        # Each takes one old region. The one that is meant has least in it.
        copied = {int(number): int(size) for number, size in re.findall(r"^GC\((\d+)\) +Copied Bytes +Min: (\d+)", log, re.M)}
        meant = min(seconds, key=copied.get)
    elif shape == "garbage":
        # One cycle frees all.
        freed = {int(number): int(before) - int(after) for number, before, after in
                 re.findall(r"^GC\((\d+)\) Pause Remark (\d+)M->(\d+)M", log, re.M)}
        meant = max(seconds, key=freed.get)
    else:
        # The first one made objects old.
        del seconds[min(seconds)]
        return seconds
    return {meant: seconds[meant]}


def rows_of(folder, size, region, objects):
    """The rows of one run of each shape; of several collections that do the same each phase's best counts."""
    rows = {}
    for name, heap, of in (("start, with this heap", size, region), ("start, with a heap of 16 MiB", 16 << 20, 1 << 20)):
        seconds, resident = run_shape(folder, "start", 0, heap, of)[1:]
        rows[name] = Row(seconds, seconds, "step", resident)
    for shape, wanted in SHAPES.items():
        if shape == "many" and size < 1 << 30:
            continue
        log, _, resident = run_shape(folder, shape, objects, size, region)
        for name, phases in wanted.items():
            seconds = sum(min(collections_of(log, shape, phase).values()) for phase in phases)
            part, parts = ("object", objects) if phases == (MARK,) else ("word", 13107200) if shape == "many" else ("step", 1)
            rows[name] = Row(seconds, seconds / parts, part, resident)
    return rows
