"""`check - --follow` on records that come through a pipe, beside `check` on the same file.

    tools/measure follow [PROGRAM] [--runs 3] [--events 10000000]

Each record makes some objects first, and then takes steps on eight registers; two take a fifth of the steps, to show that events cost no
memory. The times are processor seconds of the program alone, the best of some runs in turns. Memory is its largest
resident set, in bytes, the program itself included, which the record of eight objects shows; the bar is 16 an object and 8 a field more.
"""
import argparse
import os
import subprocess
import sys
import tempfile
import time

from measuring.counting import PROGRAM, program_of

HEAP = "heap2 1024 16384 64 1 0 8\n"
# Objects, pointers, data words; and which share of the events is taken.
RECORDS = ((8, 1, 1, 5), (8, 1, 1, 1), (1000000, 2, 2, 5), (1000000, 2, 2, 1), (100000, 30, 30, 1))
STEPS = ("0 write r0 0 7 = ok", "0 read r0 0 = 7", "0 put r0 0 r1 = ok", "0 get r2 r0 0 = #%(second)d", "0 move r3 r2 = ok",
         "0 put r3 0 nil = ok", "0 get r4 r3 0 = nil", "0 drop r3 = ok")


def write_record(path, objects, pointers, values, events):
    """A record that makes objects, the last eight of them in the registers, and goes on in turns of eight steps."""
    with open(path, "w") as file:
        file.write(HEAP)
        for start in range(0, min(objects, events), 10000):
            file.write("".join(f"{count + 1} 0 new r{count % 8} {pointers} {values} = #{count}\n"
                               for count in range(start, min(start + 10000, objects, events))))
        # The object that a register names, where 8 divides the objects: the last eight.
        steps = [step % {"second": objects - 7} if "%" in step else step for step in STEPS]
        for start in range(objects + 1, events + 1, 10000):
            file.write("".join(f"{count} {steps[(count - objects - 1) % 8]}\n" for count in range(start, min(start + 10000, events + 1))))


def largest(process):
    """The largest resident set of a process so far, of what it runs alone; None where it has ended."""
    with open(f"/proc/{process}/status") as file:
        for line in file:
            if line.startswith("VmHWM:"):
                return int(line.split()[1]) * 1024
    return None


def used(words, source=None):
    """The processor seconds of one run, its largest resident set in bytes, and what it wrote."""
    read, write = os.pipe()
    actions = [(os.POSIX_SPAWN_DUP2, write, 1), (os.POSIX_SPAWN_CLOSE, read)]
    feeder = None
    if source:
        feeder = subprocess.Popen(["cat", source], stdout=subprocess.PIPE)
        actions.append((os.POSIX_SPAWN_DUP2, feeder.stdout.fileno(), 0))
    process = os.posix_spawn(words[0], words, os.environ, file_actions=actions)
    os.close(write)
    if feeder:
        feeder.stdout.close()
    room = 0
    while os.waitid(os.P_PID, process, os.WEXITED | os.WNOHANG | os.WNOWAIT) is None:
        room = largest(process) or room
        time.sleep(0.002)
    _, status, usage = os.wait4(process, 0)
    out = os.read(read, 1000).decode()
    os.close(read)
    if feeder:
        feeder.wait()
    if status != 0:
        sys.exit(f"{words}: status {os.waitstatus_to_exitcode(status)}, {out!r}")
    return usage.ru_utime + usage.ru_stime, room, out


def main():
    parser = argparse.ArgumentParser(description=__doc__, formatter_class=argparse.RawDescriptionHelpFormatter)
    parser.add_argument("program", nargs="?", default=PROGRAM, help="the program (crates/g1heap/out/g1heap)")
    parser.add_argument("--runs", type=int, default=3, help="runs of each record (3)")
    parser.add_argument("--events", type=int, default=10000000, help="events of a record (10000000)")
    words = parser.parse_args()
    program = program_of(parser, words)
    follow = [program, "check", "-", "--follow"]
    with tempfile.TemporaryDirectory(prefix="measure_follow.") as folder:
        record = os.path.join(folder, "given.record")
        print("objects | fields | events | check s | follow s | ratio | check bytes | follow bytes | bar")
        print("---|---|---|---|---|---|---|---|---")
        for objects, pointers, values, share in RECORDS:
            events = words.events // share
            write_record(record, objects, pointers, values, events)
            done = [(used([program, "check", record]), used(follow, record)) for _ in range(words.runs)]
            if any(out != f"yes {events}\n" for pair in done for _, _, out in pair):
                sys.exit(f"not yes: {done}")
            check, followed = (min(pair[place][0] for pair in done) for place in range(2))
            room, followed_room = (max(pair[place][1] for pair in done) for place in range(2))
            bar = objects * (16 + 8 * (pointers + values))
            print(f"{objects} | {pointers + values} | {events} | {check:.2f} | {followed:.2f} | {followed / check:.2f} | {room} | {followed_room} | {bar}",
                  flush=True)
