"""The lives of heaps by the plain heap: what plain/plain_life.cpp prints, read. For tools/check_page and tools/check_views."""
import subprocess
from pathlib import Path

HERE = Path(__file__).resolve().parent


class Moment:
    """A heap after some event, as lines of words: those of the heap, and of each region its own."""

    def __init__(self, line):
        self.event = int(line.split()[1])
        self.lines = [line]
        self.regions = []

    def add(self, line):
        if line.startswith("r "):
            self.regions.append([line])
        elif line[0] in "soxyz":
            self.regions[-1].append(line)
        else:
            self.lines.append(line)

    def words(self, letter):
        """The words after a letter, of each line that begins with it."""
        return [line.split()[1:] for line in self.lines if line[0] == letter]


def build(folder):
    """Compiles the plain heap, and answers the path of the program."""
    path = Path(folder) / "plain_life"
    subprocess.run(["g++", "-O2", "-std=c++17", "-o", path, HERE / "plain_life.cpp"], check=True)
    return path


def lives_of(plain, script, events=()):
    """What the plain heap is after each event of a script, or after these alone, by event."""
    told = subprocess.run([plain, script, *map(str, events)], capture_output=True, text=True, check=True).stdout
    lives, moment = {}, None
    for line in told.splitlines():
        if line.startswith("m "):
            moment = Moment(line)
            lives[moment.event] = moment
        else:
            moment.add(line)
    return lives


class Sizes:
    """What a script's first line says."""

    def __init__(self, line):
        self.line = line
        numbers = [int(word) for word in line.split()[1:]]
        self.regions, self.words, self.buffer, self.mutators, self.first_name = numbers[:5]
        self.card, self.globals, self.registers = [*numbers[5:], *[8, 16, 8][len(numbers) - 5:]]
