"""What the modules of tools/measure share: where things are, and how instructions are counted."""
import os
import re
import subprocess
import sys

HERE = os.path.dirname(os.path.abspath(__file__))
TOP = os.path.dirname(os.path.dirname(HERE))
PROGRAM = os.path.join(TOP, "crates", "g1heap", "out", "g1heap")


def program_of(parser, words):
    """The built program that the words name."""
    program = os.path.abspath(words.program)
    if not os.access(program, os.X_OK):
        parser.error(f"{program} isn't there: build it first")
    return program


def instructions(*command, may_fail=False):
    """How many instructions a command takes, by callgrind."""
    words = ["valgrind", "--tool=callgrind", "--callgrind-out-file=/dev/null", *map(str, command)]
    done = subprocess.run(words, stdout=subprocess.DEVNULL, stderr=subprocess.PIPE, text=True, check=False)
    found = re.search(r"Collected : (\d+)", done.stderr)
    if found is None or (done.returncode != 0 and not may_fail):
        sys.exit(f"{' '.join(map(str, command))}: status {done.returncode}\n{done.stderr}")
    return int(found[1])


def write_apart(folder, names):
    """Writes scripts by a process of its own: what this one has taken would count as a child's largest resident set."""
    subprocess.run([sys.executable, os.path.join(HERE, "cost_scripts.py"), folder, *names], check=True)
