#!/usr/bin/env python3
"""Records that can't be opened or written, by g1record.py: what fails is raised, and a record that failed takes no more lines.

    tests/recorder/broken.py PATH MUTATORS [EVENT]

Opens a record at the path, and where that works writes the event and one more. Prints what was raised by each.
"""
import sys
from pathlib import Path

sys.dont_write_bytecode = True
sys.path.insert(0, str(Path(__file__).resolve().parent.parent.parent / "recorder"))
from g1record import Record  # noqa: E402


def raised(call, *words):
    try:
        call(*words)
    except (OSError, ValueError) as fault:
        return "OSError" if isinstance(fault, OSError) else "ValueError"
    return "none"


def main(path, mutators, *events):
    told = [raised(lambda: made.append(Record(path, 1000, int(mutators), 1, 4)))]
    for record in made:
        told += [raised(record.event, event) for event in (*events, "0 new r0 1 1 = #0")] + [raised(record.close), raised(record.close)]
    print(*told)


if __name__ == "__main__":
    made = []
    main(*sys.argv[1:])
