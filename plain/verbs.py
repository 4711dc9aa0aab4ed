"""The steps of scripts and records, a row for each: the one table of verbs, words and replies for what reads, judges and counts them in
Python. docs/TEXTS.md says what they do."""
import re
from typing import NamedTuple

REFUSALS = ("1 Nil", "2 NoField", "3 Full", "4 TooBig", "5 NamesSpent", "6 MarkRunning", "7 NotMarking")
LARGEST = 2 ** 64 - 1
# The largest numbers of each kind but a register's, R, and a global's, G. S is a register or nil; B a count of weak slots.
LIMITS = {"N": 2 ** 32 - 1, "W": 2 ** 32 - 1, "L": LARGEST, "B": 255}


class Step(NamedTuple):
    """A verb; the words after it, by their kinds; the replies where the step is done; and the numbers of those where it is refused."""
    verb: str
    words: str
    done: str
    refused: str = ""
    is_third: bool = False  # of the third format alone
    background: str = ""    # the letter of the background actors that take it too

    def form(self):
        return f"{self.verb} {self.words}".rstrip()

    def replies(self):
        return self.done.split(" or ") + [f"refused {REFUSALS[int(number) - 1]}" for number in self.refused.split()]


MUTATOR = (
    Step("new", "R N N", "#L", "4 5 3"),
    Step("newweak", "R N B N", "#L", "4 5 3"),
    Step("get", "R R N", "#L or nil", "1 2"),
    Step("getweak", "R R N", "#L or nil", "1 2"),
    Step("put", "R N S", "ok", "1 2"),
    Step("putweak", "R N S", "ok", "1 2"),
    Step("read", "R N", "L", "1 2"),
    Step("write", "R N L", "ok", "1 2"),
    Step("move", "R R", "ok"),
    Step("drop", "R", "ok"),
    Step("load", "R G", "#L or nil"),
    Step("save", "G R", "ok"),
    Step("scope", "R", "ok", is_third=True),
    Step("shape", "R", "N W", "1"),
    Step("weaks", "R", "L", "1"),
)
COLLECTOR = (
    Step("begin", "", "ok", "6"),
    Step("mark", "N", "ok", "7", background="m"),
    Step("remark", "", "marked N", "7"),
    Step("cleanup", "", "reclaimed N", "6"),
    Step("refine", "N", "refined N", background="f"),
    Step("pause", "N", "moved N W"),
    Step("compact", "N", "moved N W", is_third=True),
    Step("pausewithin", "N N", "moved N W", is_third=True),
    Step("young", "N N", "moved N W", is_third=True),
    Step("clear", "N", "ok", is_third=True),
)


# The line of each verb, to be filled with its actor and numbers.
LINES = {step.verb: " ".join(["%s", step.verb, *({"R": "r", "S": "r", "G": "g"}.get(kind, "") + "%s" for kind in step.words.split())])
         for step in MUTATOR + COLLECTOR}


def line(actor, verb, *numbers):
    """A line of a script. The last number may be None, for nil."""
    if numbers[-1:] == (None,):
        return LINES[verb].removesuffix("r%s") % (actor, *numbers[:-1]) + "nil"
    return LINES[verb] % (actor, *numbers)


def steps_of(actor, is_third):
    """The steps of an actor in a format: of `gc`, of a mutator, or of a background actor by its letter."""
    if actor in ("m", "f"):
        return [it for it in COLLECTOR if it.background == actor]
    return [it for it in (COLLECTOR if actor == "gc" else MUTATOR) if is_third or not it.is_third]


def told(steps):
    """The verbs, as a sentence has them."""
    verbs = [it.verb for it in steps]
    return " or ".join([", ".join(verbs[:-1]), verbs[-1]] if verbs[1:] else verbs)


def pattern_of(form, number=r"\d+"):
    """A form as a pattern, whose numbers are so."""
    register = "r" + number
    kinds = {"R": register, "G": "g" + number, "S": f"(?:{register}|nil)", **dict.fromkeys(LIMITS, number)}
    return re.sub(r"\b[A-Z]\b", lambda found: kinds[found[0]], form)
