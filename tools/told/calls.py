"""What the trace of a run tells of its processes: calls that were refused, first denials, and who never yields."""

from collections import Counter
from dataclasses import dataclass, field

from picture.trace import call_text

# A run is looked at for so many steps: a long one is not made twice.
MOST_STEPS = 1000000
# So many kinds of refused calls are told of a process.
MOST_KINDS = 4
# How many words a line of the trace has for a call that was refused, the last of which is the rule.
REFUSED_WORDS = 14
SUBSCRIBES, NULL = ["call", "1"], "00000000"


@dataclass
class Denial:
    """A line of the trace that tells a denial."""
    access: str
    address: int
    rule: str


@dataclass
class Process:
    """What a run told of the process in a slot: refused calls, each by its rule and by class, driver and number, the
    first denial, the upcalls that it subscribed, whether it ever yielded, and how it ended."""
    refused: Counter = field(default_factory=Counter)
    subscribed: dict = field(default_factory=dict)
    denial: Denial = None
    has_yielded: bool = False
    name: str = "-"
    state: str = ""
    turns: int = 0
    dropped: int = 0


class Run:
    """A run, by its trace."""

    def __init__(self, program, flash, script, turns):
        self.files, self.steps, self.is_whole = (flash, script), min(int(turns), MOST_STEPS), True
        self.processes = {}
        for words in program.words("trace", flash, script, "--turns", str(self.steps)):
            if words[0].startswith("@"):
                self.add_event(words)
            elif words[0] == "slot":
                self.add_end(words)
            elif words[0] == "end":
                self.is_whole = words[1] == "done" or self.steps == int(turns)

    def of(self, slot):
        return self.processes.setdefault(int(slot), Process())

    def add_event(self, words):
        """Takes in a line of what happened."""
        process = self.of(words[1])
        if words[2] == "denied" and process.denial is None:
            process.denial = Denial(words[3], int(words[4], 16), words[5])
        elif words[2:4] == ["call", "0"]:
            process.has_yielded = True
        elif words[2] == "call" and len(words) == REFUSED_WORDS:
            process.refused[words[-1], words[3], words[4], words[5]] += 1
        elif words[2:4] == SUBSCRIBES and words[6] != NULL:
            process.subscribed[int(words[4], 16), int(words[5], 16)] = True

    def add_end(self, words):
        """Takes in a process's line of the report."""
        process = self.of(words[1])
        process.name, process.state = words[2:4]
        process.turns = int(words[words.index("turns", 4) + 1])
        process.dropped = int(words[-1]) if words[-2] == "dropped" else 0

    def part(self):
        """Where the run was not looked at as a whole, how far it was, as the end of a sentence."""
        return "" if self.is_whole else " in the first %d steps" % self.steps


def times(count):
    """How often something was, where that was not once."""
    return " (%d)" % count if count > 1 else ""


def call_name(kind, first, second):
    """A call by its class and the first two arguments."""
    return call_text(int(kind), int(first, 16), int(second, 16), ("", "")).replace(": ", " ")


def refusals(refused):
    """Kinds of refused calls, those of a rule together."""
    by_rule = {}
    for (rule, *call), count in list(refused.items())[:MOST_KINDS]:
        by_rule.setdefault(rule, []).append(call_name(*call) + times(count))
    told = ["%s: %s" % (rule, ", ".join(calls)) for rule, calls in by_rule.items()]
    return "; ".join(told + ["other kinds: %d" % (len(refused) - MOST_KINDS)] * (len(refused) > MOST_KINDS))


def refused_calls(run):
    """Says of each process whose calls were refused how many, by which rule, and which they were."""
    for slot, process in sorted(run.processes.items()):
        count = sum(process.refused.values())
        if count:
            yield "slot %d %s: %d call%s refused%s; %s" % (
                slot, process.name, count, "s" * (count > 1), run.part(), refusals(process.refused))
