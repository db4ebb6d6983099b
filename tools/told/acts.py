"""Which process each act of an operator meant, and what it came to."""

from collections import namedtuple

import scripts
from files import content

# Of the lines `at` in a script, and of the steps of a run.
MOST_EVENTS, MOST_STEPS = 4096, 1000000000


# A line of a script in which an operator acts, and the slots whose processes have that name.
Act = namedtuple("Act", "line time verb name slots")


def acts_of(program, flash, script):
    """The acts of a script, and the names of the processes by their slots."""
    names = {}
    for line in program.report(flash, script):
        if line.startswith("slot "):
            slot, name = line.split()[1:3]
            names.setdefault(name, []).append(int(slot))
    return [Act(number, int(words[1]), words[3], words[4], names.get(words[4], []))
            for number, words in scripts.lines_of(script) if words[0] == "at" and words[2] == "do"], names


def with_lists(script, acts):
    """The script with a `list` of the same name right before each act and right behind it. A list prints a line, and
    takes a step and no time; nothing else changes by it."""
    lines = content(script).split(b"\n")
    for act in acts:
        asks = b"at %d do list %s\n" % (act.time, act.name.encode())
        lines[act.line - 1] = asks + lines[act.line - 1].rstrip(b"\r") + b"\n" + asks.rstrip(b"\n")
    return b"\n".join(lines)


def came(program, flash, script, turns, acts):
    """How many of the acts that meant a process came in the run."""
    return sum(words[2] == "act" for words in program.trace(flash, script, turns, acts[-1].time))


def states(program, flash, script, turns, acts):
    """What the process of each act was before it and behind it, for those that came; for none where the script has no
    room for the lists."""
    if sum(words[0] == "at" for _, words in scripts.lines_of(script)) + 2 * len(acts) > MOST_EVENTS:
        return []
    told, steps = [], min(int(turns) + 2 * len(acts), MOST_STEPS)
    for words in program.trace(flash, "/dev/stdin", steps, acts[-1].time, with_lists(script, acts)):
        if words[2] == "act":
            told.append("")
        elif words[2] == "out" and told and not told[-1]:
            told[-1] = bytes.fromhex(words[3]).decode("ascii", "replace").split()[-1]
    return list(zip(told[::3], told[2::3]))


def outcome(verb, before, after):
    """What an act came to, by the process's state before it and behind it, where these are known."""
    if before is None:
        return ""
    if verb == "list":
        return " is " + after
    if verb == "restart":
        return " was %s, and begins anew" % before
    return " is %s, so nothing changed" % before if before == after else " was %s, and is %s" % (before, after)


def outcomes(program, flash, script, turns):
    """Says of each act of a script what it came to."""
    acts, names = acts_of(program, flash, script)
    meant = [act for act in acts if act.slots]
    number = came(program, flash, script, turns, meant) if meant else 0
    found = iter(states(program, flash, script, turns, meant)[:number] if number else [])
    others = "the names are " + ", ".join(names) if names else "there is no process"
    for act in acts:
        if not act.slots:
            what = "no process has this name; " + others
        elif number == 0:
            what = "slot %d; the run ended before that" % act.slots[0]
        else:
            number -= 1
            what = "slot %d%s" % (act.slots[0], outcome(act.verb, *next(found, (None, None))))
        if act.slots[1:]:
            what += "; slot %s has the name too" % ", ".join(map(str, act.slots[1:]))
        yield "%s line %d: at %d do %s %s: %s" % (script, act.line, act.time, act.verb, act.name, what)
