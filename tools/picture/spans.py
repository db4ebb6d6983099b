"""When the process of a lane can run, when it lives and cannot, and which of its marks have room for their names."""

from collections import deque
from itertools import takewhile

SLOTS = 16
# So many windows of a slot are drawn at most; of more none is, and the bar goes through them.
MOST_WINDOWS = 500
MOST_ROWS = 8
# What a letter is counted to be wide, in pixels.
LETTER = 6.3


def after_fault(lane, place, script):
    """Whether a process lives on behind its denial, which is the mark at a place: it does where it makes another call,
    unless an operator starts it again before; and where the script says so."""
    for mark in lane.marks[place + 1:]:
        if mark.kind == "act" and mark.text == "operator: restart":
            return script.restarts
        if mark.kind in ("call", "refused", "denied"):
            return True
    return not lane.end.startswith("faulted")


def states(lane, end, script):
    """The parts of a lane's time, each with what its process does: `runs`, `waits`, `stopped` or `ended`."""
    found, since, does, held = [], 0, "runs", False
    for place, mark in enumerate(lane.marks):
        becomes = mark.becomes
        if becomes == "faults":
            becomes = "runs" if after_fault(lane, place, script) else "ends"
        if not becomes:
            continue
        found.append((since, mark.time, "stopped" if held and does != "ended" else does))
        since = mark.time
        held = becomes == "stopped" or held and mark.kind != "act"
        does = {"ends": "ended", "runs": "runs", "waits": "waits"}.get(becomes, does)
    return found + [(since, end, "stopped" if held and does != "ended" else does)]


def windows(slot, window, begin, end):
    """The times from which and to which the windows of a slot last that lie between two times, where there are windows,
    and not too many."""
    if not window:
        return []
    first = slot * window + max(0, (begin - slot * window) // (SLOTS * window)) * SLOTS * window
    begins = range(first, end, SLOTS * window)
    if len(begins) > MOST_WINDOWS:
        return []
    return [(max(start, begin), min(start + window, end)) for start in begins if start + window > begin]


def cut(parts, begin, end):
    """The parts that lie between two times."""
    return [(max(start, begin), min(stop, end), does) for start, stop, does in parts
            if max(start, begin) < min(stop, end)]


def joined(parts):
    """The parts, where one begins at the other's end as one."""
    found = []
    for start, stop, does in parts:
        if found and found[-1][1] == start:
            start = found.pop()[0]
        found.append((start, stop, does))
    return found


def bars(lane, slot, picture):
    """The parts of a lane's line that are thick, where the process can run, and those that are thin, where it lives."""
    begin, end = picture.begin, min(picture.end, picture.last)
    lives = [part for part in cut(states(lane, picture.last, picture.script), begin, end) if part[2] != "ended"]
    runs = [part for part in lives if part[2] == "runs"]
    own = windows(slot, picture.script.window, begin, end)
    if own:
        runs = [part for start, stop in own for part in cut(runs, start, stop)]
    return joined(runs), joined(lives)


def rows_of(marks, place):
    """For each mark the row of its text: farther from the lane's line than those of the later marks that stand above
    the text, so that no line crosses it; None for one that would be too far, which has no text."""
    rows, named = [], deque()
    for mark in reversed(marks):
        x = place(mark.time)
        end = x + LETTER * len(mark.text) + 10
        row = 1 + max((row for _, row in takewhile(lambda it: it[0] < end, named)), default=-1)
        if row < MOST_ROWS:
            named.appendleft((x, row))
        rows.append(row if row < MOST_ROWS else None)
    return rows[::-1]
