"""Reads what runs wrote, and tells how each ended."""

import os
import re
from dataclasses import dataclass

# How a run ended, the first that fits, and its colour.
OUTCOMES = {"no report": "#3c4043", "nothing ran": "#b07aa1", "faulted": "#b3261e", "code not 0": "#e8a33d",
            "not done": "#a9adb5", "waits": "#5b8fd1", "ended with 0": "#1c7a3e"}
NO_REPORT, NOTHING, FAULTED, CODE, NOT_DONE, WAITS, ENDED = OUTCOMES

# The report at the end of a text; before it stands what processes printed, which may be anything.
REPORT = re.compile(rb"==\n((?:slot \d+ \S+ [^\n]*\n)*)(?:unplaced \d+ \S+\n)*leds \S+\n"
                    rb"end (done|turns) steps \d+ time (\d+)\n\Z")
STATE = re.compile(rb"slot \d+ \S+ (\w+)(?: (\d+) turns)?")
# The file in which GNU parallel keeps what a run wrote, where each has a folder.
KEPT = "stdout"


@dataclass
class Ended:
    """A run by its name: how it ended, the number in its name, and when it ended, where these are known."""
    name: str
    outcome: str
    number: int = None
    time: int = None


def outcome_of(report):
    """How a run with a report ended."""
    states = STATE.findall(report[1])
    if not states:
        return NOTHING
    if any(state == b"faulted" for state, _ in states):
        return FAULTED
    if any(state == b"terminated" and code != b"0" for state, code in states):
        return CODE
    if report[2] == b"turns":
        return NOT_DONE
    return ENDED if all(state == b"terminated" for state, _ in states) else WAITS


def name_of(path):
    """The name of the run that wrote a file."""
    folder, base = os.path.split(path)
    return os.path.basename(folder) if base == KEPT else base


def read_run(path):
    """How the run ended whose text stands in a file."""
    with open(path, "rb") as file:
        report = REPORT.search(file.read())
    name = name_of(path)
    numbers = re.findall(r"\d{1,18}", name)
    return Ended(name, outcome_of(report) if report else NO_REPORT, int(numbers[-1]) if numbers else None,
                 int(report[3]) if report else None)


def kept_in(path):
    """The files of a folder's runs, or a file itself."""
    if not os.path.isdir(path):
        return [path]
    return sorted(os.path.join(folder, KEPT) for folder, _, names in os.walk(path) if KEPT in names)


def read_runs(paths):
    """How the runs ended that stand in files, or in folders below which each has a folder of its own. They are numbered
    by their places where one of them has no number in its name."""
    runs = [read_run(file) for path in paths for file in kept_in(path)]
    if any(run.number is None for run in runs):
        for number, run in enumerate(runs, 1):
            run.number = number
    return runs
