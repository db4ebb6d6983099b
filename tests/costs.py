"""That bench/README.md tells what bench/run counts. `checks` gives the check with its name, for tests/run."""

import os
import re
import shutil

from cases.case import REPOSITORY
from common import contents, run

# By how much of itself a number may be another one: on another processor the C library may take another way.
NEAR = 0.01


def told():
    """The machine instructions in a step of each load that the page tells of."""
    page = contents(os.path.join(REPOSITORY, "bench", "README.md")).decode()
    return {name: float(number) for name, number in re.findall(r"^\| ([\w, ]+) \| (\d+\.\d) \|", page, re.M)}


def as_counted(program):
    """The page has each load that is counted, and its number; and no others."""
    end = run([os.path.join(REPOSITORY, "bench", "run"), "--count", program], timeout=1000)
    counted = {line[:24].rstrip(): float(line[24:]) for line in end.stdout.splitlines()}
    page = told()
    wrong = [name for name in sorted({*counted, *page})
             if not (name in page and abs(counted.get(name, 0) - page[name]) <= NEAR * page[name])]
    if end.returncode or end.stderr or not counted:
        return end.stderr or "nothing is counted"
    return "bench/README.md, in place of %s: %s" % (counted, ", ".join(wrong)) if wrong else None


def checks(program):
    """The check with its name."""
    if shutil.which("valgrind"):
        return [("costs", lambda: as_counted(program))]
    print("costs: not tried without valgrind")
    return []
