"""Checks that programs in the form of libtock-c's examples, in tests/forms, are built as they are and run usefully.
`checks` gives each with its name, for tests/run."""

import os
import re
import shutil
import tempfile
from dataclasses import dataclass

from building import make, ran
from common import REPOSITORY, write

FORMS = os.path.join(REPOSITORY, "tests", "forms")
BUTTONS = "buttons 2\nat 5000 press 0\nat 10000 release 0\nat 15000 press 1\n"


@dataclass
class Form:
    """A program of tests/forms: a word after make, what its script has, and a pattern of what its run writes."""
    name: str
    word: str
    script: str
    told: str


PROGRAMS = [
    Form("button_print", "STACK=2048", BUTTONS, r"""\[TEST\] Button Press
There are 2 buttons on this board\.
Button Press! Button: 0 Status: 1
Button Press! Button: 0 Status: 0
Button Press! Button: 1 Status: 1
==
slot 0 own yielded """),
    Form("crash_dummy", "STACK=2048", BUTTONS, r"crashes\n==\nslot 0 own faulted store 00000000 no-region "),
    Form("hello_loop", "TICKS_PER_MS=1000", "", "".join("%d: Hello World!\n" % time for time in range(20))),
    Form("multi_alarm_simple", "TICKS_PER_MS=1000", "", r"(1 \d+ \d+\n2 \d+ \d+\n){10}"),
    Form("printf_long", "STACK=2048", "", r"""Hi welcome to Tock\. This .* message can be printed\.
And a short message\.
==
slot 0 own terminated 0 """),
    Form("stack_growth", "STACK=2048", "", r"""
\[TEST\] MPU Stack Growth
This test .*
the available .*

  mem_start: 0x80000000
(stack: 0x80000\w+, size: \d+\n)+==
slot 0 own faulted store 7fff\w+ no-region """),
    Form("storage", "STACK=4096", "storage 4096\n", r"""\[Nonvolatile Storage\] Test App
Have 4096 bytes of nonvolatile storage
Test with size 256 \.\.\.
(Test with size 512 \.\.\.\n){2}\tERROR calling write: .*
All tests succeeded
==
slot 0 own terminated 0 """),
]


def is_late(text):
    """Whether a line of multi_alarm_simple tells of an alarm that came 2 ms after its time, or later."""
    return any(int(now) - int(time) >= 2000 for now, time in re.findall(r"^[12] (\d+) (\d+)$", text, re.M))


def runs(program, form):
    """What is wrong with the run of a program, or None."""
    with tempfile.TemporaryDirectory() as folder:
        os.mkdir(os.path.join(folder, "own"))
        shutil.copy(os.path.join(FORMS, form.name + ".c"), os.path.join(folder, "own", "main.c"))
        write(folder, "script", form.script)
        end = make(folder, form.word)
        image = os.path.join(folder, "own", "own.bin")
        text = end.stderr if end.returncode else ran(program, image, script=os.path.join(folder, "script"))
    return None if re.match(form.told, text) and not is_late(text) else repr(text[:2000])


def checks(program):
    """Each check with its name."""
    return [("form-" + form.name, lambda form=form: runs(program, form)) for form in PROGRAMS]
