"""The debugger, on the board as it is."""

import os
import shlex
import signal
import subprocess

from debugger.board import Refused
from session.sitting import TOOLS


def words_of(sitting, script, programs, slot):
    """The words that start it: at the step where the session is, on a slot, with its program where one is known."""
    steps = sitting.present.steps
    first = [[slot] + programs.get(slot, [])]
    others = [[other] + programs[other] for other in programs if other != slot]
    words = [os.path.join(TOOLS, "debug"), sitting.image, script]
    for group in first + others:
        words += ["--slot"] + [str(word) for word in group]
    return words + (["--", "-ex", "seek %d" % steps] if steps else [])


def slot_of(sitting, slot, usual):
    """The slot of a command's word, or the usual one; it has a process."""
    if slot is not None and not (slot.isascii() and slot.isdecimal()):
        raise Refused("this is no slot: " + slot)
    number = usual if slot is None else int(slot)
    if number not in sitting.present.state().slots:
        raise Refused("slot %d has no process" % number)
    return number


def command_of(sitting, programs, slot):
    """The command line that starts it on the script as it is saved."""
    if not sitting.out:
        raise Refused("there is no --out, so there is no file of the script to debug with")
    sitting.save(sitting.out)
    return shlex.join(words_of(sitting, sitting.out, programs, slot))


def debug(sitting, programs, slot):
    """Runs it in this terminal; its answer."""
    # An interrupt is GDB's, and not this program's.
    handler = signal.signal(signal.SIGINT, signal.SIG_IGN)
    try:
        return subprocess.call(words_of(sitting, sitting.written(sitting.text()), programs, slot),
                               preexec_fn=lambda: signal.signal(signal.SIGINT, signal.SIG_DFL))
    finally:
        signal.signal(signal.SIGINT, handler)
