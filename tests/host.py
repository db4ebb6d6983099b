"""What the host may do to a run: less stack than it needs, a reader that goes, a signal. `checks` gives each check with
its name, for tests/run."""

import os
import resource
import subprocess
import tempfile

from cases.case import REPOSITORY
from cases.programs import EXIT_7, SPINS
from common import TOCK, write
from flash_images import app, exits, padding

# The stack with which everything is done, in KiB: Linux gives 8192. And smaller ones, down to one in which a run of a
# board has no room for its buffer of 16 KiB.
ENOUGH, LESS = 256, [64, 16]
FLASH_SIZE, SCRIPT_SIZE = 1 << 20, 1 << 18


def largest_image():
    """As many bytes, objects and applications as an image may have."""
    front = SPINS * 16 + padding(64) * 47
    return front + app(exits(), size=FLASH_SIZE - len(front))


def longest_script():
    """As many bytes, and lines of each kind, as a script may have."""
    lines = ["ram 262144", "leds 16", "buttons 16", "slice 1000000", "start 4294967295", "uart 1000", "storage 4096",
             "policy threshold 4294967295", "filter strict"]
    lines += ["storage-fault %d" % number for number in range(1, 65)] + ["random " + "0123abcd " * 64] * 64
    events = ["input 6869", "press %d", "release %d", "do list spins"]
    lines += ["at %d %s" % (number // 8, events[number % 4].replace("%d", str(number % 16))) for number in range(4096)]
    text = "\n".join(lines) + "\n#"
    return text + "-" * (SCRIPT_SIZE - len(text))


# The runs that take most of each: bytes of files, lines, files.
RUNS = [["boot", "flash", "script", "--turns", "1000"], ["trace", "flash", "script", "--turns", "200"],
        ["list", "flash"], ["rename", "flash", "0", "other"], ["pack"] + ["one"] * 64, ["soak", "1", "--turns", "5000"]]


def write_files(folder):
    """The files of these runs."""
    write(folder, "script", longest_script())
    for name, content in (("flash", largest_image()), ("one", EXIT_7)):
        with open(os.path.join(folder, name), "wb") as file:
            file.write(content)


def ended(program, words, folder, stack=None):
    """How a run ends, with so much stack: its status, below 0 for a signal, and what it wrote."""
    def limit():
        if stack:
            resource.setrlimit(resource.RLIMIT_STACK, (stack * 1024, stack * 1024))
    end = subprocess.run([program] + words, cwd=folder, stdout=subprocess.PIPE, stderr=subprocess.DEVNULL, timeout=300,
                         env={}, preexec_fn=limit)
    return end.returncode, end.stdout


def is_front(end, whole):
    """Whether a run was ended by a signal, and wrote a part of the text from its beginning on."""
    return end[0] < 0 and whole[1].startswith(end[1])


def little_stack(program):
    """With 256 KiB of stack all is done. With less it is done too, or a signal ends it, as it ends a run of a board in
    16 KiB: what was written is never another text."""
    with tempfile.TemporaryDirectory() as folder:
        write_files(folder)
        for words in RUNS:
            whole = ended(program, words, folder)
            if whole[0] != 0 or ended(program, words, folder, ENOUGH) != whole:
                return "%s: not done with %d KiB of stack" % (words[0], ENOUGH)
            ends = [ended(program, words, folder, stack) for stack in LESS]
            is_done = ends[-1] == whole and "--turns" in words
            if is_done or not all(end == whole or is_front(end, whole) for end in ends):
                return "%s: with less stack: %s" % (words[0], [status for status, _ in ends])
    return None


def reader_that_goes(program):
    """A reader that has gone is an output that fails: 6, and no signal."""
    reads, writes = os.pipe()
    os.close(reads)
    end = subprocess.run([program, "soak", "1", "--turns", "0"], stdout=writes, timeout=100)
    os.close(writes)
    return None if end.returncode == 6 else "answered %d" % end.returncode


def killed():
    """./tock answers 128 and the number of the signal where one ended the program."""
    with tempfile.TemporaryDirectory() as folder:
        write(folder, "killed", "#!/bin/sh\nkill -9 $$\n", 0o755)
        environment = dict(os.environ, TOCK_PROGRAM=os.path.join(folder, "killed"))
        end = subprocess.run([TOCK, "soak", "1", "--turns", "0"], cwd=REPOSITORY, env=environment, capture_output=True)
    return None if (end.returncode, end.stdout) == (137, b"") else "answered %d, %r" % (end.returncode, end.stdout)


def checks(program):
    """Each check with its name."""
    return [("little-stack", lambda: little_stack(program)), ("reader-that-goes", lambda: reader_that_goes(program)),
            ("killed", killed)]
