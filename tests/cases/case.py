"""A worked example, and the ways to write one down."""

import os
import re
from dataclasses import dataclass
from inspect import cleandoc

from flash_images import *

REPOSITORY = os.path.dirname(os.path.dirname(os.path.dirname(os.path.abspath(__file__))))

DIRECTORY = "a directory"


@dataclass
class Case:
    """Without a file the name stands for nothing, or for a directory. A word may be text or bytes. A case that a
    document shows has the files of the repository."""
    name: str
    shows: str
    words: list
    status: int
    text: str
    flash: object = None
    script: object = b""
    is_in_readme: bool = False
    # What is written in place of a text.
    image: object = None
    # A case on the files that stand in examples/, which no document need show.
    is_kept: bool = False
    # Whether numbers of turns, steps and ticks, where they are the compiler's alone, stand as `..` in the text.
    is_open: bool = False

    def output(self):
        return (cleandoc(self.text) + "\n").encode() if self.image is None else self.image

    def is_met_by(self, status, output):
        """Whether a run that ended so is the one of this case."""
        pattern = re.escape(self.output())
        if self.is_open:
            pattern = pattern.replace(re.escape(b" .."), b" [0-9]+")
        return status == self.status and re.fullmatch(pattern, output) is not None

    def write_files(self, folder):
        """Puts the case's files into the folder."""
        if self.is_kept:
            os.symlink(os.path.join(REPOSITORY, "examples"), os.path.join(folder, "examples"))
        for name, content in (("flash", self.flash), ("script", self.script)):
            path = os.path.join(folder, name)
            if content == DIRECTORY:
                os.mkdir(path)
            elif content is not None:
                with open(path, "wb") as file:
                    file.write(content)


def boot(name, shows, flash, text, script=b"", turns=1000, status=0):
    """A run with these two files."""
    return Case(name, shows, ["boot", "flash", "script", "--turns", str(turns)], status, text, flash, script)


def trace(name, shows, flash, text, script=b"", turns=1000, status=0):
    """A run with these two files that tells its calls and denials."""
    return Case(name, shows, ["trace", "flash", "script", "--turns", str(turns)], status, text, flash, script)


def soak(name, shows, number, turns, text):
    """A run of the applications that are generated from a number; there is no file."""
    return Case(name, shows, ["soak", number, "--turns", str(turns)], 0, text)


def listing(name, shows, flash, text, status=0):
    """A list of this flash file; there is no script."""
    return Case(name, shows, ["list", "flash"], status, text, flash, None)


def makes(name, shows, command, flash, image, other=None):
    """A flash image is made of this flash file, and of another one that is named `script`."""
    return Case(name, shows, command.split(), 0, "", flash, other, image=image)


def makes_none(name, shows, command, flash, text, other=None, status=8):
    """No image is made of them; the words are a text or a list."""
    words = command.split() if isinstance(command, str) else command
    return Case(name, shows, words, status, text, flash, other)


def readme(name, shows, command, text):
    """A run that a document shows, with its command and its text word for word."""
    return Case(name, shows, command.split()[1:], 0, text, is_in_readme=True)


def kept(name, shows, image, script, text, command="boot", turns=100000):
    """A run on an image and a script of examples/, with its text word for word, or with `..` for a number that is the
    compiler's alone."""
    files = ["examples/images/%s.bin" % image, "examples/scripts/%s.script" % script]
    words = [command] + files + ["--turns", str(turns)]
    return Case(name, shows, words, 0, text, flash=None, script=None, is_kept=True, is_open=" .." in text)


def no_command(name, shows, *words):
    """A command line that is answered by the usage line; no file is looked for."""
    return Case(name, shows, list(words), 2, USAGE)


USAGE = ("usage: tock boot FLASH SCRIPT --turns N | trace FLASH SCRIPT --turns N"
         " | list FLASH | soak NUMBER --turns N | pack FILE .. | enable FLASH OFFSET | disable FLASH OFFSET"
         " | rename FLASH OFFSET NAME")


def tells(name, shows, code, *parts, script=b"", **of_app):
    """A run of an application that makes the parts and exits with what a1 holds then; each instruction has
    four bytes and is one turn."""
    program = assemble([*parts, exits()])
    turns = len(program) // 4
    return boot(name, shows, app(program, **of_app), script=script, text="""
        ==
        slot 0 - terminated %d turns %d restarts 0
        leds 0000
        end done steps %d time %d
    """ % (code, turns, turns, turns))
