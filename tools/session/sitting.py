"""A person at the board: commands, each of which is done in the present."""

import importlib.machinery
import importlib.util
import os
import re
import sys
import tempfile

from debugger.board import Refused
from session.present import MOST_STEPS, BrokenRule, Present
from session.recorded import HEADING, Event, Recorded, write_whole

TOOLS = os.path.dirname(os.path.dirname(os.path.abspath(__file__)))
# A script's lines `at` and bytes at most, and how many of them the line in front may have.
MOST_EVENTS, MOST_BYTES, MOST_HEADING = 4096, 262144, 100
DURATION = re.compile(r"(\d{1,10})(ms|s|)$")
# A board without a script has buttons.
FIRST = "buttons 4\n"
# What a person does at the board; each makes a line of the script, or more.
DEEDS = ("type", "send", "press", "release", "tap", "list", "stop", "start", "terminate", "restart")
HELP = """type TEXT          the text and a line feed come in on the serial line
send TEXT          the text alone; escapes as in C: \\n \\r \\t \\0 \\\\ and \\xHH
press B, release B, tap B [TICKS]
list NAME, stop NAME, start NAME, terminate NAME, restart NAME
                   an operator's act
run TICKS          goes on; ticks may be ms, or s of 1,000
step [N]           makes a step, or N of them
back TICKS, to T   goes back in time; to a time, back or on
later drop, later keep
                   whether a new event drops what was done later in a time from which one went back (drop)
undo               takes back the last change of the script, at the time where it was
report, script     writes the report; the script
save [FILE]        saves the script
picture FILE       saves the screen as a picture, in SVG
debug [S]          GDB at this step, on slot S
quit"""


def script_tool():
    """The module of tools/script, which knows what a person may do."""
    path = os.path.join(TOOLS, "script")
    loader = importlib.machinery.SourceFileLoader("script_tool", path)
    module = importlib.util.module_from_spec(importlib.util.spec_from_loader("script_tool", loader))
    sys.modules["script_tool"] = module
    loader.exec_module(module)
    return module


SCRIPT = script_tool()


def reason_of(text, number, rule):
    """Why a script is refused, by the number of a line and the script's word of the rule that this breaks."""
    if os.path.join(TOOLS, "told") not in sys.path:
        sys.path.insert(0, os.path.join(TOOLS, "told"))
    from scripts import REASONS
    lines = [(place, line.split()) for place, line in enumerate(text.split("\n"), 1)]
    lines = [(place, line) for place, line in lines if line and not line[0].startswith("#")]
    line = next(line for place, line in lines if place == number)
    before = [found for found in lines if found[0] < number]
    return "line %d of the script is refused: %s: %s" % (number, rule, REASONS[rule](line, before))


def ticks_of(word):
    match = DURATION.match(word)
    if not match:
        raise Refused("this is no number of ticks, ms or s: " + word)
    return int(match[1]) * (1000 if match[2] == "s" else 1)


class Sitting:
    """The board in its present, its script, and what was done."""

    def __init__(self, look, image, script, out):
        self.image, self.out, self.changes = image, out, []
        self.drops_later, self.is_over = True, False
        self.is_saved, self.is_changed = True, False        # as the script is now; whether it ever was another one
        # Each command with the numbers of words that may follow; who shows the session adds its own.
        self.commands = {"run": (self.run, (1,)), "back": (self.back, (1,)), "to": (self.to, (1,)),
                         "step": (self.step, (0, 1)), "later": (self.later, (1,)), "undo": (self.undo, (0,)),
                         "report": (self.report, (0,)), "script": (self.script, (0,)), "save": (self.save_as, (0, 1)),
                         "help": (lambda: HELP.split("\n"), (0,)), "quit": (self.quit, (0,))}
        text = FIRST
        if script is not None:
            with open(script, encoding="latin-1", newline="\n") as file:
                text = file.read()
        self.folder, self.present = tempfile.TemporaryDirectory(prefix="live-"), None
        try:
            self.present = self.opened(look, text)
            # What the program takes can be read.
            self.recorded = Recorded(text)
            self.present.begin(self.recorded.events)
        except BaseException:
            self.close()
            raise

    # The script.

    def opened(self, look, text):
        """The board of a script, at its start."""
        try:
            return Present(look, self.image, self.written(text))
        except Refused as refused:
            words = str(refused).split()
            if len(words) != 3 or words[0] != "script":
                raise
            raise Refused(reason_of(text, int(words[1]), words[2])) from None

    def written(self, text):
        """A file with a script, for a program that reads it."""
        path = os.path.join(self.folder.name, "session.script")
        write_whole(path, text)
        return path

    def change(self, events, now):
        """The script has these events, and the board is at a time; tells where it is to be saved and cannot."""
        try:
            # The board knows of an event by itself, and not of the whole script.
            if len(events) > MOST_EVENTS:
                raise BrokenRule(events[MOST_EVENTS], "too-many")
            if len(self.recorded.text(events)) > MOST_BYTES - MOST_HEADING:
                raise Refused("the script would be too long: it has at most %d bytes" % MOST_BYTES)
            self.present.bring(events, now)
        except BrokenRule as broken:
            number = self.recorded.line_number(events, broken.event)
            raise Refused(reason_of(self.recorded.text(events), number, broken.rule)) from None
        self.recorded.events, self.is_saved, self.is_changed = events, False, True
        if self.out is None:
            return []
        try:
            self.save(self.out)
        except Refused as refused:
            return ["not saved: %s" % refused]
        return []

    def make(self, word, rest):
        """What a person does at the board; the lines that the script has for it, and how many it lost."""
        now, comes = self.present.now, self.present.next
        try:
            made = [Event(event.time, ["at %d %s\n" % (event.time, event.says)], now)
                    for event in SCRIPT.done(comes, word, rest, 1)]
        except SCRIPT.Wrong as wrong:
            raise Refused(str(wrong)) from None
        except UnicodeEncodeError:
            raise Refused("this is no UTF-8") from None
        if not all(event.lines[-1].isascii() for event in made):
            raise Refused("a name has 1 to 32 bytes of visible ASCII")
        before = self.recorded.events
        events = self.recorded.with_events(made, self.drops_later)
        told = self.change(events, now)
        self.changes.append((before, now))
        dropped = len(before) + len(made) - len(events)
        return [event.lines[-1].rstrip("\n") for event in made] + (
            ["dropped %d later line%s" % (dropped, "s" * (dropped > 1))] if dropped else []) + told

    def undo(self):
        """Takes back the last change."""
        if not self.changes:
            raise Refused("nothing was done yet")
        events, now = self.changes[-1]
        told = self.change(events, min(now, self.present.now))
        self.changes.pop()
        return told

    def text(self):
        """The script, behind a line that tells how far the session went."""
        return HEADING % (self.present.steps, self.present.now) + self.recorded.text()

    def save(self, path):
        """Saves the script."""
        try:
            write_whole(path, self.text())
        except OSError as error:
            raise Refused("%s: %s" % (path, error.strerror)) from None
        self.is_saved = True

    def save_as(self, path=None):
        """Saves the script, in the file of --out where none is named."""
        path = path or self.out
        if not path:
            raise Refused("there is no --out, so save needs the name of a file")
        self.save(path)
        return ["saved " + path]

    # Time.

    def run(self, ticks):
        self.present.go_to(self.present.now + ticks_of(ticks))

    def back(self, ticks):
        self.present.go_to(max(0, self.present.now - ticks_of(ticks)))

    def to(self, time):
        self.present.go_to(ticks_of(time))

    def step(self, count="1"):
        if not (count.isascii() and count.isdecimal()):
            raise Refused("this is no number of steps: " + count)
        self.present.step(min(int(count), MOST_STEPS))

    # Commands.

    def later(self, word):
        if word not in ("drop", "keep"):
            raise Refused("later takes drop or keep, not " + word)
        self.drops_later = word == "drop"

    def report(self):
        return self.present.state().report

    def script(self):
        return self.text().splitlines()

    def quit(self):
        self.is_over = True

    def do(self, line):
        """Does a command, and gives what it tells at once."""
        word, _, rest = line.strip("\r\n").lstrip().partition(" ")
        if word in DEEDS:
            return self.make(word, rest)
        does, counts = self.commands.get(word, (None, ()))
        words = rest.split()
        if len(words) not in counts:
            raise Refused("this is no command, or not its words: %s; `help` tells which there are" % word)
        return does(*words) or []

    def printed(self):
        """All that was printed up to the present."""
        words = [line.split() for line in self.present.lines]
        return b"".join(bytes.fromhex(found[3]) for found in words if found[2] == "out")

    def lines_since(self, count):
        """What the board told since it had told so many lines."""
        return self.present.lines[min(count, len(self.present.lines)):]

    def close(self):
        if self.present:
            self.present.end()
        self.folder.cleanup()
