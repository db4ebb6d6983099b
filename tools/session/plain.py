"""A session as lines: a command, and what changes by it. Nothing moves on a screen, so a pipe or a person who has it
read aloud can follow."""

import select
import sys
import time

from debugger.board import Refused
from debugger.trace import line_text
from session.debugging import command_of, debug, slot_of
from session.sitting import HELP
from session.view import SECOND

# Seconds between two looks at the board while it goes on by itself.
FRAME = 0.1
# What `help` tells besides of commands that a screen has keys for.
GOING = "go, pause          on a terminal: goes on by itself; stands"


def without_turns(line):
    """A line of the report, but for what each turn changes."""
    words = line.split()
    return words[:words.index("turns")] + words[words.index("turns") + 2:] if "turns" in words else words


class Plain:
    """The session; with `go`, where a person types, it goes on by itself."""

    def __init__(self, sitting, pace, programs):
        self.sitting, self.pace, self.programs = sitting, pace, programs
        self.told, self.now, self.is_on = 0, 0, False
        self.is_typed = sys.stdin.isatty()
        self.report = sitting.present.state().report
        sitting.commands.update(debug=(self.debug, (0, 1)), go=(self.go, (0,)), pause=(self.pause, (0,)),
                                help=(self.help, (0,)))

    def tell(self):
        """Tells what the board did since, and what is another state; and where it is, unless it goes on."""
        present = self.sitting.present
        if present.now < self.now:
            # It went back: what came before is told already, and what comes is told anew.
            self.told = len(present.lines)
        for line in self.sitting.lines_since(self.told):
            print(line_text(line))
        report = present.state().report
        for before, line in zip(self.report, report):
            if without_turns(before) != without_turns(line) and not line.startswith("end "):
                print(line)
        self.report, self.told, self.now = report, len(present.lines), present.now
        if not self.is_on:
            print("now %d steps %d%s" % (present.now, present.steps, " full" * present.is_full or " done" * (
                report[-1].startswith("end done"))))
        sys.stdout.flush()

    def run(self):
        """Does the commands of the standard input."""
        self.tell()
        for line in self.lines():
            if not line.strip() or line.startswith("#"):
                continue
            try:
                for answer in self.sitting.do(line):
                    print(answer)
            except Refused as refused:
                print("? %s" % refused, flush=True)
                continue
            if self.sitting.is_over:
                break
            self.tell()

    def lines(self):
        """The lines that are typed; meanwhile the board goes on, where it is to."""
        while True:
            while self.is_on and not select.select([sys.stdin], [], [], FRAME)[0]:
                self.go_on()
            line = sys.stdin.readline()
            if not line:
                return
            yield line

    def go_on(self):
        now = time.monotonic()
        ticks = int((now - self.last) * SECOND * self.pace)
        if ticks:
            self.last = now
            self.sitting.present.go_to(self.sitting.present.now + ticks)
            self.tell()

    def go(self):
        if not self.is_typed:
            raise Refused("go is for a terminal; run goes on by so many ticks")
        self.is_on, self.last = True, time.monotonic()

    def pause(self):
        self.is_on = False

    def help(self):
        *lines, last = HELP.split("\n")
        return [*lines, GOING, last]

    def debug(self, slot=None):
        """Where a person types GDB has the terminal, until it ends; else the command that starts it."""
        number = slot_of(self.sitting, slot, min(self.sitting.present.state().slots))
        if not self.is_typed:
            return [command_of(self.sitting, self.programs, number)]
        self.is_on = False
        debug(self.sitting, self.programs, number)
        return []
