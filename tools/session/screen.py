"""A session on a screen: the board in real time, and keys."""

import contextlib
import curses
import locale
import os
import signal
import sys
import time

from debugger.board import Refused
from session.cells import width_of
from session.debugging import debug, slot_of
from session.view import SECOND

# Seconds between two pictures, and the most of them that the board makes up for.
FRAME, MOST_BEHIND = 0.04, 0.25
MOST_PACE, LEAST_PACE = 1000000, 0.001
# How many typed lines are kept.
KEPT_LINES = 200
# Acts on the slot that is marked, by their keys; `p` stops or starts.
ACTS = {"l": "list", "t": "terminate", "r": "restart"}


class Screen:
    """What the keys do, and the picture on a terminal."""

    def __init__(self, view, pace, programs):
        self.view, self.sitting, self.present = view, view.sitting, view.present
        self.pace, self.programs, self.is_on = pace, programs, True
        self.owed, self.most, self.is_asked = 0.0, SECOND, False
        self.typed_lines, self.recalled = [], 0
        self.sitting.commands["debug"] = (self.debug, (0, 1))
        self.keys = {" ": self.pause, "+": self.faster, "=": self.faster, "-": self.slower, "?": self.help,
                     ":": lambda: self.ask(":"), "i": lambda: self.ask("type"), "\n": lambda: self.ask("type"),
                     "\r": lambda: self.ask("type"), curses.KEY_ENTER: lambda: self.ask("type"),
                     "\t": self.next_console, curses.KEY_UP: lambda: self.move_mark(-1),
                     curses.KEY_DOWN: lambda: self.move_mark(1), curses.KEY_LEFT: lambda: self.move("back 1s"),
                     curses.KEY_RIGHT: lambda: self.move("run 1s"), ".": lambda: self.move("step"),
                     curses.KEY_PPAGE: lambda: self.scroll(1), curses.KEY_NPAGE: lambda: self.scroll(-1),
                     "u": lambda: self.do("undo"), "w": self.save, "d": lambda: self.do("debug"), "q": self.quit,
                     "p": lambda: self.act("p"), **{key: lambda key=key: self.act(key) for key in ACTS}}

    def run(self):
        locale.setlocale(locale.LC_ALL, "")
        self.encoding = locale.getpreferredencoding(False)
        if self.shown(self.view.lights) != self.view.lights:
            self.view.lights = "*o"
        try:
            curses.set_escdelay(25)
            curses.wrapper(self.loop)
        except curses.error as error:
            if isinstance(error.__context__, SystemExit):
                # Where the terminal has gone it cannot be left either.
                raise error.__context__ from None
            raise Refused("the terminal cannot show it: %s; --plain needs none" % error) from None

    def loop(self, window):
        self.window = window
        self.has_colours = curses.has_colors()
        if self.has_colours:
            curses.use_default_colors()
            for number in range(1, 8):
                curses.init_pair(number, number, -1)
        window.timeout(int(FRAME * 1000))
        last = time.monotonic()
        while not self.sitting.is_over:
            self.paint()
            key = self.read()
            if key is not None:
                self.key(key)
            now = time.monotonic()
            if self.is_on:
                self.go_on(min(now - last, MOST_BEHIND))
            last = now

    def read(self):
        """A key, or None where none comes in time; where the terminal has gone the session ends."""
        try:
            return self.window.get_wch()
        except curses.error:
            if not os.isatty(sys.stdin.fileno()):
                raise SystemExit(128 + signal.SIGHUP) from None
            return None

    def go_on(self, seconds):
        """Goes on as far as real time did, or as the board can."""
        self.owed = min(self.owed + seconds * SECOND * self.pace, self.most)
        ticks = int(self.owed)
        if ticks:
            self.owed -= ticks
            began = time.monotonic()
            self.present.go_to(self.present.now + ticks)
            took = time.monotonic() - began
            if took > 2 * FRAME:
                self.most = max(SECOND // 10, self.most / 2)
            elif took < FRAME:
                self.most = min(self.most * 2, MOST_BEHIND * SECOND * max(self.pace, 1))

    # The picture.

    def paint(self):
        self.view.pace = "x%g" % self.pace if self.is_on else "paused"
        height, width = self.window.getmaxyx()
        cells = self.view.cells(height, width)
        self.window.erase()
        for row, pieces in enumerate(cells.rows):
            for column, text, style in pieces:
                try:
                    self.window.addstr(row, column, self.shown(text), self.how(style))
                except curses.error:
                    # The last cell of a terminal cannot be written without a scroll.
                    pass
        self.place_cursor(height, width)
        self.window.refresh()

    def place_cursor(self, height, width):
        """Where a line is typed the terminal's own cursor stands behind it, for those who follow that."""
        try:
            curses.curs_set(1 if self.view.prompt else 0)
            column = width_of(self.view.text) + (5 if self.view.prompt == "type" else 1)
            self.window.move(height - 1, min(column, width - 1) if self.view.prompt else 0)
        except curses.error:
            # Not every terminal can hide the cursor.
            pass

    def shown(self, text):
        """A text of letters that the terminal has."""
        return text.encode(self.encoding, "replace").decode(self.encoding)

    def how(self, style):
        how = curses.color_pair(style.colour) if self.has_colours else 0
        for is_so, bit in ((style.bold, curses.A_BOLD), (style.faint, curses.A_DIM), (style.turned, curses.A_REVERSE)):
            how |= bit if is_so else 0
        return how

    # Keys.

    def key(self, key):
        if key == curses.KEY_RESIZE:
            return
        if self.view.help:
            self.view.help = False
        elif self.view.prompt:
            self.typed(key)
        else:
            was_asked, self.is_asked = self.is_asked, False
            try:
                self.pressed(key, was_asked)
            except Refused as refused:
                self.view.said = str(refused)

    def pressed(self, key, was_asked):
        if isinstance(key, str) and key.isdecimal() and key.isascii():
            is_down = int(key) in self.sitting.recorded.pressed(self.present.next)
            self.do("%s %s" % ("release" if is_down else "press", key))
        elif key == "q" and was_asked:
            self.sitting.is_over = True
        elif key in self.keys:
            self.keys[key]()

    def typed(self, key):
        """A key of a line that is typed."""
        view = self.view
        if key in ("\n", "\r", curses.KEY_ENTER):
            line = "type " + view.text if view.prompt == "type" else view.text
            self.typed_lines = (self.typed_lines + [view.text] * bool(view.text))[-KEPT_LINES:]
            # Who types lines types more of them.
            self.ask("type" if view.prompt == "type" else None)
            self.do(line)
        elif key == "\x1b":
            self.ask(None)
        elif key in (curses.KEY_UP, curses.KEY_DOWN):
            self.recall(-1 if key == curses.KEY_UP else 1)
        elif key in ("\x7f", "\b", curses.KEY_BACKSPACE):
            view.text = view.text[:-1]
        elif key == "\x15":
            view.text = ""
        elif isinstance(key, str) and key.isprintable():
            view.text += key

    def ask(self, prompt):
        """Has a line typed, or no more."""
        self.view.prompt, self.view.text, self.recalled = prompt, "", len(self.typed_lines)

    def recall(self, way):
        """A line that was typed before."""
        self.recalled = max(0, min(len(self.typed_lines), self.recalled + way))
        self.view.text = (self.typed_lines + [""])[self.recalled]

    def do(self, line):
        """Does a command, and says what came of it."""
        if not line.strip():
            return
        if line.strip() == "help":
            self.view.help = True
            return
        try:
            told = self.sitting.do(line)
            self.view.said = "; ".join(told[:3]) or line.strip()
        except Refused as refused:
            self.view.said = str(refused)

    def pause(self):
        self.is_on = not self.is_on

    def faster(self):
        self.pace = min(self.pace * 2, MOST_PACE)

    def slower(self):
        self.pace = max(self.pace / 2, LEAST_PACE)

    def help(self):
        self.view.help = True

    def next_console(self):
        slots = [None] + sorted(self.view.state.slots)
        self.view.console.slot = slots[(slots.index(self.view.console.slot) + 1) % len(slots)]

    def move_mark(self, way):
        self.view.mark = max(0, min(max(self.view.state.slots), self.view.mark + way))

    def move(self, command):
        """A command that goes in time has the board stand there."""
        self.is_on = False
        self.do(command)

    def scroll(self, pages):
        height = self.view.height_of_console
        self.view.console.scroll(pages * max(1, height - 1), height)

    def save(self):
        if self.sitting.out:
            self.do("save")
        else:
            self.ask(":")
            self.view.text = "save "

    def quit(self):
        if self.sitting.is_saved or self.sitting.out:
            self.sitting.is_over = True
        else:
            self.view.said, self.is_asked = "not saved: w saves the script, q again quits without", True

    def act(self, key):
        """An operator's act on the process of the slot that is marked."""
        state, mark = self.view.state, self.view.mark
        name = state.name(mark)
        means = min(slot for slot in state.slots if state.name(slot) == name)
        if means != mark:
            raise Refused("an act on %s means slot %d, which has the name too" % (name, means))
        is_stopped = state.slots[mark].report.split()[3] == "stopped"
        self.do("%s %s" % (ACTS.get(key) or ("start" if is_stopped else "stop"), name))

    def debug(self, slot=None):
        """GDB has the terminal, until it ends."""
        number = slot_of(self.sitting, slot, self.view.mark)
        self.is_on = False
        curses.def_prog_mode()
        curses.endwin()
        try:
            if debug(self.sitting, self.programs, number):
                print("live: enter goes back to the board", file=sys.stderr, flush=True)
                sys.stdin.readline()
        finally:
            # Where the terminal has gone there is nothing to be set again, and what ends the session goes on to.
            with contextlib.suppress(curses.error):
                curses.reset_prog_mode()
                self.window.clear()
        return ["debugged slot %d at step %d; paused" % (number, self.present.steps)]
