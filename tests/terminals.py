"""Checks of tools/live on a terminal: what keys do, that a terminal is left as it was however a session ends, and that
no event is lost then. `CHECKS` are functions of the program, for live.py."""

import fcntl
import os
import pty
import re
import select
import shutil
import signal
import struct
import subprocess
import tempfile
import termios
import time

from cases.case import REPOSITORY
from common import EXAMPLES, contents, run
from debugger.board import find_look

TOOL, IMAGE = os.path.join(REPOSITORY, "tools", "live"), os.path.join(EXAMPLES, "images", "%s.bin")
GDB = os.environ.get("GDB") or "gdb-multiarch"
# For how long an answer is waited for, in seconds, and for how long what a key does.
MOST_WAIT, KEY_WAIT = 60, 0.3


class Terminal:
    """A command on a terminal of so many rows and columns, in a folder."""

    def __init__(self, words, folder, rows=24, columns=80):
        self.parent, self.child = pty.openpty()
        self.resize(rows, columns)
        self.before, self.text = termios.tcgetattr(self.child), b""
        environment = dict(os.environ, TOCK_LOOK=find_look(), TERM="xterm", LC_ALL="C.UTF-8", PS1="$ ")
        self.process = subprocess.Popen(words, stdin=self.child, stdout=self.child, stderr=self.child, cwd=folder,
                                        env=environment, start_new_session=True, preexec_fn=self.begin)

    @staticmethod
    def begin():
        """Has the process begin as a shell on this terminal begins one: an interrupt reaches it, also where these tests
        run in the background of a shell that has interrupts ignored."""
        fcntl.ioctl(0, termios.TIOCSCTTY, 0)
        signal.signal(signal.SIGINT, signal.SIG_DFL)

    def __enter__(self):
        return self

    def __exit__(self, *ended):
        self.process.kill()
        self.process.wait()
        os.close(self.parent)
        os.close(self.child)

    def resize(self, rows, columns):
        fcntl.ioctl(self.child, termios.TIOCSWINSZ, struct.pack("HHHH", rows, columns, 0, 0))

    def read(self, seconds):
        """Takes in what is written for so long."""
        until = time.monotonic() + seconds
        while time.monotonic() < until:
            if select.select([self.parent], [], [], 0.05)[0]:
                self.text += os.read(self.parent, 65536)

    def comes(self, is_there, seconds=MOST_WAIT):
        """Whether something is so in time."""
        until = time.monotonic() + seconds
        while not is_there() and time.monotonic() < until:
            self.read(0.1)
        return is_there()

    def shows(self, text):
        """Whether it writes a text in time, behind what was looked for before."""
        found = self.comes(lambda: text in self.text)
        self.text = self.text.partition(text)[2] if found else self.text
        return found

    def keys(self, text):
        os.write(self.parent, text)
        self.read(KEY_WAIT)

    def is_as_before(self):
        """Whether the terminal has its settings, and was left with the last words of xterm for that."""
        return termios.tcgetattr(self.child) == self.before and self.text.rfind(b"\x1b[?1049l") >= self.text.rfind(
            b"\x1b[?1049h")

    def ended(self):
        """Its answer, None where it does not end, and whether the terminal is as it was."""
        self.comes(lambda: self.process.poll() is not None)
        self.read(0.2)
        return self.process.poll(), self.is_as_before()


def events_in(path):
    """What the lines `at` of a script say, without their times."""
    text = contents(path).decode() if os.path.exists(path) else ""
    return [line.split()[2:] for line in text.splitlines() if line.startswith("at ")]


# How a session on a terminal ends, and the answer then.
ENDS = [("key", 0), ("interrupt", 130), (signal.SIGTERM, 143), (signal.SIGHUP, 129), (signal.SIGKILL, -9)]
DONE = [["press", "0"], ["input", b"typed \xc3\xa9\n".hex()], ["release", "0"], ["do", "list", "buttons"]]


def end_so(terminal, how):
    if how in ("key", "interrupt"):
        os.write(terminal.parent, b"q" if how == "key" else b"\x03")
    else:
        terminal.process.send_signal(how)


def differs(program, saved, terminal, how):
    """Whether the program gives another end than the session that was saved; one that ends by a signal writes none."""
    steps = re.search(r"--turns (\d+)", contents(saved).decode().splitlines()[0])[1]
    end = run([program, "boot", IMAGE % "buttons", saved, "--turns", steps])
    report = terminal.text.decode().replace("\r", "").rpartition("==\n")[2].partition("live: ")[0]
    if end.returncode or how == "key" and report != end.stdout.partition("==\n")[2]:
        return "%s: %r, and the session ended with %r" % (how, end.stdout, report)
    return None


def ends_well(program, saved, terminal, how, status):
    """Whether a session of some keys is saved at each, and its terminal left as it was; what is wrong."""
    if not terminal.comes(lambda: b"buttons.bin" in terminal.text):
        return "shows %r" % terminal.text
    for keys in (b"0", b"\rtyped \xc3\xa9\r\x1b", b"0"):
        terminal.keys(keys)
    terminal.resize(3, 10)
    terminal.process.send_signal(signal.SIGWINCH)
    terminal.keys(b"l")
    if not terminal.comes(lambda: events_in(saved) == DONE):
        return "saved %s" % events_in(saved)
    end_so(terminal, how)
    answer, is_as_before = terminal.ended()
    if (answer, is_as_before, events_in(saved)) != (status, how != signal.SIGKILL, DONE):
        return "%s: %s, %s, %s, %r" % (how, answer, is_as_before, events_in(saved), terminal.text[-300:])
    return differs(program, saved, terminal, how)


def on_terminal(program):
    """Keys do what they do on a terminal, of whatever size; however it ends, the script is saved and gives the session,
    and the terminal is as it was, but where nothing can be done any more."""
    for how, status in ENDS:
        with tempfile.TemporaryDirectory() as folder:
            # Where no file is named a new one is made; another one of that name stays.
            saved = os.path.join(folder, "saved" if how == "key" else "buttons-2.live.script")
            open(os.path.join(folder, "buttons.live.script"), "w").close()
            with Terminal([TOOL, IMAGE % "buttons"] + ["--out", saved] * (how == "key"), folder) as terminal:
                wrong = ends_well(program, saved, terminal, how, status)
            if wrong or contents(os.path.join(folder, "buttons.live.script")):
                return wrong or "wrote over a file"
    return None


def stops(terminal):
    """Whether Ctrl-Z stops it; a busy machine may lose a key."""
    for _ in range(3):
        terminal.keys(b"\x1a")
        if terminal.comes(lambda: b"Stopped" in terminal.text, MOST_WAIT / 3):
            break
    return terminal.shows(b"Stopped")


def suspended(program):
    """Ctrl-Z leaves the terminal to the shell as it was, and `fg` goes on with the session; one that is quit without an
    event leaves no file."""
    with tempfile.TemporaryDirectory() as folder, Terminal(["bash", "--norc", "--noediting", "-i"], folder) as terminal:
        terminal.keys(b"%s %s\n" % (TOOL.encode(), (IMAGE % "press").encode()))
        if not terminal.shows(b"LEDs"):
            return "shows %r" % terminal.text
        if not stops(terminal):
            return "is not stopped: %r" % terminal.text
        is_as_before = terminal.comes(terminal.is_as_before)
        terminal.keys(b"fg\n")
        if not (is_as_before and terminal.shows(b"LEDs")):
            return "does not go on: %s, %r" % (is_as_before, terminal.text)
        terminal.keys(b"q")
        if not terminal.shows(b"end "):
            return "does not end: %r" % terminal.text
        terminal.keys(b"exit\n")
        ended = terminal.ended() + (os.listdir(folder),)
        return None if ended == (0, True, []) else "%s, %s, %s" % ended


def read_aloud(program):
    """With --plain on a terminal the board goes on by itself between lines, and what changes is written once, without
    anything that moves a cursor."""
    with tempfile.TemporaryDirectory() as folder, \
            Terminal([TOOL, IMAGE % "echo", "--plain", "--pace", "4"], folder) as terminal:
        written = b""
        for typed, told in ((b"go\n", b"slot 0 echo yielded"), (b"type hi\n", b"prints 'hi\\n'"),
                            (b"pause\n", b"now "), (b"quit\n", b"slot 0 echo yielded")):
            os.write(terminal.parent, typed)
            before = terminal.text
            if not terminal.shows(told):
                return "after %s: %r" % (typed, terminal.text)
            written += before + told
        ended = terminal.ended()
        return None if ended == (0, True) and b"\x1b" not in written else "%s, %r" % (ended, written)


def debugs(terminal):
    """Whether the debugger is started on slot 1, at a time."""
    if not terminal.shows(b"together.bin"):
        return False
    for keys in (b" ", b":to 60\r", b"\x1bOB", b"d"):
        terminal.keys(keys)
    return terminal.shows(b"step 62, time 60: slot 1 is faulted")


def debugged(program):
    """The debugger is at the step of the session, on the slot that is marked; afterwards the session goes on, and
    Ctrl-C was the debugger's. Where the terminal goes meanwhile the session ends."""
    words = [TOOL, IMAGE % "together"]
    with tempfile.TemporaryDirectory() as folder, Terminal(words, folder) as terminal:
        if not debugs(terminal):
            return "is not there: %r" % terminal.text
        terminal.keys(b"\x03")
        terminal.keys(b"kill\ny\nquit\n")
        if not terminal.shows(b"paused"):
            return "does not come back: %r" % terminal.text
        terminal.keys(b"q")
        ended = terminal.ended()
        if ended != (0, True):
            return "%s, %s, %r" % (ended + (terminal.text,))
    with tempfile.TemporaryDirectory() as folder, Terminal(words, folder) as terminal:
        if not debugs(terminal):
            return "is not there: %r" % terminal.text
        os.close(terminal.parent)
        terminal.parent = os.open(os.devnull, os.O_RDWR)
        answer = terminal.process.wait(MOST_WAIT)
        return None if answer == 129 else "answers %d where the terminal has gone" % answer


CHECKS = (on_terminal, suspended, read_aloud) + ((debugged,) if shutil.which(GDB) else ())
if not shutil.which(GDB):
    print("live-debugged: not tried without %s" % GDB)
