"""A board in tock_look, and the lines that it tells (docs/looking.md)."""

import os
import shlex
import subprocess

TOP = os.path.dirname(os.path.dirname(os.path.dirname(os.path.abspath(__file__))))
CRATE = os.path.join(TOP, "crates", "tock_look")
LOOK = os.path.join(CRATE, "out", "tock_look")
FLASH, RAM = 0x20000000, 0x80000000
MOST = 4294967295
# How many commands are sent before their answers are read: they have room in a pipe.
AT_ONCE = 256


class Refused(Exception):
    """The board was not made, or a command was not done."""


class NotDone(Refused):
    """A command that tock_look answers with other words than `ok`."""

    def __init__(self, command, words):
        super().__init__("tock_look does not do the command %s: %s" % (command, " ".join(words)))
        self.words = words


def find_look():
    """The program tock_look: that of the variable TOCK_LOOK, or the one built here."""
    look = os.environ.get("TOCK_LOOK") or LOOK
    if os.path.isfile(look) and os.access(look, os.X_OK):
        return look
    if look == LOOK:
        raise Refused("tock_look is not built; this proves and builds it: cd %s && rt run" % shlex.quote(CRATE))
    raise Refused("TOCK_LOOK: %s: it is no program that can be run" % look)


class Place:
    """Where a process is after some steps: a line `at`."""

    def __init__(self, line):
        words = line.split()
        self.steps, self.time, self.slot, self.turns, self.restarts = map(int, words[1:6])
        self.state = words[6]
        self.pc = int(words[7], 16)
        self.x = [0] + [int(word, 16) for word in words[8:39]]


class SlotState:
    """What the lines of `state` tell of a slot."""

    def __init__(self):
        self.numbers, self.pending, self.grants, self.place, self.report = {}, [], [], None, ""


class State:
    """The answer to `state`: the report, the slots that wait for each device, and those that have a process."""

    def __init__(self, lines):
        self.report = lines[:next((n + 1 for n, line in enumerate(lines) if line.startswith("end ")), 0)]
        self.slots, self.waits = {}, {}
        for line in lines[len(self.report):]:
            words = line.split()
            if words[0] == "waits":
                self.waits[words[1]] = [int(word, 16) for word in words[2:]]
            elif words[0] == "at":
                self.of(words[3]).place = Place(line)
            elif words[0] in ("pending", "grant"):
                state = self.of(words[1])
                (state.pending if words[0] == "pending" else state.grants).append([int(word, 16) for word in words[2:]])
            else:
                self.of(words[1]).numbers[words[0]] = [int(word, 16) for word in words[2:]]
        for line in self.report:
            if line.startswith("slot "):
                self.of(line.split()[1]).report = line

    def of(self, slot):
        return self.slots.setdefault(int(slot), SlotState())

    def block(self, slot):
        """Where the memory of a process begins and ends."""
        return self.slots[slot].numbers["block"]

    def name(self, slot):
        return self.slots[slot].report.split()[2]

    def slot_at(self, address):
        """The slot whose memory has an address, or None."""
        return next((slot for slot in self.slots if self.block(slot)[0] <= address < self.block(slot)[1]), None)

    def slot_of_code(self, address):
        """The slot whose flash has an address, or None."""
        return next((slot for slot, state in self.slots.items()
                     if state.numbers["flash"][0] <= address < state.numbers["flash"][1]), None)


class Board:
    """A board that goes where it is told to: on, or back by running again. One that is apart goes on where the terminal
    interrupts who asks it."""

    def __init__(self, look, flash, script, is_apart=False):
        self.process = subprocess.Popen([look, flash, script], stdin=subprocess.PIPE, stdout=subprocess.PIPE,
                                        universal_newlines=True, start_new_session=is_apart)
        self.steps, self.told = 0, None     # the steps made, and the place that was told where it moved

    def ask(self, *words):
        """The lines of the answer to a command."""
        return self.ask_all([" ".join(str(word) for word in words)])[0]

    def ask_all(self, commands):
        """The answers to commands, each as its lines."""
        answers = []
        for first in range(0, len(commands), AT_ONCE):
            part = commands[first:first + AT_ONCE]
            self.send(part)
            answers += [self.answer(command) for command in part]
        return answers

    def send(self, commands):
        try:
            self.process.stdin.write("".join(command + "\n" for command in commands))
            self.process.stdin.flush()
        except BrokenPipeError:
            raise Refused(self.process.stdout.read().strip() or "tock_look ended") from None

    def answer(self, command):
        lines = []
        for line in self.process.stdout:
            line = line.rstrip("\n")
            if line == "= ok":
                return lines
            if line.startswith("= "):
                raise NotDone(command, line.split()[1:])
            lines.append(line)
        raise Refused(" ".join(lines) or "tock_look ended")

    def boot(self):
        self.ask("boot")
        self.steps = 0

    def moved(self, lines):
        """Takes in the answer to a command that moved the board: the words of why it stopped, and the lines before."""
        self.told = Place(lines[-1]) if lines[-1] != "none" else None
        self.steps = self.told.steps if self.told else self.steps
        return lines[-2].split()[1:], lines[:-2]

    def seek(self, slot, steps):
        """Goes to after so many steps, back or on."""
        if steps < self.steps:
            self.boot()
        return self.moved(self.ask("steps", slot, steps - self.steps))

    def place(self, slot):
        return Place(self.ask("at", slot)[0])

    def state(self):
        return State(self.ask("state"))

    def memory(self, slot, at, count):
        """Bytes of the block of a slot, all of which lie there."""
        return bytes_told(self.ask("memory", slot, at, count))

    def end(self):
        self.process.stdin.close()
        self.process.stdout.close()
        self.process.wait()

    def stop(self):
        """Ends it, whatever it does."""
        self.process.kill()
        try:
            self.process.stdin.close()
        except BrokenPipeError:
            # It did not read what was sent.
            pass
        self.process.stdout.close()
        self.process.wait()


def bytes_told(lines):
    """The bytes in the answer to `memory`."""
    return bytes.fromhex(lines[0].partition(" ")[2])


def list_of(numbers):
    """A list of a command, as a word."""
    return ",".join(str(number) for number in numbers) or "-"
