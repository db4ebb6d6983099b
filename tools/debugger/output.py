"""Where in a run a text is printed."""

import re
from bisect import bisect_right
from dataclasses import dataclass, field

# Into how many parts steps are split, and each part once more, where the step of a line of the trace is looked for; and
# of how many steps the trace is read at a time.
PARTS = 256
STEPS = PARTS * PARTS
# The call by which a process hands a text to the console, where it succeeded.
WRITE = re.compile(r"@\d+ \d+ call 2 00000001 00000001 .* = 00000080 ")
TEXT = re.compile(r'(?:"((?:[^"\\]|\\.)*)"|([^"\s]\S*))(?:\s+([1-9]\d{0,8}))?\s*$', re.S)


class NoText(Exception):
    """What a person should know of a text that was to be found."""


@dataclass
class Line:
    """A line of a run's trace: after how many steps the part begins that has it, and how many lines stand before it
    there."""
    begin: int
    number: int


@dataclass
class Printer:
    """What a process printed, and of each piece of that where it begins and the line by which it was handed over."""
    text: bytearray = field(default_factory=bytearray)
    begins: list = field(default_factory=list)
    causes: list = field(default_factory=list)
    last_write: Line = None
    searched: int = 0

    def add(self, data, cause):
        """Takes in a piece."""
        self.begins.append(len(self.text))
        self.causes.append(cause)
        self.text += data

    def next(self, text):
        """The line that handed over the first byte of a text, at the next place where it stands; or None."""
        at = self.text.find(text, self.searched)
        self.searched = max(self.searched, len(self.text) - len(text) + 1) if at < 0 else at + 1
        return self.causes[bisect_right(self.begins, at) - 1] if at >= 0 else None


def words_of(words):
    """A text, which may stand in quotes with escapes as in C, and how many times it is to be printed."""
    match = TEXT.match(words)
    if not match or match[1] == "":
        raise NoText("a text is one word, or stands in quotes; a number may follow")
    quoted, plain, count = match.groups()
    try:
        text = plain or quoted.encode("latin-1").decode("unicode_escape")
        return text.encode("latin-1"), int(count or 1)
    except UnicodeError:
        raise NoText("this is no text: " + words) from None


def parts_of(board, most):
    """The lines of the trace, from the start of a run on, by parts of as many steps: after how many steps each begins,
    and its lines."""
    board.boot()
    why = ["most"]
    while why[0] != "done" and board.steps < most:
        begin = board.steps
        why, lines = board.moved(board.ask("trace", 0, min(STEPS, most - begin)))
        yield begin, lines


def printers_of(board, most):
    """For each line of the trace that tells what was printed the slot, and its printer, once that has it."""
    printers, listed = {}, None
    for begin, lines in parts_of(board, most):
        for number, text in enumerate(lines):
            words, line = text.split(), Line(begin, number)
            printer = printers.setdefault(int(words[1]), Printer())
            if WRITE.match(text):
                printer.last_write = line
            if words[2] == "out":
                # What an operator's `list` prints stands right behind it.
                printer.add(bytes.fromhex(words[3]), listed or printer.last_write or line)
                yield int(words[1]), printer
            listed = line if words[2:4] == ["act", "list"] else None


def part_with(board, begin, size, before):
    """Where the step is looked for that makes a line of the trace: of parts of so many steps each, from one step on,
    the part that has the line; after how many steps it begins, and how many lines stand before that one in it."""
    board.seek(0, begin)
    answers = board.ask_all(["trace 0 %d" % size] * PARTS)
    board.boot()
    for answer in answers:
        # Behind the lines of the trace stand why it stopped, and where.
        count = len(answer) - 2
        if before < count:
            break
        begin, before = begin + size, before - count
    return begin, before


def step_of(board, line):
    """After how many steps the step comes that makes a line of the trace."""
    begin, before = part_with(board, line.begin, STEPS // PARTS, line.number)
    return part_with(board, begin, 1, before)[0]


def printed(board, text, times, most):
    """After how many steps a process is about to hand over a text that is printed, for the so many-th time of all, and
    its slot; None where it is not printed so often in so many steps."""
    for slot, printer in printers_of(board, most):
        line = printer.next(text)
        while line:
            times -= 1
            if times == 0:
                return step_of(board, line), slot
            line = printer.next(text)
    return None
