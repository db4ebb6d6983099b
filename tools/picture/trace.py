"""Reads a trace, and the script of its run: what happened in each slot at which time."""

import re
from dataclasses import dataclass, field

from scripts import LINES, is_number

CLASSES = ["yield", "subscribe", "command", "allow-rw", "allow-ro", "memop", "exit", "allow-readable"]
DRIVERS = {0x0: "alarm", 0x1: "console", 0x2: "LED", 0x3: "button", 0x40001: "random", 0x50001: "storage"}
COMMANDS = {
    (0x0, 1): "frequency", (0x0, 2): "now", (0x0, 3): "stop", (0x0, 5): "arm", (0x0, 6): "arm",
    (0x1, 1): "write", (0x1, 2): "read", (0x1, 3): "drop the read",
    (0x2, 1): "on", (0x2, 2): "off", (0x2, 3): "toggle", (0x40001, 1): "get",
    (0x3, 1): "enable", (0x3, 2): "disable", (0x3, 3): "is it pressed",
    (0x50001, 1): "size", (0x50001, 2): "read", (0x50001, 3): "write",
}
MEMOPS = ["brk", "sbrk", "RAM start", "RAM end", "flash start", "flash end", "grants", "regions", "region",
          "region end"]

EVENT = re.compile(r"@(\d+) (\d+) (call|denied|out|act) (.*)$")
CALL = re.compile(r"(\d) (\w+) (\w+) (\w+) (\w+)(?: = \w+ \w+ \w+ \w+(?: (\S+))?)?$")
REPORT = re.compile(r"(slot \d+ |unplaced \d+ |leds |end (done|turns) steps )")


class NoTrace(Exception):
    """The line for which a text is no trace."""


class NoScript(Exception):
    """The line for which a text is no script."""


@dataclass
class Mark:
    """What happened at a time: its kind, what is written beside it, the line that says so, and what becomes of the
    process by it: it `runs`, `waits`, `ends`, is `stopped` or `started`, or nothing."""
    time: int
    kind: str
    text: str
    line: str
    becomes: str = ""


@dataclass
class Lane:
    """What the report says of a slot, and its marks in order."""
    name: str = ""
    end: str = ""
    marks: list = field(default_factory=list)


@dataclass
class Script:
    """What a script says of windows, of faults, and of what comes in at which time."""
    window: object = None
    restarts: bool = False
    events: list = field(default_factory=list)


def printed(data):
    """Bytes as they are written in a picture."""
    text = data.decode("ascii", "replace").replace("\n", "↵")
    return "“%s”" % "".join(letter if letter.isprintable() and letter != "\ufffd" else "·" for letter in text)


def call_text(number, first, second, pair):
    """A call in words, by its first two arguments and the two after them, which a subscribe or an allow hands."""
    name = CLASSES[number]
    if name == "yield":
        if first == 2:
            return "wait for %s %d" % (DRIVERS.get(second, "driver %x" % second), int(pair[0], 16))
        return {0: "yield-no-wait", 1: "yield-wait"}.get(first, "yield %d" % first)
    if name == "memop":
        return "memop " + (MEMOPS[first] if first < len(MEMOPS) else str(first))
    if name == "exit":
        return {0: "exit %d" % second, 1: "restart"}.get(first, "exit of number %d" % first)
    driver = DRIVERS.get(first, "driver %x" % first)
    if name == "command":
        return "%s: %s" % (driver, COMMANDS.get((first, second), "command %d" % second))
    return "%s %s%s" % (name, driver, " back" if pair == ("00000000", "00000000") else "")


def mark_of_call(time, rest, line):
    """The mark of a system call."""
    call = CALL.match(rest)
    if not call or int(call[1]) >= len(CLASSES):
        raise NoTrace(line)
    number, first, second = int(call[1]), int(call[2], 16), int(call[3], 16)
    text = call_text(number, first, second, call.group(4, 5))
    if call[6]:
        return Mark(time, "refused", "%s refused: %s" % (text, call[6]), line, "runs")
    if number == 0 and first in (1, 2):
        return Mark(time, "call", text, line, "waits")
    return Mark(time, "call", text, line, "ends" if number == 6 and first == 0 else "runs")


def mark_of(time, kind, rest, line):
    """The mark of a line of the trace."""
    if kind == "out":
        return Mark(time, kind, printed(bytes.fromhex(rest)), line)
    if kind == "denied":
        return Mark(time, kind, "denied: " + rest, line, "faults")
    if kind == "act":
        becomes = {"stop": "stopped", "start": "started", "terminate": "ends", "restart": "runs"}.get(rest, "")
        return Mark(time, kind, "operator: " + rest, line, becomes)
    return mark_of_call(time, rest, line)


def read_event(lanes, line):
    """Adds a line of the trace, and returns its time."""
    event = EVENT.match(line)
    if not event:
        raise NoTrace(line)
    time, slot = int(event[1]), int(event[2])
    lanes.setdefault(slot, Lane()).marks.append(mark_of(time, event[3], event[4], line))
    return time


def read_report(lanes, line):
    """Adds a line behind the `==`, and returns the time that it tells."""
    if not REPORT.match(line):
        raise NoTrace(line)
    slot = re.match(r"slot (\d+) (\S+) (.*)$", line)
    if slot:
        lane = lanes.setdefault(int(slot[1]), Lane())
        lane.name, lane.end = slot[2], re.sub(r" (turns|restarts|dropped) .*", "", slot[3])
    return int(line.split()[-1]) if line.startswith("end ") else 0


def read_trace(lines):
    """The lanes by slot, and the time at which the run ended."""
    lanes, end, read = {}, 0, read_event
    for line in lines:
        line = line.rstrip("\n")
        if line == "==" and read is read_event:
            read = read_report
        else:
            try:
                end = max(end, read(lanes, line))
            except ValueError:
                raise NoTrace(line)
    return dict(sorted(lanes.items())), end


def number(word):
    """The number of a word of a script."""
    if not is_number(word):
        raise ValueError
    return int(word)


def given(words):
    """The mark of a line of a script by which something comes in."""
    text = "input " + printed(bytes.fromhex(words[3])) if words[2] == "input" else "%s %s" % tuple(words[2:])
    return Mark(number(words[1]), "given", text, " ".join(words))


def read_line(script, words):
    """Adds what the words of a line of a script say that a picture shows. A line that has not its form is an error of
    several kinds."""
    if words[0] not in LINES:
        raise ValueError
    if words[0] == "partition":
        script.window = number(words[1])
    elif words[:2] in (["policy", "restart"], ["policy", "threshold"]):
        script.restarts = True
    elif words[0] == "at" and words[2] != "do":
        script.events.append(given(words))


def read_script(lines):
    """What the lines of a script say that a picture shows."""
    script = Script()
    for line in lines:
        words = line.split()
        try:
            if words and not words[0].startswith("#"):
                read_line(script, words)
        except (ValueError, IndexError, TypeError):
            raise NoScript(line.rstrip("\n")) from None
    return script
