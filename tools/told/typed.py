"""A script of the tool, made from what a person does at which time.

`script_of` makes one, so a program that makes many imports it; tools/script --help tells what a line may be.
"""

import re
from dataclasses import dataclass

from scripts import LINES, VERBS, is_number

LINE = re.compile(r"(\+?)([0-9]{1,10})(ms|s|)\s+(\S+)(?: (.*))?$")
SETTINGS = set(LINES) - {"at"}
TICKS_PER_MS = re.compile(r"ticks-per-ms\b\s*(.*)$")
ESCAPE = re.compile(rb"\\(x[0-9a-fA-F]{2}|.?)", re.S)
ESCAPES = {b"n": b"\n", b"r": b"\r", b"t": b"\t", b"0": b"\0", b"\\": b"\\"}
# A tap is in ms.
MOST_BYTES, LAST_TIME, TAP = 64, 2 ** 32 - 1, 100
MOST_PER_MS = 999999


class Wrong(Exception):
    """What a person should know of a line."""


@dataclass
class Event:
    """What the script says of a time."""
    time: int
    says: str


def inputs(time, content):
    """The lines by which bytes come in."""
    if not content:
        raise Wrong("there is no text")
    parts = [content[at:at + MOST_BYTES] for at in range(0, len(content), MOST_BYTES)]
    return [Event(time, "input " + part.hex()) for part in parts]


def unescaped(match):
    """The byte of an escape."""
    letters = match[1]
    if letters[:1] == b"x" and len(letters) == 3:
        return bytes([int(letters[1:], 16)])
    if letters not in ESCAPES:
        raise Wrong("this is no escape: \\" + letters.decode("utf-8", "replace"))
    return ESCAPES[letters]


def buttons(time, word, rest, per_ms):
    """A press, a release or both."""
    numbers = rest.split()
    if not 1 <= len(numbers) <= (2 if word == "tap" else 1) or not all(map(is_number, numbers)):
        raise Wrong("%s wants the number of a button%s" % (word, ", and may have ticks" if word == "tap" else ""))
    if word != "tap":
        return [Event(time, "%s %s" % (word, numbers[0]))]
    last = time + int(numbers[1]) if len(numbers) == 2 else time + TAP * per_ms
    return [Event(time, "press " + numbers[0]), Event(last, "release " + numbers[0])]


def acts(time, verb, rest):
    """An operator's act."""
    if len(rest.split()) != 1:
        raise Wrong(verb + " wants the name of a process")
    return [Event(time, "do %s %s" % (verb, rest.strip()))]


def done(time, word, rest, per_ms):
    """The events of what is done at a time."""
    if word == "type":
        return inputs(time, rest.encode() + b"\n")
    if word == "send":
        return inputs(time, ESCAPE.sub(unescaped, rest.encode()))
    if word in ("press", "release", "tap"):
        return buttons(time, word, rest, per_ms)
    if word in VERBS:
        return acts(time, word, rest)
    raise Wrong("this is neither type, send, press, release, tap nor an operator's act: " + word)


def is_text(line):
    """Whether a line was UTF-8: each byte that was not is a letter of its own here."""
    return not re.search("[\udc80-\udcff]", line)


def stays(line):
    """Whether a line is one of the script's own: empty, a comment or a setting."""
    first = re.match(r"[ \t]*([^ \t]*)", line)[1]
    return first[:1] in ("", "#") or first in SETTINGS


def ticks_per_ms(text):
    """How many ticks a ms has from now on."""
    if not re.fullmatch(r"[1-9]\d{0,5}", text):
        raise Wrong("ticks-per-ms wants a number from 1 to %d" % MOST_PER_MS)
    return int(text)


def read_line(line, before, per_ms):
    """A setting, or the events of a line and its time, after that of the line before."""
    if not is_text(line):
        raise Wrong("it is not UTF-8")
    match = LINE.match(line)
    if not match:
        if not stays(line):
            raise Wrong("this is neither a time with what is done then, nor a setting: " + line)
        return line, [], before
    sign, digits, unit, word, rest = match.groups()
    time = int(digits) * {"": 1, "ms": per_ms, "s": 1000 * per_ms}[unit] + (before if sign else 0)
    events = done(time, word, rest or "", per_ms)
    if max(event.time for event in events) > LAST_TIME:
        raise Wrong("a time is at most %d ticks" % LAST_TIME)
    return None, events, time


def script_of(lines):
    """The script of these lines: settings first, and then the events by their times."""
    settings, events, before, per_ms = [], [], 0, 1
    for number, line in enumerate(lines, 1):
        try:
            scale = TICKS_PER_MS.match(line.rstrip("\r\n"))
            if scale:
                per_ms = ticks_per_ms(scale[1])
                continue
            setting, made, before = read_line(line.rstrip("\r\n"), before, per_ms)
        except Wrong as wrong:
            raise Wrong("line %d: %s" % (number, wrong)) from None
        settings += [setting] if setting else []
        events += made
    events.sort(key=lambda event: event.time)
    return "".join(line + "\n" for line in settings + ["at %d %s" % (event.time, event.says) for event in events])
