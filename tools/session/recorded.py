"""The script of a session: what it was at first, and what a person did since."""

import os
import shutil

from session.kept import in_order

# A line in front that tells how far the session went.
HEADING = "# tools/live: with --turns %d this is the session up to time %d\n"


class Event:
    """A line `at`, behind comments that stood before it; and the present in which a person made it, or None."""

    def __init__(self, time, lines, made=None):
        self.time, self.lines, self.made = time, lines, made

    @property
    def words(self):
        return self.lines[-1].split()


def is_heading(line):
    return line.startswith(HEADING.partition("%")[0])


def lines_of(text):
    """The lines of a script, each with its line feed; no other byte ends one."""
    return [line + "\n" for line in (text[:-1] if text.endswith("\n") else text).split("\n")] if text else []


class Recorded:
    """Settings, and events by their times."""

    def __init__(self, text):
        self.settings, self.events, self.rest = [], [], []
        for line in lines_of(text):
            words = line.split()
            self.rest += [] if is_heading(line) else [line]
            if words[:1] == ["at"]:
                self.events.append(Event(int(words[1]), self.rest))
                self.rest = []
            elif words and not words[0].startswith("#"):
                # What stands in front of the first event.
                self.settings, self.rest = self.settings + self.rest, []
        if not self.events:
            self.settings, self.rest = self.settings + self.rest, []

    def text(self, events=None):
        """The whole script, or that with other events."""
        events = self.events if events is None else events
        return "".join(self.settings + [line for event in events for line in event.lines] + self.rest)

    def with_events(self, made, drops_later):
        """The events with those that a person makes in the present; the later ones that were made later are dropped
        where this is asked for."""
        now = made[0].made
        kept = [event for event in self.events if not drops_later or event.made is None or event.made <= now]
        return in_order(kept + made)

    def line_number(self, events, event):
        """The number of the line of one of these events in the script that has them."""
        return len(self.settings) + sum(len(other.lines) for other in events[:events.index(event) + 1])

    def number(self, name, other):
        """The number of a setting, or another one where it is not there."""
        words = [line.split() for line in self.settings]
        return next((int(found[1]) for found in words if found[:1] == [name]), other)

    def pressed(self, now):
        """The buttons that are pressed at a time."""
        pressed = set()
        for event in self.events:
            words = event.words
            if event.time <= now and words[2] in ("press", "release"):
                (pressed.add if words[2] == "press" else pressed.discard)(int(words[3]))
        return pressed


def write_whole(path, text, encoding="latin-1"):
    """Writes a file, or leaves the one that is there as it is."""
    path = os.path.realpath(path)
    if os.path.exists(path) and not os.path.isfile(path):
        with open(path, "w", encoding=encoding) as file:
            file.write(text)
        return
    other = os.path.join(os.path.dirname(path), ".live-%d" % os.getpid())
    try:
        with open(other, "w", encoding=encoding) as file:
            file.write(text)
        if os.path.exists(path):
            shutil.copymode(path, other)
        os.replace(other, path)
    except BaseException:
        if os.path.exists(other):
            os.unlink(other)
        raise
