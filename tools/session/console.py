"""What is shown of a session's console: what processes print, what a person does, and what is denied."""

import codecs

from debugger.trace import line_text, line_time
from session.cells import parts_of

# How many lines of a trace are shown again where the session went back, and how many of the console are kept.
LAST_LINES, KEPT = 5000, 5000


def shown(text):
    """A text of which nothing can steer a terminal: what has no shape is told as its number."""
    return "".join(letter if letter.isprintable() or letter in "\n\t" else "\\x%02x" % ord(letter) for letter in text)


def event_text(words):
    """What a person sees of an event; nothing of an act, of which the board tells."""
    if words[2] == "input":
        text = bytes.fromhex(words[3]).decode("utf-8", "backslashreplace")
        return "> " + shown(text).replace("\n", "\\n").replace("\t", "\\t")
    return "" if words[2] == "do" else "[button %s is %sed]" % (words[3], words[2].rstrip("e"))


class Console:
    """Lines, each with the slot that printed it, or None of what the board or a person did; the view follows the last
    one, or stays where a person scrolled it."""

    def __init__(self):
        self.slot = None                    # the only slot that is shown, or None for all
        # The number of the first line that is kept, and of the one behind the view, or None where that follows.
        self.first, self.end = 0, None
        self.of_slot, self.of_events = None, []     # of which slot and which events the lines tell
        self.forget()

    def forget(self):
        self.lines, self.first, self.open, self.end = [], 0, False, None
        self.seen, self.done, self.now, self.decoders = 0, 0, 0, {}

    def take_in(self, lines, events, now):
        """Takes in what came since: lines of the trace, and events up to a time."""
        if self.slot != self.of_slot or events is not self.of_events or now < self.now or len(lines) < self.seen:
            self.forget()
            self.of_slot, self.of_events = self.slot, events
            self.seen = max(0, len(lines) - LAST_LINES)
            if self.seen:
                before = line_time(lines[self.seen])
                self.done = sum(event.time <= before for event in events)
        act = None
        for line in lines[self.seen:]:
            words = line.split()
            # What comes in at a time comes before all else, up to the act of which the line tells; the line of a
            # process that is listed stands behind its act.
            if not (act == words[:2] and words[2] == "out"):
                self.take_events(events, int(words[0][1:]), words[3] if words[2] == "act" else None)
            act = words[:2] if words[2:] == ["act", "list"] else None
            if words[2] == "out" and self.slot in (None, int(words[1])):
                self.print(int(words[1]), self.decoded(int(words[1]), bytes.fromhex(words[3])))
            elif words[2] in ("denied", "act") and self.slot in (None, int(words[1])):
                self.note("[%s]" % line_text(line))
        self.take_events(events, now)
        self.seen, self.now = len(lines), now
        dropped = max(0, len(self.lines) - KEPT)
        self.first += dropped
        del self.lines[:dropped]

    def take_events(self, events, time, verb=None):
        """Takes in the events up to a time, or up to the next act of a verb."""
        while self.done < len(events) and events[self.done].time <= time:
            words = events[self.done].words
            self.done += 1
            if event_text(words):
                self.note(event_text(words))
            if verb is not None and words[2:4] == ["do", verb]:
                break

    def decoded(self, slot, data):
        """Bytes that a slot printed, as text; of a letter that is not whole yet the rest is waited for."""
        if slot not in self.decoders:
            self.decoders[slot] = codecs.getincrementaldecoder("utf-8")("backslashreplace")
        return shown(self.decoders[slot].decode(data).replace("\r\n", "\n"))

    def note(self, text):
        self.open = False
        self.add(None, text)

    def print(self, slot, text):
        *whole, last = text.replace("\t", "    ").split("\n")
        for piece in whole:
            self.add(slot, piece)
            self.open = False
        if last:
            self.add(slot, last)
            self.open = True

    def add(self, slot, piece):
        """A piece of a line: of the one that is open, whoever began it, as on a serial line, or of a new one."""
        if self.open:
            self.lines[-1] = (slot, self.lines[-1][1] + piece)
        else:
            self.lines.append((slot, piece))

    def last_in_view(self):
        """How many of the lines that are kept stand up to the end of the view."""
        return len(self.lines) if self.end is None else max(0, min(self.end - self.first, len(self.lines)))

    def below(self):
        """How many lines stand below the view."""
        return len(self.lines) - self.last_in_view()

    def scroll(self, count, height):
        """Has the view go up by so many lines, or down by less than none, in so many rows."""
        end = max(min(height, len(self.lines)), self.last_in_view() - count)
        self.end = None if end >= len(self.lines) else self.first + end

    def rows(self, width, height):
        """The rows in view, each with its slot."""
        rows = []
        for slot, text in reversed(self.lines[:self.last_in_view()]):
            rows = [(slot, part) for part in parts_of(text, width)] + rows
            if len(rows) >= height:
                break
        return rows[-height:] if height > 0 else []
