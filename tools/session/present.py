"""A board whose script is still being written: where it is, and what it told on the way.

The present is a time. Each step that was made began before it, and ended at it or before. What a person does comes in
at the present, or one tick later where the board's own time is the present already: so it changes none of the steps
that were made. A pass that would end later than the present is not made yet: it ends sooner where an event comes.
"""

import os

from debugger.board import MOST, Refused
from session.kept import MOST_STEPS, Kept, KeepingBoard, KeptBoards, in_order


class BrokenRule(Exception):
    """An event that the board does not take, and the script's word of the rule that it breaks."""

    def __init__(self, event, rule):
        super().__init__(rule)
        self.event, self.rule = event, rule


class Present:
    """A board of tock_look that goes on to a time, with the events of its script and others, and what its steps told
    but for their calls."""

    def __init__(self, look, flash, script):
        self.board, self.events = KeepingBoard(look, flash, script, is_apart=True), []
        self.now, self.lines = 0, []
        try:
            self.board.moved(self.board.ask("to", 0, 0, 0))
            if self.board.told is None:
                raise Refused("no slot has a process: `./tock list` tells why")
            self.kept = KeptBoards(self.board, os.path.getsize(flash))
        except BaseException:
            self.end()
            raise

    def begin(self, events):
        """Tells which events the script has; the board is kept as it is at the start."""
        self.events = events
        self.kept.keep(events)

    @property
    def steps(self):
        return self.board.steps

    @property
    def time(self):
        """The board's own time."""
        return self.board.told.time

    @property
    def next(self):
        """The time at which what a person does now comes in."""
        return self.now if self.here().is_before(self.now) else self.time + 1

    @property
    def is_full(self):
        return self.steps >= MOST_STEPS

    def here(self):
        return Kept(self.board.told, self.events)

    def bring(self, events, now):
        """Has the board have other events, which are the same before a time, and be at that time, which is the present
        or came before it. Where one of them breaks a rule all stays as it was."""
        before = self.events, self.now, self.steps
        try:
            self.stand(events, now, self.steps if now == self.now else MOST_STEPS)
        except BrokenRule:
            self.stand(*before)
            raise
        # What was told later is not told yet.
        while self.lines and time_of(self.lines[-1]) >= now:
            self.lines.pop()

    def stand(self, events, now, most):
        """Has the board have these events, and be at a time, after at most so many steps."""
        missing = self.here().missing(events) if now == self.now else None
        if missing is None:
            # In the present what is done comes behind all steps that were made, also one that ended at this time.
            kept, missing = self.kept.last_before(now if now < self.now else now + 1, most, events)
            self.board.return_to(kept.place, kept.told)
            self.events = kept.events
            self.add_all([event for event in missing if event.time <= now])
            self.move("to", now, most - self.steps)
            # Of what comes in later this board has nothing, for it may be dropped.
            self.kept.keep_here(self.events)
            missing = [event for event in missing if event.time > now]
        self.add_all(missing)
        # After an event that was refused the board may still be where it was kept.
        self.move("to", now, most - self.steps)
        self.now = now

    def add_all(self, missing):
        """Has these events come in besides, one after another."""
        for event in missing:
            rule = self.board.add(event.lines[-1].rstrip("\n"))
            if rule:
                raise BrokenRule(event, rule)
            self.events = in_order(self.events + [event])

    def go_to(self, now):
        """Goes to a time, which becomes the present: back, or on as far as the board goes."""
        now = min(now, MOST)
        if now < self.now:
            self.bring(self.events, now)
        elif now > self.now and not self.is_full:
            self.lines += self.move("told", now, MOST_STEPS - self.steps)
            self.now = self.time + 1 if self.is_full else now

    def move(self, word, time, count):
        """Makes the steps that begin before a time and end at it or before, at most so many, and keeps boards on the
        way; gives what the command of that word tells of them."""
        lines, last = [], self.steps + count
        while self.steps < last:
            end = min(last, self.kept.next_steps(self.steps))
            lines += self.board.moved(self.board.ask(word, 0, time, end - self.steps))[1]
            if self.steps < end:
                break
            if self.kept.next_steps(end - 1) == end:
                self.kept.keep(self.events)
        return lines

    def step(self, count):
        """Makes so many steps, or as many as are left, whatever the time is then."""
        first, last = self.steps, min(self.steps + count, MOST_STEPS)
        self.lines += self.move("told", MOST, last - 1 - first)
        began, before = self.time, self.steps
        self.lines += self.move("told", MOST, last - before)
        if self.steps > before:
            self.now = max(self.now, began + 1, self.time)
        elif before > first:
            # Fewer were left, and the last of them began at this time at the latest.
            self.now = max(self.now, self.time + 1)

    def state(self):
        return self.board.state()

    def end(self):
        self.board.stop()


def time_of(line):
    """The time at which the step of a line began."""
    return int(line[1:line.index(" ")])
