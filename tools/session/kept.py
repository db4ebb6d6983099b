"""Boards that tock_look keeps on the way, so that going back needs no run from the start."""

from debugger.board import Board, NotDone

# As many steps as `tock boot` makes at most.
MOST_STEPS = 1000000000
# How many boards tock_look keeps.
PLACES = 256
# After multiples of how many steps boards are kept about the present, and all over the run. In between doubles of the
# first number count, each up to so many times itself away from the present.
NEAREST, FARTHEST, AROUND = 312500, 5000000, 4
# How many bytes the boards kept all over a run may take, and one of them at most; and how often it has its flash,
# with what is known of each instruction there.
MOST_MEMORY, EACH, TIMES_FLASH = 1 << 29, 400000, 5


class KeepingBoard(Board):
    """A board that takes in events which its script does not have, and is kept as it is and returned to."""

    def add(self, line):
        """Has an event come in, by its line of a script, after those of its time; or gives the word of the rule that
        this line breaks by itself, and nothing changes."""
        try:
            self.ask("add", line)
        except NotDone as answer:
            if answer.words[0] != "refused":
                raise
            return answer.words[1]
        return None

    def keep(self, place):
        """Keeps the board at a place, in place of what was kept there; at a place before it something is kept."""
        self.ask("keep", place)

    def return_to(self, place, told):
        """Has the board be as it was kept at a place, where it told where it was."""
        self.ask("return", place)
        self.steps, self.told = told.steps, told


class Kept:
    """A board as it was after some steps: what it told of where it was, its events, come in or still expected, and at
    which place it is kept."""

    def __init__(self, told, events, place=None):
        self.told, self.events, self.place = told, events, place

    def is_before(self, time):
        """Whether an event of a time comes behind all steps that were made."""
        return self.told.steps == 0 or self.told.time < time

    def missing(self, events):
        """The events that come in besides so that it has these ones; None where it cannot have these."""
        has = set(self.events)
        missing = [event for event in events if event not in has]
        is_so = all(self.is_before(event.time) for event in missing)
        return missing if is_so and in_order(self.events + missing) == events else None


def in_order(events):
    """Events by their times; those of one time stay as they are."""
    return sorted(events, key=lambda event: event.time)


class KeptBoards:
    """The boards of a run that are kept, by their steps; of an image of so many bytes."""

    def __init__(self, board, flash=0):
        self.board, self.found, self.back_at = board, {}, None
        self.nearest, self.farthest = NEAREST, FARTHEST
        while MOST_STEPS // self.farthest * (EACH + TIMES_FLASH * flash) > MOST_MEMORY:
            self.farthest *= 2

    def next_steps(self, steps):
        """After how many steps a board is kept next."""
        return (steps // self.nearest + 1) * self.nearest

    def is_wanted(self, steps, now):
        """Whether a board after so many steps is kept where the present is after others."""
        distance = self.nearest
        while distance < self.farthest and steps % (2 * distance) == 0:
            distance *= 2
        return distance >= self.farthest or abs(now - steps) <= AROUND * distance

    def keep(self, events):
        """Keeps the board as it is, with its events, in place of one that had as many steps; and no more those that
        are not wanted here."""
        now = self.board.steps
        self.found = {steps: kept for steps, kept in self.found.items()
                      if steps != now and (steps == self.back_at or self.is_wanted(steps, now))}
        place = min(set(range(PLACES)) - {kept.place for kept in self.found.values()})
        self.board.keep(place)
        self.found[now] = Kept(self.board.told, events, place)

    def keep_here(self, events):
        """Keeps the board where the present went back to, so that what is done there, or behind it, needs no run up to
        there, whatever it drops; of such boards the last one. The one of the start, which has the events of the script
        alone, stays."""
        if self.board.steps == 0:
            return
        if self.back_at is not None and self.back_at % self.nearest:
            self.found.pop(self.back_at, None)
        self.back_at = self.board.steps
        self.keep(events)

    def last_before(self, time, most, events):
        """The last one before a time, after at most so many steps, that can have these events, and those that it
        does not have yet."""
        for steps in sorted(self.found, reverse=True):
            kept = self.found[steps]
            missing = kept.missing(events) if steps <= most and kept.is_before(time) else None
            if missing is not None:
                return kept, missing
        raise LookupError("no board is kept from before %d" % time)
