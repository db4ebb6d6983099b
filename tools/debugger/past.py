"""A board at a place of its run that may be anywhere in time."""

import os

from debugger.board import Board, MOST, Place, bytes_told, list_of
from debugger.conditions import holds
from debugger.search import Search, last_of

# How many turns are kept at a time where it goes back turn by turn, and how many pages of memory of each.
KEPT_TURNS, KEPT_PAGES = 256, 12
PAGE = 256
# How many boards look for what was last, side by side.
MOST_SEARCHES = 8
# In how many steps before a place it looks for what was last before it: in these first, and then in all.
WINDOWS = (20000, 400000)
# How many places it passes at which no condition holds before it tells what came on the way, and how many of them are
# asked for before they are judged.
PASSED, JUDGED_AT_ONCE = 1000, 64


def until_command(slot, most, area, watched, addresses):
    """The command that has a board go on to an address, a change, a denial, an exit or an act, or out of an area."""
    limits = list_of((most,) + area if area[1] else (most,))
    return "until %d %s %s %s" % (slot, limits, list_of(watched), list_of(addresses))


class Kept:
    """Turns of a process one after another: where it was after each, and pages of memory."""

    def __init__(self, slot=None):
        self.slot, self.places, self.pages = slot, {}, {}

    def has(self, slot, turns):
        return slot == self.slot and turns in self.places


class Past:
    """Where the debugger looks: after so many steps. The board of tock_look is brought there where it has to be."""

    def __init__(self, look, flash, script):
        self.board = Board(look, flash, script)
        self.searches = [Search(look, flash, script) for _ in range(min(os.cpu_count() or 1, MOST_SEARCHES))]
        self.steps = 0
        with open(flash, "rb") as file:
            self.flash = file.read()
        self.first = self.board.state()
        self.kept, self.at_turn = Kept(), None      # turns that were kept, and at which of them it looks
        self.places, self.pages = {}, {}            # what was asked where it looks
        self.asked = []                             # the pages that were asked last

    # Where it looks.

    def moved(self, answer):
        """The board moved, and it looks there."""
        self.steps, self.at_turn = self.board.steps, None
        told = self.board.told
        self.places, self.pages = {told.slot: told} if told else {}, {}
        return answer

    def sync(self):
        """Has the board be where it looks."""
        if self.board.steps != self.steps:
            self.board.seek(0, self.steps)

    def seek(self, steps):
        """Goes to after so many steps, back or on."""
        return self.moved(self.board.seek(0, steps))

    def seek_turn(self, slot, turns):
        """Goes to after a turn of a process, back or on."""
        if turns < self.place(slot).turns or self.board.steps > self.steps:
            self.board.boot()
        return self.moved(self.board.moved(self.board.ask("turns", slot, turns, MOST)))

    def time_after(self, steps):
        self.board.seek(0, steps)
        return self.board.place(next(iter(self.first.slots))).time

    def seek_time(self, time):
        """Goes to the first step after which it is a time, or to the last one."""
        if self.time_after(self.steps) >= time:
            self.board.boot()
        answer = self.board.moved(self.board.ask("to", 0, time, MOST))
        if self.board.told and self.board.told.time < time:
            # The next step ends later.
            answer = self.board.moved(self.board.ask("steps", 0, 1))
        return self.moved(answer)

    def until(self, slot, most, area, watched, addresses):
        """Goes on to an address, a change, a denial, an exit or an act, or, with an area, to a turn that leaves it."""
        self.sync()
        return self.moved(self.board.moved(self.board.ask(until_command(slot, most, area, watched, addresses))))

    def stops(self, until, pages, count):
        """The words of why it stops where it goes on so many times by a command; at each it looks there, and has pages
        of memory. The board is where the last one is."""
        self.sync()
        commands = [until] + ["memory %d %d %d" % page for page in pages]
        answers = self.board.ask_all(commands * count)
        last = Place(answers[-len(commands)][-1]).steps
        for n in range(0, len(answers), len(commands)):
            why, _ = self.moved(self.board.moved(answers[n]))
            self.pages = {page: bytes_told(told) for page, told in zip(pages, answers[n + 1:])}
            self.board.steps = last
            yield why

    def is_passed(self, slot, conditions):
        """Whether the breakpoint at which a process is has conditions, of which none holds."""
        place = self.place(slot)
        codes = conditions.get(place.pc)
        return bool(codes) and not holds(codes, place.x + [place.pc], self.memory)

    def stands_at(self, conditions):
        """The words of why it stops here, where a process is at an address one of whose conditions holds; or None."""
        found = last_of(self.searches, self.steps, self.steps + 1, [], sorted(conditions)) if conditions else None
        return found[1] if found and not self.is_passed(int(found[1][1], 16), conditions) else None

    def until_held(self, slot, most, area, watched, conditions):
        """Goes on as `until` does, and past addresses none of whose conditions holds, so many of them; gives the words
        of why it stopped. Each address comes with its conditions; with none it stops always. A board that goes on does
        not stop before its first step: where this is not the first part of a way, `stands_at` comes first."""
        judged = [self.first.slot_of_code(at) for at, codes in conditions.items() if codes]
        if not area[1]:
            # The place of the process that is judged comes with the answer.
            slot = next((found for found in judged if found is not None), slot)
        pages, count, passed = [], 1, 0
        while passed < PASSED:
            until = until_command(slot, max(1, most // count), area, watched, sorted(conditions))
            for why in self.stops(until, pages, count):
                if why[0] != "address" or not self.is_passed(int(why[1], 16), conditions):
                    return why
                passed += 1
                if list(self.pages) != pages:
                    # The board was brought here for a page, and goes on from here.
                    break
            count = min(2 * count, JUDGED_AT_ONCE) if list(self.pages) == pages else 1
            pages = list(self.pages)[-KEPT_PAGES:]
        return ["most"]

    def last(self, watched, conditions):
        """Goes back to the last place before this one at an address, or before a change of what is watched, and gives
        the words of why; to the start, and None, where there is none."""
        found = self.last_found(watched, conditions) if watched or conditions else None
        self.seek(found[0] if found else 0)
        return found[1] if found else None

    def last_found(self, watched, conditions):
        """After how many steps that place is, and the words of why; or None. What was recently is found at once."""
        judged = {at: codes for at, codes in conditions.items() if codes}
        addresses = sorted(conditions.keys() - judged.keys())
        now = high = self.steps
        for window in WINDOWS + (now,):
            low = max(0, now - window)
            found = last_of(self.searches, low, high, watched, addresses) if watched or addresses else None
            if judged:
                found = self.last_held(found[0] if found else low, high, judged) or found
            if found or low == 0:
                return found
            high = low

    def last_held(self, low, high, conditions):
        """The last place in steps from one to another where a condition holds: it goes there, and on over all."""
        self.seek(low)
        found, why = None, ["most"]
        while self.steps < high and why[0] != "done":
            here = self.stands_at(conditions) if why[0] != "address" else None
            why = here or self.until_held(0, high - self.steps, (0, 0), [], conditions)
            if why[0] == "address" and self.steps < high:
                found = (self.steps, why)
        return found

    # Back, turn by turn.

    def back(self, slot):
        """Goes to after the turn of a process before its last one; False where there is none."""
        turns = self.place(slot).turns - 1
        if turns < 0:
            return False
        if not self.kept.has(slot, turns):
            self.keep(slot, turns)
        self.steps, self.at_turn = self.kept.places[turns].steps, turns
        self.places = {slot: self.kept.places[turns]}
        self.pages = dict(self.kept.pages[turns])
        return True

    def keep(self, slot, last):
        """Keeps the turns of a process up to one of them."""
        self.kept, pages = Kept(slot), self.asked[-KEPT_PAGES:]
        self.board.boot()
        first = max(0, last - KEPT_TURNS + 1)
        each = 1 + len(pages)
        commands = []
        for turns in range(first, last + 1):
            commands.append("turns %d %d %d" % (slot, turns, MOST))
            commands += ["memory %d %d %d" % page for page in pages]
        answers = self.board.ask_all(commands)
        for n, turns in enumerate(range(first, last + 1)):
            self.kept.places[turns] = Place(answers[n * each][-1])
            self.kept.pages[turns] = {page: bytes_told(told) for page, told in zip(pages, answers[n * each + 1:])}
        self.board.steps = self.kept.places[last].steps

    # What there is to see.

    def place(self, slot):
        """Where a process is."""
        if slot not in self.places:
            self.sync()
            self.places[slot] = self.board.place(slot)
        return self.places[slot]

    def state(self):
        self.sync()
        return self.board.state()

    def page(self, slot, at):
        """The page of a process's memory that begins at an address."""
        key = (slot, at, min(PAGE, self.first.block(slot)[1] - at))
        if key in self.asked:
            self.asked.remove(key)
        self.asked.append(key)
        if key not in self.pages:
            # Turns that are kept without a page that is asked for are kept anew.
            self.kept = self.kept if self.at_turn is None else Kept()
            self.sync()
            self.pages[key] = self.board.memory(*key)
        return self.pages[key]

    def memory(self, at, count):
        """Bytes of flash, or of the memory of a process; fewer where it ends, none outside."""
        start = 0x20000000
        if start <= at < start + len(self.flash):
            return self.flash[at - start:at - start + count]
        slot = self.first.slot_at(at)
        if slot is None:
            return b""
        begin, end = self.first.block(slot)
        first = begin + (at - begin) // PAGE * PAGE
        last = min(at + count, end)
        data = b"".join(self.page(slot, page) for page in range(first, last, PAGE))
        return data[at - first:last - first]
