"""Looking for the last place of a part of a run, by boards beside the one that is looked at."""

from debugger.board import Board, list_of

# For how many steps another board is worth its way there.
LEAST = 200000


class Search:
    """A board that looks for places; it is made where it is first needed."""

    def __init__(self, look, flash, script):
        self.words, self.board, self.unread = (look, flash, script), None, []

    def send(self, low, high, watched, addresses):
        """Has the board look from one step to another; its answer is read later."""
        self.board = self.board or Board(*self.words)
        self.finish()
        commands = ["boot"] if low < self.board.steps else []
        commands.append("steps 0 %d" % (low - (0 if commands else self.board.steps)))
        commands.append("last 0 %d %s %s" % (high - low, list_of(watched), list_of(addresses)))
        self.board.send(commands)
        self.board.steps, self.unread = high, commands

    def finish(self):
        """Reads what was not read, and gives the last answer."""
        answers = [self.board.answer(command) for command in self.unread]
        self.unread = []
        return answers[-1] if answers else None

    def found(self):
        """After how many steps the last place is that was looked for, and the words of why; or None."""
        lines = self.finish()
        return (int(lines[0].split()[1]), lines[1].split()[1:]) if lines[0] != "none" else None


def last_of(searches, low, high, watched, addresses):
    """The last place from one step to another, each board looking at a part of them; the latest part decides."""
    count = max(1, min(len(searches), (high - low) // LEAST))
    ends = [low + (high - low) * n // count for n in range(count + 1)]
    for search, begin, end in zip(searches, ends, ends[1:]):
        search.send(begin, end, watched, addresses)
    return next((found for found in (search.found() for search in reversed(searches[:count])) if found), None)
