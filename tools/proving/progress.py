"""Tells how many crates are proved, and about how long the others take."""

import sys
import time

# How many seconds a KiB of functions takes before any was measured here, on four processors.
EXPECTED = 1.0

# How many seconds nothing is told after something was.
PAUSE = 10


def tell(*words):
    print("tock:", *words, file=sys.stderr, flush=True)


def minutes(seconds):
    """About how many minutes, in words."""
    number = int(seconds / 60 + 0.5)
    return {0: "less than a minute", 1: "about a minute"}.get(number, "about %d minutes" % number)


class Progress:
    """How far the judge is with crates, of each of which the size of its functions is given, in bytes."""

    def __init__(self, sizes):
        self.left, self.total = dict(sizes), len(sizes)
        # Since when it proves, how much was proved since then, and when something was told last.
        self.begun, self.proved, self.told = time.monotonic(), 0, None

    def begin(self):
        tell("proving the %d crates that the program needs, and building it, once; this takes %s"
             % (self.total, minutes(self.expected())))

    def hears(self, name, is_proved):
        """Tells of a crate that passed, now and then; one that was proved by an earlier run took no time."""
        size = self.left.pop(name, 0)
        self.proved += size if is_proved else 0
        now = time.monotonic()
        if self.told is None or now - self.told >= PAUSE or not self.left:
            self.told = now
            tell("proved %d of %d crates; %s left" % (self.total - len(self.left), self.total,
                                                      minutes(self.expected())))

    def expected(self):
        """About how many seconds the others take: at first as expected, and as those took that were proved here the
        more of them there are. The first crates wait for each other, and so tell little."""
        left = sum(self.left.values())
        if not self.proved:
            return left * EXPECTED / 1024
        weight = self.proved / (self.proved + left)
        measured = (time.monotonic() - self.begun) / self.proved
        return left * (weight * measured + (1 - weight) * EXPECTED / 1024)
