"""The program, run once more on the same files, and what is told."""

import subprocess
import sys

# How many lines tell of a run, and the word by which one asks for all.
MOST_LINES, ALL = 6, "TOCK_TELL=all"


def shown(letter):
    """A letter of a line, or of a byte or a letter that cannot be shown its number."""
    if letter.isprintable():
        return letter
    return "\\x%02x" % (ord(letter) & 0xFF if "\udc80" <= letter <= "\udcff" else ord(letter))


def tell(*lines):
    """Writes lines on standard error."""
    for line in lines:
        print("tock: " + "".join(map(shown, line)), file=sys.stderr)


def shortened(subjects):
    """The lines of some subjects; where they are more than a run has, of each subject the first ones, and how many
    more there are."""
    subjects = [list(lines) for lines in subjects]
    total = sum(map(len, subjects))
    room = MOST_LINES if total <= MOST_LINES else MOST_LINES - 1
    kept = [min(len(lines), 1) for lines in subjects]
    for number, lines in enumerate(subjects):
        kept[number] += min(len(lines) - kept[number], room - sum(kept))
    told = [line for lines, count in zip(subjects, kept) for line in lines[:count]]
    return told + ["%d lines more: with %s all are told" % (total - len(told), ALL)] * (total > MOST_LINES)


class Program:
    """What the built program answers."""

    def __init__(self, path):
        self.path = path

    def lines(self, *words):
        """The lines of its text."""
        end = subprocess.run([self.path, *words], stdin=subprocess.DEVNULL, stdout=subprocess.PIPE)
        return end.stdout.decode("ascii", "replace").splitlines()

    def report(self, flash, script):
        """The lines behind the `==` of a run of no step."""
        return self.lines("boot", flash, script, "--turns", "0")

    def words(self, *words, given=b""):
        """The words of each line of its text, as it comes; its standard input has what is given."""
        with subprocess.Popen([self.path, *words], stdin=subprocess.PIPE, stdout=subprocess.PIPE) as run:
            try:
                run.stdin.write(given)
                run.stdin.close()
                for line in run.stdout:
                    yield line.decode("ascii", "replace").split()
            finally:
                run.kill()

    def trace(self, flash, script, turns, last, given=b""):
        """The words of each line of a trace, up to the first of a later time."""
        for words in self.words("trace", flash, script, "--turns", str(turns), given=given):
            if words[0] == "==" or int(words[0][1:]) > last:
                return
            yield words
