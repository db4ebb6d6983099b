"""What a tool answers to the words of its command line, beside what it does."""

import os
import signal
import sys

TOP = os.path.dirname(os.path.dirname(os.path.abspath(__file__)))


def words_given(usage):
    """The words. Where they ask for the usage, it goes to standard output, and the status is 0."""
    words = sys.argv[1:]
    if words in (["--help"], ["-h"]):
        signal.signal(signal.SIGPIPE, signal.SIG_DFL)
        print(usage.strip())
        sys.exit(0)
    return words


def refuse(why):
    """Ends with a line on standard error and status 1."""
    sys.exit("%s: %s" % (os.path.relpath(os.path.abspath(sys.argv[0]), TOP), why))


def program_given(path):
    """The whole path of a built tool that a word names; refused where it cannot be run."""
    if not os.path.exists(path):
        refuse("%s: No such file or directory" % path)
    if not os.path.isfile(path) or not os.access(path, os.X_OK):
        refuse("%s: it is no program that can be run" % path)
    return os.path.abspath(path)
