"""Why a file could not be read, or is too long."""

import os

from program import tell

# What a file is, and how many bytes it has at most.
FLASH, SCRIPT = ("a flash image", 1048576), ("a script", 262144)


def is_kept(name):
    """Whether a file can be read once more: a pipe cannot."""
    return os.path.isfile(name) or name == os.devnull


def are_kept(*names):
    return all(map(is_kept, names))


def why_unread(name):
    """The system's reason why a file cannot be read, or None; None too for a device or a pipe, which might wait."""
    if os.path.exists(name) and not os.path.isfile(name) and not os.path.isdir(name):
        return None
    try:
        with open(name, "rb") as file:
            file.read(1)
    except (OSError, ValueError) as error:
        return getattr(error, "strerror", None) or "it is no name of a file"
    return None


def tell_unread(*names):
    """Tells the first file that cannot be read."""
    for name in names:
        reason = why_unread(name)
        if reason:
            tell("%s: %s" % (name, reason))
            return


def tell_too_long(*files):
    """Tells the first file that has more bytes than there may be; each comes with what it is."""
    for name, (what, most) in files:
        if is_kept(name) and os.path.getsize(name) > most:
            tell("%s: it has %d bytes, and %s has at most %d" % (name, os.path.getsize(name), what, most))
            return


def content(name):
    with open(name, "rb") as file:
        return file.read()
