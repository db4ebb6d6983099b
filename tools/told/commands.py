"""What each command does, and the word that makes a command line none."""

import difflib

from program import ALL, MOST_LINES, tell

# The words of each command, and what it does.
COMMANDS = {
    "boot": ("FLASH SCRIPT --turns N", "runs the applications of a flash image; writes what they print, and a report"),
    "trace": ("FLASH SCRIPT --turns N", "makes the same run; writes each call, denial, act and output, and the report"),
    "list": ("FLASH", "tells the objects of a flash image; runs nothing"),
    "soak": ("NUMBER --turns N", "runs eight applications that are generated from a number"),
    "pack": ("FILE ..", "writes one image: the objects of 1 to 64 files, one behind another"),
    "enable": ("FLASH OFFSET", "writes the image with the object at that offset enabled"),
    "disable": ("FLASH OFFSET", "writes it with that object disabled"),
    "rename": ("FLASH OFFSET NAME", "writes it with another package name of that object"),
}
# The most that a number may be.
MOST = {"N": 1000000000, "NUMBER": 4294967295, "OFFSET": 4294967295}
MOST_FILES = 64


def tell_help():
    """A line for each command."""
    for name, (words, does) in COMMANDS.items():
        tell("%-30s  %s" % (name + " " + words, does))
    tell("a FLASH is a flash image, a SCRIPT says what devices do; docs/manual.md tells of both, and of each answer")
    tell("TOCK_QUIET=1 tells nothing on standard error, TOCK_PLACES=1 also where each process lies, "
         "%s more than %d lines of a run" % (ALL, MOST_LINES))


def near(word, known):
    """A known word that one may have meant, as the end of a sentence."""
    found = difflib.get_close_matches(word, known, 1)
    return "; is it `%s`?" % found[0] if found else ""


def why_no_number(kind, word):
    """Why a word is not the number that it should be, or None."""
    if not word.isascii() or not word.isdigit() or len(word) > 10:
        return "%s has 1 to 10 decimal digits, and no sign" % kind
    return "%s is at most %d" % (kind, MOST[kind]) if int(word) > MOST[kind] else None


def why_no_word(kind, word):
    """Why a word does not stand where one of a kind is expected, or None."""
    if kind in MOST:
        return why_no_number(kind, word)
    return "here `--turns` is expected" if kind == "--turns" and word != kind else None


def why_no_command(words):
    """The first word that is wrong, and why; or what is lacking."""
    if not words:
        return "there is no command; ./tock --help tells which there are"
    name, given = words[0], words[1:]
    if name not in COMMANDS:
        return "`%s` is no command%s; ./tock --help tells which there are" % (name, near(name, COMMANDS))
    expected = COMMANDS[name][0].split()
    if name == "pack":
        if len(given) > MOST_FILES:
            return "pack takes at most %d files, and here are %d" % (MOST_FILES, len(given))
        expected = ["FILE"] * max(len(given), 1)
    for kind, word in zip(expected, given):
        why = "it is not UTF-8" if "\udc80" <= max(word, default="") <= "\udcff" else why_no_word(kind, word)
        if why:
            return "`%s`: %s" % (word, why)
    if len(given) < len(expected):
        return "%s %s: there is no %s" % (name, COMMANDS[name][0], expected[len(given)])
    return "`%s` is a word too many: %s %s" % (given[len(expected)], name, COMMANDS[name][0])


def tell_words(words):
    """Tells what is wrong with the words of a command line, or of each command where that was asked for."""
    if words and words[0] in ("--help", "-h"):
        tell_help()
    else:
        tell(why_no_command(words))
