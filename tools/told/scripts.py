"""Why a script is refused: what its bad line should be."""

import re

from commands import near
from files import content
from program import tell

# Each line that a script may have, by its first word.
LINES = {
    "ram": "ram N", "leds": "leds N", "buttons": "buttons N", "slice": "slice N", "partition": "partition N",
    "start": "start N", "uart": "uart N", "storage": "storage N",
    "policy": "policy stop, policy restart or policy threshold N", "filter": "filter open or filter strict",
    "storage-fault": "storage-fault K", "random": "random W ..",
    "at": "at T input H, at T press B, at T release B or at T do VERB NAME",
}
# What a number of a line is, the least and the most that it may be, and in which unit.
RANGES = {
    "ram": ("`ram`", 4096, 262144, "bytes, a multiple of 1024"), "leds": ("`leds`", 0, 16, "LEDs"),
    "buttons": ("`buttons`", 0, 16, "buttons"), "slice": ("`slice`", 1, 1000000, "turns"),
    "partition": ("`partition`", 1, 1000000, "ticks"), "start": ("`start`", 0, 4294967295, "ticks"),
    "uart": ("`uart`", 0, 1000, "ticks for a byte"), "storage": ("`storage`", 0, 4096, "bytes"),
    "storage-fault": ("a storage request's number", 1, 4294967295, "(the first is 1)"),
    "policy": ("a threshold", 0, 4294967295, "restarts"), "at": ("a time", 0, 4294967295, "ticks"),
}
SECOND = {"policy": ("stop", "restart", "threshold"), "filter": ("open", "strict")}
EVENTS, VERBS = ("input", "press", "release", "do"), ("list", "stop", "start", "terminate", "restart")
# What tools/script makes a script of, and no script has: a line that begins with a time, or one of these words.
TIME, TYPED = re.compile(r"\+?\d{1,10}(ms|s|)$"), ("type", "send", "tap", "ticks-per-ms")
MOST = {"storage-fault": "64 lines `storage-fault`", "random": "4096 words of `random`", "at": "4096 lines `at`"}


def is_number(word):
    return word.isascii() and word.isdigit() and len(word) <= 10


def setting(before, name):
    """The words of the line above that makes a setting, and its number, or None."""
    return next(((number, words) for number, words in before if words[0] == name), None)


def last(before, name):
    """The last line above that begins with a word, or None."""
    return next(((number, words) for number, words in reversed(before) if words[0] == name), None)


def is_unpartitioned(words):
    """Whether a line is known, but not with time partitions."""
    is_act = words[2:3] == ["do"] and (len(words) < 4 or words[3] in VERBS)
    return words[0] == "buttons" or words[0] == "at" and (words[2:3] in (["press"], ["release"]) or is_act)


def is_typed(words):
    """Whether a line is one of those of which tools/script makes a script."""
    what = words[2:3] if words[0] == "at" else words[1:2] if TIME.match(words[0]) else words[:1]
    known = TYPED + EVENTS + VERBS if TIME.match(words[0]) else TYPED
    return what != [] and what[0] in known


def unknown_word(words, before):
    """Which word is unknown, and which are known there."""
    if is_typed(words):
        return "tools/script makes a script of such lines: tools/script FILE > SCRIPT"
    partition = setting(before, "partition")
    if partition and is_unpartitioned(words):
        return "after `partition` (line %d) there is no line of buttons or of an operator" % partition[0]
    known, word = LINES, words[0]
    if word in SECOND and len(words) > 1:
        known, word = SECOND[word], words[1]
    elif word == "at" and len(words) > 2:
        known, word = (VERBS, words[3]) if words[2] == "do" and len(words) > 3 else (EVENTS, words[2])
    return "`%s` is none of %s%s" % (word, ", ".join(known), near(word, known))


def form(words):
    """How the line should be, by its first words."""
    if words[0] == "at" and len(words) > 2:
        return {"do": "at T do VERB NAME", "input": "at T input H"}.get(words[2], "at T %s B" % words[2])
    if words[0] == "policy" and len(words) > 1:
        return "policy threshold N" if words[1] == "threshold" else "policy " + words[1]
    return LINES[words[0]]


def wrong_words(words, before):
    return "it has too few words, or too many: %s" % form(words) + (
        "; a comment has a line of its own" if any(word.startswith("#") for word in words) else "")


def numbers(words):
    """The words of a line that have to be numbers."""
    if words[0] == "at":
        return [words[1]] + ([words[3]] if words[2] in ("press", "release") else [])
    return words[2:] if words[0] == "policy" else words[1:2]


def bad_number(words, before):
    bad = next(word for word in numbers(words) if not is_number(word))
    return "`%s` is no number: a number has 1 to 10 decimal digits" % bad


def bad_hex(words, before):
    """Which word is no hex, and why."""
    digits = 8 if words[0] == "random" else None
    for word in words[1:] if digits else words[3:]:
        odd = next((letter for letter in word if letter not in "0123456789abcdefABCDEF"), None)
        if odd:
            return "`%s`: `%s` is no hex digit" % (word, odd)
        if len(word) != 8 if digits else len(word) % 2:
            return "`%s` has %d hex digit%s; %s" % (
                word, len(word), "s" * (len(word) > 1), "a random word has eight" if digits else "bytes have two each")


def out_of_range(words, before):
    """Which number is out of its range, and what that is."""
    name, number = words[0], int(numbers(words)[0]) if numbers(words) else 0
    what, least, most, unit = RANGES[name]
    if not least <= number <= most or name == "ram" and number % 1024:
        return "%s is %d to %d %s, and here it is %d" % (what, least, most, unit, number)
    if words[2] == "do":
        return "a name has 1 to 32 bytes of visible ASCII"
    buttons = setting(before, "buttons")
    if not buttons or int(buttons[1][1]) == 0:
        return "there is no button %s: a line `buttons N` above says how many there are" % words[3]
    return "there is no button %s: by line %d the buttons are 0 to %d" % (
        words[3], buttons[0], int(buttons[1][1]) - 1)


def repeated(words, before):
    return "`%s` was set before, in line %d" % (words[0], setting(before, words[0])[0])


def order(words, before):
    """Which line stands too early or too late."""
    event = last(before, "at")
    if words[0] == "at":
        return "its time, %s, is before that of line %d, %s" % (words[1], event[0], event[1][1])
    if event:
        return "settings come before the first `at`, which is line %d" % setting(before, "at")[0]
    number, fault = last(before, "storage-fault")
    return "the numbers of faults rise, and line %d has %s" % (number, fault[1])


def too_many(words, before):
    if words[0] == "at" and words[2] == "input" and len(words[3]) > 128:
        return "it has %d bytes, and a line has at most 64" % (len(words[3]) // 2)
    return "there are at most " + MOST[words[0]]


REASONS = {"unknown-word": unknown_word, "words": wrong_words, "bad-number": bad_number, "bad-hex": bad_hex,
           "out-of-range": out_of_range, "repeated": repeated, "order": order, "too-many": too_many}


def lines_of(script):
    """The lines of a script that say something, each with its number and its words."""
    found = []
    for number, line in enumerate(content(script).split(b"\n"), 1):
        line = line[:-1] if line.endswith(b"\r") else line
        words = line.decode("utf-8", "surrogateescape").replace("\t", " ").split(" ")
        words = [word for word in words if word]
        if words and not words[0].startswith("#"):
            found.append((number, words))
    return found


def tell_line(program, flash, script):
    """Tells the line for which the script is refused, which the program names again, and what it should be."""
    words = next(iter(program.report(flash, script)), "").split()
    if words[:1] != ["script"]:
        return
    number, rule = int(words[1]), words[2]
    text = content(script).split(b"\n")[number - 1].rstrip(b"\r").decode("utf-8", "surrogateescape")
    lines = lines_of(script)
    line = next(words for place, words in lines if place == number)
    tell("%s line %d: %s" % (script, number, text[:160]),
         "%s line %d: %s: %s" % (script, number, rule, REASONS[rule](line, [it for it in lines if it[0] < number])))
