"""Words and numbers of errors wherever a document has them: each error code has its number, and each word with a hyphen
in backquotes is one that the tool writes or reads."""

import re

from documents import plain_lines

PLACES = [("board_report/Words", name) for name in ("rule_text", "fault_text", "call_rule_text")] + [
    ("board_report/FlashList", "bad_text"), ("board_report/FlashList", "verdict_text"),
    ("script_text/Rules", "name_of_rule"), ("tool_words/Refusals", "image_fault_text")]
# Words with a hyphen that are none of rules and verdicts: a line of scripts, and names of other things.
OTHERS = {"storage-fault", "picolibc-riscv64-unknown-elf", "riscv64-unknown-elf-gcc", "gdb-multiarch", "libtock-sync",
          "libtock-c", "libtock-rs"}


def known(facts):
    """The words of rules, verdicts and causes."""
    return {word for place, name in PLACES for word in facts.words(place, name).values()} | OTHERS


def wrong_words(page, text, words):
    """Words with a hyphen that nothing is called."""
    return ["%s:%d: there is no `%s`" % (page, number, word) for number, line in plain_lines(text)
            for word in re.findall(r"`([a-z]+(?:-[a-z0-9]+)+)`", line) if word not in words]


def wrong_codes(page, text, codes):
    """Names of error codes beside another number."""
    wrong = []
    for number, line in plain_lines(text):
        for code, name in re.findall(r"\b(\d+) \(?([A-Z]{4,})\b", line):
            if name in codes and codes[name] != int(code):
                wrong.append("%s:%d: %s is %d, not %s" % (page, number, name, codes[name], code))
    return wrong


def section(text, heading):
    """The lines of prose below a heading, up to the next one."""
    below = text.split("\n## %s\n" % heading)[-1].split("\n## ")[0]
    return "\n".join(line for _, line in plain_lines(below) if not line.startswith("|"))


def wrong_numbers(at, prose, commands, upcalls, buffers):
    """Commands, upcalls and buffers of which a driver's section speaks, and which the driver has not; or, where it says
    that there is none, has."""
    named = {("command", int(number), "no" not in negated)
             for negated, number in re.findall(r"(no )?\bcommand (\d+)", prose)}
    named |= {("upcall", int(number), True) for number in re.findall(r"\b(?:upcall|subscribe) (\d+)", prose)}
    named |= {(kind, int(number), True)
              for kind, number in re.findall(r"\b(read-only|read-write|readable) (\d+)", prose)}
    there = {("command", number) for number in commands} | {("upcall", number) for number in upcalls}
    there |= {(kind, int(number)) for kind, number in (buffer.split() for buffer in buffers)}
    return ["%s: speaks of %s %d" % (at, kind, number)
            for kind, number, is_there in sorted(named) if ((kind, number) in there) != is_there]


def untold(text, covered):
    """The lines of prose with numbers that nothing covers: their numbers, and those that are left in each."""
    left = {}
    for number, line in plain_lines(text):
        if line.startswith(("|", "#")):
            continue
        for piece in covered:
            line = re.sub(piece, "", line)
        numbers = re.findall(r"(?<![\w#/.])\d[\d,]*\b(?![\w#/])", line)
        if numbers:
            left[number] = numbers
    return left
