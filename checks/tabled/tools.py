"""Numbers that tools and examples have, and that documents tell: they are read from these files' text. And numbers of
the definitions that tools repeat: sentences as those of documents, each of which has to stand in its file."""

import os
import re

import sections

TOP = os.path.dirname(os.path.dirname(os.path.dirname(os.path.abspath(__file__))))

REPEATED = {
    "tools/script": ["where it has more than {INPUT_LIMIT} bytes", "or in s, of {FREQUENCY:,} ticks each"],
    "tools/told/acts.py": ["MOST_EVENTS, MOST_STEPS = {EVENT_LIMIT}, {MOST_TURNS}"],
    "tools/told/commands.py": [
        "the objects of 1 to {MOST_FILES} files", "MOST_FILES = {MOST_FILES}\n", "1 to {DIGITS} decimal digits",
        'MOST = {"N": {MOST_TURNS}, "NUMBER": {MOST_NUMBER}, "OFFSET": {MOST_NUMBER}}'],
    "tools/told/edits.py": ["a name has 1 to {NAME_LIMIT} bytes"],
    "tools/told/files.py": ['("a flash image", {FLASH_LIMIT}), ("a script", {SCRIPT_LIMIT})'],
    "tools/told/images.py": ["FLASH_START, RAM_START = 0x{FLASH_START:x}, 0x{RAM_START:x}\n",
                             "BLOCK_UNIT = {FIXED_UNIT}\n",
                             "MOST_OBJECTS, LEAST_HEADER = {OBJECT_LIMIT}, {HEADER}\n"],
    "tools/told/places.py": ["RAM_SIZE, RAM_UNIT, KERNEL_ROOM, SLOTS = "
                             "{ram}, {RAM_UNIT}, {BLOCK_MORE}, {SLOT_COUNT}\n"],
    "tools/told/scripts.py": [
        '("`ram`", {RAM_LEAST}, {RAM_LIMIT}, "bytes, a multiple of {RAM_UNIT}")', '("`leds`", 0, {LED_LIMIT}, "LEDs")',
        '("`buttons`", 0, {BUTTON_LIMIT}, "buttons")', '("`slice`", 1, {SLICE_LIMIT}, "turns")',
        '("`partition`", 1, {WINDOW_LIMIT}, "ticks")', '("`uart`", 0, {BYTE_TICKS_LIMIT}, "ticks for a byte")',
        '("`storage`", 0, {STORAGE_LIMIT}, "bytes")', '("a storage request\'s number", 1, {storage-fault},',
        '("a threshold", 0, {threshold}, "restarts")', '("a time", 0, {event}, "ticks")',
        '"{FAULT_LIMIT} lines `storage-fault`"', '"{WORD_LIMIT} words of `random`"', '"{EVENT_LIMIT} lines `at`"',
        "a number has 1 to {DIGITS} decimal digits", "a name has 1 to {NAME_LIMIT} bytes",
        "a line has at most {INPUT_LIMIT}\"", 'name == "ram" and number % {RAM_UNIT}:',
        "digits = {WORD_DIGITS} if words"],
    "tools/told/typed.py": ["MOST_BYTES, LAST_TIME, TAP = {INPUT_LIMIT}, 2 ** {CLOCK_BITS} - 1,"],
    "tools/picture/spans.py": ["SLOTS = {SLOT_COUNT}\n"],
}


def found(path, pattern):
    """What a pattern finds in a file of the repository."""
    with open(os.path.join(TOP, path), encoding="utf-8") as file:
        return re.search(pattern, file.read(), re.M)[1]


def of_tools():
    """The numbers that documents tell."""
    return dict(ASSUMPTIONS=len(sections.ASSUMPTIONS), PORTED=len(sections.PORTED),
                NO_PROGRAM=int(found("tock", r"is_given \|\| exit (\d+)")),
                TAP=int(found("tools/told/typed.py", r", TAP = .*, (\d+)$")),
                TOLD_STEPS=int(found("tools/told/calls.py", r"^MOST_STEPS = (\d+)")),
                TOLD_LINES=int(found("tools/told/program.py", r"^MOST_LINES, ALL = (\d+)")),
                MANY_TURNS=int(found("tools/told/looked.py", r"^MANY_TURNS = (\d+)")),
                NEAR=int(found("tools/told/looked.py", r"^NEAR = (\d+)")),
                MOST_WINDOWS=int(found("tools/picture/spans.py", r"^MOST_WINDOWS = (\d+)")),
                MOST_ROWS=int(found("tools/picture/spans.py", r"^MOST_ROWS = (\d+)")),
                BENCH_MIB=int(found("bench/run", r"^FLASH_SIZE, SLOTS = ([\d_]+)")) // 2 ** 20,
                WINDOW=int(found("examples/scripts/windows.script", r"^partition (\d+)")))
