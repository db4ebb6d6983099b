"""Plants wrong numbers and words in documents, and tells which of them nothing notices."""

import re

from checks import CHECKS
from documents import table_of, tables
from sentences import SENTENCES, filled
from values import values

# Sentences of other faults, each with what stands in place of what in a page.
EDITS = [
    ("docs/drivers.md", "no command 4", "no command 5"), ("docs/drivers.md", "8 (CANCEL)", "9 (CANCEL)"),
    ("docs/drivers.md", "subscribe upcall 0", "subscribe upcall 3"),
    ("docs/drivers.md", "read-write 1, upcall 2", "read-write 2, upcall 2"),
    ("docs/drivers.md", "*Lane*: its alarm", "*Lane*: its 3 alarms"), ("docs/manual.md", "`no-room`", "`no-place`"),
    ("README.md", "#time-partitions", "#time"), ("docs/drivers.md", "no allow fails for that", "an allow may fail"),
    ("docs/manual.md", "turns 55 restarts 0\n    leds", "turns 54 restarts 0\n    leds"),
    ("docs/manual.md", "| 9 NOMEM |", "| 8 NOMEM |"), ("docs/compatibility.md", "`wrong-flash`", "`bad-flash`")]


def other(cell):
    """A cell with another number or another word in backquotes; None where it has neither."""
    number = re.search(r"\d+", cell)
    if number:
        return cell[:number.start()] + str(int(number[0]) + 1) + cell[number.end():]
    return re.sub(r"`(\w)", r"`x\1", cell, count=1) if "`" in cell else None


def row_edits(page, line, row):
    """A page with one cell of a row changed, for each cell that can be; the row stands in the line of that number."""
    lines = page.split("\n")
    for cell in row:
        edited = lines[line].replace("| %s |" % cell, "| %s |" % other(cell), 1) if other(cell) else lines[line]
        if edited != lines[line]:
            yield "\n".join(lines[:line] + [edited] + lines[line + 1:])


def of_tables(pages, facts, faults):
    """Rows that a check reads, and of which neither it nor anything else notices a changed cell."""
    wrong = []
    for check in CHECKS:
        page = pages[check.page]
        table = table_of(page, check.heading, *check.head)
        for line, row in enumerate(table.rows, table.first + 1):
            edits = list(row_edits(page, line, row))
            seen = (not check.read(table, row) or any(check.fault({check.page: edit}, facts) for edit in edits)
                    or any(faults({**pages, check.page: edit}, facts) for edit in edits))
            if edits and not seen:
                wrong.append("%s:%d: no change of this row is noticed" % (check.page, line + 1))
    return wrong


def others(line):
    """A line with each of its numbers another one, with that number."""
    for number in re.finditer(r"(?<![\w.])\d+(?![\w.])", line):
        yield number[0], line[:number.start()] + str(int(number[0]) + 1) + line[number.end():]


def cells_left(pages, facts, faults, names):
    """Rows of tables with numbers that can be others, and nothing notices it; with these numbers."""
    rows = []
    for name, line in ((name, line) for name in names for table in tables(pages[name])
                       for line in range(table.first + 1, table.first + 1 + len(table.rows))):
        lines = pages[name].split("\n")
        left = [number for number, edited in others(lines[line])
                if not faults({**pages, name: "\n".join(lines[:line] + [edited] + lines[line + 1:])}, facts)]
        rows += ["%s:%d: %s in the row %s" % (name, line + 1, ", ".join(left), lines[line])] if left else []
    return rows


def unnoticed(pages, facts, faults):
    """What is planted and not noticed; and what is said of the documents as they are."""
    wrong, numbers = of_tables(pages, facts, faults), values(facts, pages)
    for page, sentences in SENTENCES.items():
        wrong += ["%s: nothing of the definitions is in: %s" % (page, sentence) for sentence in sentences
                  if filled(sentence, numbers) == sentence]
    for page, old, new in EDITS:
        edited = {**pages, page: pages[page].replace(old, new)}
        if edited[page] == pages[page] or not faults(edited, facts):
            wrong.append("%s: not noticed: %s in place of %s" % (page, new, old))
    return wrong
