"""What the page on security has to say: each row of its tables of threats and of requirements cites what counters or
meets it, or says that nothing does; its table of channels has each field of a world, and nothing that is none."""

import re

from cited import CITED
from sources import fields_of

# The last cell of a table's head, and the words by which a row says that nothing is cited.
COLUMNS = {"Countered by": "not countered", "Met by": "not met"}
CHANNELS = "Channels"
# The records of which each field is a channel, or part of one, or is said to be none, by their files.
WORLD = {"kernel_model/specs/World.antt": ["World", "Pace", "Devices", "WaitingSlots", "Clock", "Present"],
         "board_devices/specs/SerialLine.antt": ["SerialLine"]}


def rows_of(page):
    """The rows of a page's tables, each with its line's number, the heading above it and the last cell of its head."""
    heading, head, last = "", None, ""
    for number, line in enumerate(page.split("\n"), 1):
        heading = line.lstrip("# ") if line.startswith("#") else heading
        cells = [cell.strip() for cell in line.strip("|").split(" | ")]
        if not line.startswith("|"):
            head = None
        elif head is None:
            head, last = cells, cells[-1].strip("| ")
        elif not re.fullmatch(r"[|\s:-]+", line):
            yield number, heading, last, cells


def without_citation(page):
    """Rows of threats and of requirements that neither cite anything nor say that there is nothing to cite."""
    return ["%d: neither a citation nor `%s`" % (number, COLUMNS[last]) for number, _, last, cells in rows_of(page)
            if last in COLUMNS and not CITED.search(cells[-1]) and COLUMNS[last] not in cells[-1]]


def channels_lacking(page, read, world=None):
    """Fields of a world of which the table of channels has no row, and names there that are no field."""
    fields = {name for place, records in (world or WORLD).items() for record in records
              for name in fields_of(read(place), record)}
    rows = [(number, name) for number, heading, _, cells in rows_of(page) if heading == CHANNELS
            for name in re.findall(r"`(\w+)`", cells[0])]
    return (["%d: a world has no field `%s`" % row for row in rows if row[1] not in fields]
            + ["no channel is said of the field `%s`" % name for name in sorted(fields - {name for _, name in rows})])
