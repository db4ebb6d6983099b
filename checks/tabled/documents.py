"""Reads documents: their tables by heading and by what the tables' own heads say."""

import re
from dataclasses import dataclass, field


@dataclass
class Table:
    """A table of a document: the heading above it, the cells of its head, its rows, and its first line's number."""
    heading: str
    head: list
    rows: list = field(default_factory=list)
    first: int = 0

    def column(self, name):
        """The number of the column of a name, None where there is none."""
        return self.head.index(name) if name in self.head else None

    def cell(self, row, name):
        """The cell of a row in the column of a name, "" where there is none."""
        at = self.column(name)
        return row[at] if at is not None and at < len(row) else ""


def cells(line):
    """The cells of a line of a table."""
    return [cell.strip() for cell in re.split(r"(?<!\\)\|", line.strip().strip("|"))]


def tables(text):
    """The tables of a document, in their order."""
    found, heading, now = [], "", None
    for number, line in enumerate(text.split("\n"), 1):
        if line.startswith("#"):
            heading = line.lstrip("# ")
        if not line.startswith("|"):
            now = None
        elif now is None:
            now = Table(heading, cells(line), first=number)
            found.append(now)
        elif not re.fullmatch(r"[|\s:-]+", line):
            now.rows.append(cells(line))
    return found


def table_of(text, heading, *head):
    """The table below a heading whose head begins so; None where there is none."""
    for table in tables(text):
        if table.heading.startswith(heading) and table.head[:len(head)] == list(head):
            return table
    return None


def quoted(cell):
    """What stands in backquotes in a cell."""
    return re.findall(r"`([^`]*)`", cell)


def plain_lines(text):
    """The lines of a document with their numbers, without blocks of code and of runs."""
    return [(number, line) for number, line in enumerate(text.split("\n"), 1) if not line.startswith("    ")]
