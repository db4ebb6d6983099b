"""Finds in a document what it cites: names in backquotes before ` in ` or ` (` and a place in backquotes, which is a
crate or a file of one; and each file that stands alone. A file without its crate, or its folder, stands beside the file
before it in the line. In a section whose first paragraph has places, the names with which a line of its lists begins
are cited from these. What stands behind `, clause` or `, field` is one of the function or record before it."""

import glob
import os
import re
from dataclasses import dataclass, field
from functools import cache

import items
import sources
from items import functions_named

NAMES = r"((?:`[A-Za-z_][\w:]*`(?:, clauses? |, fields? |, | and | of )?)+)"
# A file, by its crate, its folder there and its name, of which the first two may lack.
FILE = re.compile(r"`(crates/)?(?:(?:([a-z]\w*)/)?((?:src|specs|proofs)(?:/\w+)*)/)?(\w+\.(?:rt|antt))`")
WHOLE = r"[a-z]\w*/(?:src|specs|proofs)/[\w/]+\.\w+"
CITED = re.compile(NAMES + r"(?: in | \()`(?:crates/)?(%s|[a-z]\w*)`" % WHOLE)


@dataclass
class Citation:
    """Names that a line of a document cites, the places where they are to be found, and the heading above the line; and
    of names that are a clause or a field with what it is one of."""
    line: int
    heading: str
    names: list
    places: list
    parts: list = field(default_factory=list)


def reader(top):
    """What reads the sources of a crate, or one file of it, of a repository; nothing where there is none."""
    def text_of(place):
        path = os.path.join(top, "crates", place)
        inside = [os.path.join(path, "src", "**", "*.rt"), os.path.join(path, "specs", "**", "*.antt")]
        below = [file for each in inside for file in glob.glob(each, recursive=True)]
        found = [path] if os.path.isfile(path) else below
        return "\n".join(open(file, encoding="utf-8").read() for file in sorted(found))
    return text_of


@cache
def bare(text):
    """A source, or several, without the lines that are comments."""
    return re.sub(r"(?m)^\s*(//|--).*$", "", text)


def declares(text, name):
    """Whether a source has a function, type, definition, lemma, field or clause of a name, `a::b` being that of b."""
    last = name.split("::")[-1]
    return last in items.declared(bare(text)) or last in sources.declared(bare(text))


def is_law(text, name):
    """Whether a source has a law of a name."""
    return any(found.is_law for found in functions_named(text, name))


def is_function(text, name):
    """Whether a source has a public function of a name, `A::b` being `b`."""
    return any(found.is_public for found in functions_named(text, name))


def with_crates(line):
    """A line in which each file has its crate and its folder."""
    before = ["", ""]

    def whole(match):
        before[:] = [match[2] or before[0], match[3] or before[1]]
        return "`%s%s`" % (match[1] or "", "/".join(filter(None, [*before, match[4]])))
    return FILE.sub(whole, line)


def parts_in(cited):
    """Of the names of a citation each clause or field, with the function or record that it is said to be one of."""
    owner, last, is_part = None, None, False
    for before, name in re.findall(r"(, clauses? |, fields? |, | and | of )?`([\w:]+)`", cited):
        if before == " of " and name.split("::")[-1].islower():
            yield name, last
        is_part = before.startswith((", clause", ", field")) or is_part and before in (", ", " and ")
        if is_part:
            yield owner, name
        else:
            owner = name
        last = name


def has_part(text, owner, name):
    """Whether a function of a source has a clause of a name, or a record a field."""
    clauses = [clause.name for found in functions_named(text, owner) for clause in found.promises]
    return name in clauses or name in sources.fields_of(bare(text), owner.split("::")[-1])


def citations(page, read):
    """The citations of a document, in their order."""
    places, heading = [], ""
    for number, line in enumerate(map(with_crates, page.split("\n")), 1):
        if line.startswith("#"):
            places, heading = None, line.lstrip("# ")
        elif line and places is None:
            places = [place.removeprefix("crates/") for place in re.findall(r"`(crates/[\w/.]+|[a-z]\w*)`", line)
                      if place.startswith("crates/") or read(place)]
        for names, place in CITED.findall(line):
            yield Citation(number, heading, re.findall(r"`([\w:]+)`", names), [place], list(parts_in(names)))
        cited = {place for _, place in CITED.findall(line)}
        for place in sorted(set(re.findall(r"`(?:crates/)?([\w/]+\.(?:rt|antt))`", line)) - cited):
            yield Citation(number, heading, [], [place])
        listed = re.match("- " + NAMES, line)
        if listed and places and not CITED.match(line, 2):
            yield Citation(number, heading, re.findall(r"`([\w:]+)`", listed[1]), places, list(parts_in(listed[1])))


def rows_cited(page):
    """The definitions that the tables of a document list: names in the first cell of a row, files of specs/ in the last
    one, of which one without a crate stands beside the one before it."""
    heading = ""
    for number, line in enumerate(page.split("\n"), 1):
        heading = line.lstrip("# ") if line.startswith("#") else heading
        cells = line.strip("|").split(" | ")
        names, places = re.findall(r"`(\w+)`", cells[0]), []
        for crate, file in re.findall(r"`(?:(\w+)/specs/)?(\w+\.antt)`", cells[-1]):
            places.append("%s/specs/%s" % (crate or places[-1].split("/")[0], file))
        if line.startswith("| `") and names and places:
            yield Citation(number, heading, names, places)


def words_of(folders):
    """The words of the sources below some folders, without their comments, and the names of their files."""
    words = set()
    for folder in folders:
        for path, below, names in os.walk(folder):
            below[:] = [name for name in below if name != "out"]
            for name in names:
                words |= set(re.findall(r"\w+", os.path.relpath(os.path.join(path, name), folder)))
                if name.endswith((".rt", ".antt", ".py")) or "." not in name:
                    comment = r"(?m)(^|\s)(//|--).*$" if name.endswith((".rt", ".antt")) else r"(?m)(^|\s)#.*$"
                    with open(os.path.join(path, name), encoding="utf-8", errors="ignore") as file:
                        words |= set(re.findall(r"\w+", re.sub(comment, "", file.read())))
    return words


def unknown_names(page, words):
    """The lines of a document with names in backquotes that no source has, `a::b` and `a.b` being two, with these."""
    for number, line in enumerate(page.split("\n"), 1):
        for cited in re.findall(r"`([A-Za-z_]\w*(?:(?:::|\.)\w+)*)(?:\([^`]*\))?`", "" if line[:4].isspace() else line):
            if not set(re.split(r"::|\.", cited)) <= words:
                yield number, cited


def cited_functions(page, read, chosen):
    """The functions that a document cites and that are as it is asked, each once: heading, place and name."""
    found = {}
    for citation in citations(page, read):
        for name in citation.names:
            for place in citation.places:
                if chosen(read(place), name):
                    found.setdefault((place, name), citation.heading)
    return [(heading, place, name) for (place, name), heading in found.items()]
