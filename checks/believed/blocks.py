"""Where each definition stands on the pages: which of them, and under which heading."""

import re
from collections import defaultdict
from dataclasses import dataclass

# The page of the headline, and that of what stands beside it.
HEADLINE, LAWS = "headline.md", "laws.md"


def anchor(title):
    """The name by which a heading is linked to."""
    return re.sub(r"[^\w -]", "", title.lower()).replace(" ", "-")


def key(definition):
    """By what sections name a definition."""
    return "%s:%s" % (definition.place, definition.name)


@dataclass
class Block:
    """Definitions of one file that stand together on a page, under a heading that no other has there."""
    page: str
    place: str
    definitions: list
    title: str = ""

    @property
    def path(self):
        """The file."""
        crate, _, file = self.place.partition("/")
        return "%s/specs/%s.antt" % (crate, file)

    def link_from(self, page):
        """Where a link on a page leads to it."""
        return "%s#%s" % ("" if page == self.page else self.page, anchor(self.title))


def section_of(plan, definition):
    """The number of the section in which a definition stands, None where no section has it."""
    for wanted in (key(definition), definition.place, definition.crate):
        for number, (_, listed) in enumerate(plan.SECTIONS):
            if wanted in listed:
                return number
    return None


def rank(listed, place):
    """Where a section lists a file first, or a definition of it."""
    return min(at for at, entry in enumerate(listed) if entry.split(":")[0] in (place, place.split("/")[0]))


def by_file(definitions):
    """The definitions of each file, the files as they are reached."""
    files = defaultdict(list)
    for definition in definitions:
        files[definition.place].append(definition)
    return files


def in_sections(plan, definitions):
    """For each section its definitions by file: the files as the section lists them, then as they are reached."""
    sections = [[] for _ in plan.SECTIONS]
    for definition in definitions:
        number = section_of(plan, definition)
        if number is not None:
            sections[number].append(definition)
    for (_, listed), found in zip(plan.SECTIONS, sections):
        files = by_file(found)
        yield {place: files[place] for place in sorted(files, key=lambda place, listed=listed: rank(listed, place))}


def blocks(page, files):
    """A block for each file."""
    return [Block(page, place, definitions) for place, definitions in files.items()]


def with_titles(found):
    """The blocks of a page with their headings: a file that comes again is numbered."""
    times = defaultdict(int)
    for block in found:
        times[block.place] += 1
        number = times[block.place]
        block.title = block.path if number == 1 else "%s (%d)" % (block.path, number)
    return found


class Pages:
    """All blocks: those of the headline's sections; and on the other page those that each further part adds."""

    def __init__(self, plan, reached):
        self.sections = [blocks(HEADLINE, files) for files in in_sections(plan, reached.under.definitions)]
        self.added = {id(part): blocks(LAWS, by_file(part.definitions)) for part in reached.parts[1:]}
        on_headline = with_titles([block for listed in self.sections for block in listed])
        on_laws = with_titles([block for listed in self.added.values() for block in listed])
        self.block_of = {id(found): block for block in on_headline + on_laws for found in block.definitions}
