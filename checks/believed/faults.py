"""What the page may not be: each fault in words."""

import re

from blocks import key, section_of
from library import LIBRARY
from standards import has_source

NUMBERS = re.compile(r"rests on [\d,]+ definitions in [\d,]+ files \([\d,]+ lines\)")
# A name in the picture of a run: two words in one, or what begins with a capital.
NAMED = re.compile(r"\b[a-z]+_\w+|\b[A-Z]\w+")
TOGETHER = re.compile(r"[\d,]+ lines as they are printed, all five guarantees on [\d,]+")


def sentences(reached):
    """What the document of definitions says of the headline's size, by the form in which it stands there."""
    under = reached.under
    counts = tuple(format(number, ",") for number in (len(under.definitions), len(under.files), under.size))
    both = tuple(format(sum(lines), ",") for lines in (reached.lines(), reached.lines_of_guarantees()))
    return {NUMBERS: "rests on %s definitions in %s files (%s lines)" % counts,
            TOGETHER: "%s lines as they are printed, all five guarantees on %s" % both}


def with_numbers(document, reached):
    """The document with the numbers of the sources."""
    for form, sentence in sentences(reached).items():
        document = form.sub(sentence, document)
    return document


def unplaced(plan, reached):
    """Files that no section has, and entries of sections of which nothing is reached."""
    files = {found.place: found for found in reached.under.definitions if section_of(plan, found) is None}
    reaches = {entry for found in reached.under.definitions
               for entry in (found.crate, found.place, key(found))}
    missing = ["%s is in no section of checks/believed/sections.py" % place for place in files]
    idle = ["checks/believed/sections.py: nothing is reached of %s" % entry
            for _, listed in plan.SECTIONS for entry in listed if entry not in reaches]
    return missing + idle


def uncited(plan, reached):
    """Whether no document cites the law of what the program is given."""
    cited = [contract.key for _, laws in reached.laws for contract, _ in laws]
    is_cited = plan.GIVEN is None or plan.GIVEN in cited
    return [] if is_cited else ["checks/believed/sections.py: no document cites the law %s" % plan.GIVEN[1]]


def unexplained(reached):
    """Definitions without a comment, of all that the page shows."""
    bare = {key(found): found for part in reached.parts for found in part.definitions if not found.is_explained}
    return ["%s/specs/%s.antt:%d: %s has no comment" % (found.crate, found.file, found.first + 1, found.name)
            for found in bare.values()]


def places_of(parts):
    """The files that parts of the page show."""
    return list(dict.fromkeys(place for part in parts for place in part.files))


def for_proofs_only(sources, plan, reached):
    """Files that are marked so, and that the headline, a guarantee or steps rest on; a law of an inner crate may."""
    added = [part for _, part in reached.guarantees + reached.steps]
    return ["%s is marked for proofs only, and is reached" % place
            for place in places_of([reached.under, reached.board] + added)
            if plan.PROOFS_ONLY in sources.specs[tuple(place.split("/"))].raw[0]]


def without_source(sources, reached):
    """Files whose head comment names no standard with its section, of all that the page shows."""
    return ["%s: its head comment names no standard with its section" % place for place in places_of(reached.parts)
            if not has_source(sources.specs[tuple(place.split("/"))].head)]


def untold_words(reached, library):
    """Words of the library without a sentence."""
    told = {word for _, words in library for word in words}
    return ["checks/believed/library.py has no sentence on %s" % word for word in sorted(reached.library - told)]


def unknown_parts(plan, reached):
    """Names that the sentences on the headline, or the picture, cite and that are in no definition, type or contract of
    the pages."""
    texts = [line for part in reached.parts for found in part.definitions for line in found.lines]
    texts += [line for part in reached.parts for of in part.types for line in of.code()]
    texts += [line for contract in reached.contracts for line in contract.code()]
    words = set(re.findall(r"\w+", "\n".join(texts)))
    told = plan.PARTS + [cell for row in plan.ARROWS for cell in row]
    cited = re.findall(r"`(\w+)`", "\n".join(told)) + NAMED.findall(plan.PICTURE)
    return ["checks/believed/sections.py: %s is nowhere on the page" % name for name in cited if name not in words]


def too_long(plan, reached):
    """Whether there is more to believe than the limit."""
    size = sum(reached.lines())
    return ["%d lines are to be believed, of at most %d" % (size, plan.LIMIT)] if size > plan.LIMIT else []


def source_faults(sources, plan, reached, library=LIBRARY):
    """What is wrong with the sources themselves, and with the sentences on words of the library."""
    return (unplaced(plan, reached) + uncited(plan, reached) + unexplained(reached) + without_source(sources, reached)
            + for_proofs_only(sources, plan, reached) + untold_words(reached, library)
            + unknown_parts(plan, reached) + too_long(plan, reached))


def too_many_lines(plan, page):
    """Whether the page of the headline is longer than it may be."""
    lines = page.count("\n")
    return ["docs/headline.md has %d lines, of at most %d" % (lines, plan.LINES)] if lines > plan.LINES else []


def stale(pages):
    """Pages that are kept otherwise than the sources give them: for each what these give, and what is kept."""
    return ["docs/%s is not what the sources give: run checks/headline" % page
            for page, (made, kept) in pages.items() if made != kept]


def other_numbers(reached, document):
    """Where the document of definitions has other numbers than the sources."""
    wrong = []
    for form, sentence in sentences(reached).items():
        if not form.search(document):
            wrong.append("docs/definitions.md does not say '%s'" % sentence)
        elif form.search(document)[0] != sentence:
            wrong.append("docs/definitions.md has other numbers than the sources: run checks/headline")
    return wrong
