"""Lays out what the pages have: files of definitions, types and contracts, each with what its names mean and with
links; and the contents of a page."""

import re

from aliases import ambiguous, meant_in_contract, meant_in_spec
from blocks import Pages, anchor, key
from links import Links
from sources import Unread

# How wide a line may be; and up to how many lines a definition is short: short ones stand close together.
WIDE, SHORT = 120, 9


def counted(number, word):
    """A number of things in words."""
    return "%s %s" % (format(number, ","), word if number == 1 else word + "s")


def size_text(definitions):
    """How many definitions there are, in how many files and lines."""
    files = {definition.place for definition in definitions}
    size = sum(definition.size for definition in definitions)
    return "%s in %s, %s." % (counted(len(definitions), "definition"), counted(len(files), "file"),
                              counted(size, "line"))


def plain(comment):
    """A comment of code as prose: without links into code."""
    return re.sub(r"\[(`[^`]*`)\](?:\([^)]*\))?", r"\1", comment)


def fenced(language, text):
    """Code as a block of a page."""
    return ["```" + language, text.strip("\n"), "```"]


def one_behind_another(definitions):
    """Definitions as they stand in their file, short ones without a blank line between them."""
    texts = [found.written for found in sorted(definitions, key=lambda found: found.first)]
    joined = texts[:1]
    for before, text in zip(texts, texts[1:]):
        is_short = max(before.count("\n"), text.count("\n")) < SHORT
        joined += ["\n" if is_short else "\n\n", text]
    return "".join(joined)


def beside(lines):
    """The lines of a type, with each comment of one line beside what it is of, where that is not too wide."""
    joined = []
    for line in lines:
        before = joined[-1].strip() if joined else ""
        both = "%s // %s" % (line, before[4:])
        is_alone = before.startswith("/// ") and not (len(joined) > 1 and joined[-2].strip().startswith("///"))
        if is_alone and not line.strip().startswith("//") and len(both) <= WIDE:
            joined[-1] = both
        else:
            joined.append(line)
    return joined


def types_text(types, is_open):
    """The types, each with its file; one that is seen as its value only so, where it is not opened."""
    lines, last = [], None
    for of in sorted(types, key=lambda of: of.key):
        if of.key[:2] != last:
            lines += [""] * bool(lines) + ["// %s/src/%s" % of.key[:2]]
        last = of.key[:2]
        seen = ["%s %s: seen as `%s`" % (of.kind, of.name, of.value)]
        lines += seen if of.value and not is_open else [of.comment] * bool(of.comment) + beside(of.written())
    return fenced("rust", "\n".join(lines)) + [""] if lines else []


def contents_text(lines):
    """A list of the headings, each of which leads there."""
    titles = [line[3:] for line in lines if line.startswith("## ")]
    return ["## Contents", ""] + ["- [%s](#%s)" % (title, anchor(title)) for title in titles] + [""]


class Layout:
    """What all parts of the pages are laid out by: the sources, what stands where, what uses what, and which names mean
    several things."""

    def __init__(self, names, plan, reached):
        self.sources, self.plan, self.reached = names.sources, plan, reached
        self.several, self.pages = ambiguous(reached), Pages(plan, reached)
        self.links = Links(names, reached, self.pages)

    def block_with(self, wanted):
        """The block that has a definition which is named as in sections, and its name."""
        found = next((found for found in self.reached.under.definitions if key(found) == wanted), None)
        if found is None:
            raise Unread("nothing is reached of %s" % wanted)
        return self.pages.block_of[id(found)], found.name

    def block_text(self, block, level="###"):
        """A file of a page: its head comment with what its names mean, its definitions as they stand in it, and their
        links."""
        crate, _, file = block.place.partition("/")
        spec = self.sources.specs[crate, file]
        told = " ".join([spec.head] * bool(spec.head) + meant_in_spec(spec, block.definitions, self.several))
        return (["%s %s" % (level, block.title)] + [told] * bool(told)
                + fenced("antt", one_behind_another(block.definitions)) + [self.links.text(block)])

    def blocks_text(self, blocks):
        """The files of a section, below how much they are together."""
        found = [definition for block in blocks for definition in block.definitions]
        return [size_text(found), ""] + [line for block in blocks for line in self.block_text(block)] + [""]

    def contract_text(self, contract):
        """A contract with its comment, and what its names mean."""
        told = meant_in_contract(contract, self.several)
        return (["### `%s`" % contract.name, " ".join(["`%s/src/%s`." % (contract.module.crate, contract.module.file)]
                                                      + told)]
                + fenced("rust", contract.text) + [plain(contract.comment), ""])

    def added_text(self, added, is_open=False):
        """What a part adds to those before it."""
        found = [line for block in self.pages.added[id(added)] for line in self.block_text(block, "####")]
        return found + [""] * bool(found) + types_text(added.types, is_open)
