"""Reads worked cases: of the files `Worked*.antt` of proofs each statement, by its type. It has the relations that the
type concludes; where that is `⊥`, it refuses the relation before it."""

import glob
import os
import re
from dataclasses import dataclass

from relations import Term
from sources import contents, read_spec
from terms import bare, behind, concluded, parts, read

BLOCK = re.compile(r"^\S.*(?:\n(?:[ \t].*)?)*", re.M)
LOCAL = re.compile(r"(?:use|abbrev|record|data) ")
CASE = re.compile(r"(\S+) :\s+(.*)", re.S)


@dataclass
class Case:
    """A case: its crate and name, and the relations that it has, or refuses."""
    crate: str
    name: str
    has: set
    refuses: set


def refused(items):
    """The term that a type refuses: the last premise before `⊥`; None where it concludes another thing."""
    if bare(items) != ["⊥"]:
        return None
    while items[0] == "let":
        items = behind(items, lambda word: word == "in")
    return parts(items, "→")[-2]


def case_of(relations, term, name):
    """A case by its type."""
    items = refused(term.items)
    if items is None:
        return Case(term.spec.crate, name, set(relations.said(term)), set())
    heads = [(found, relations.meaning(term, found.head)) for found in concluded(items)]
    return Case(term.spec.crate, name, set(),
                {relations.relation(term, found, means) for found, means in heads if means and len(heads) == 1})


def files_of(crates):
    """The files of cases of all crates in a folder, each as its crate, its name and its text."""
    paths = sorted(glob.glob(os.path.join(crates, "*", "proofs", "Worked*.antt")))
    places = [(path, os.path.relpath(path, crates).removesuffix(".antt").split(os.sep, 1)) for path in paths]
    return [(crate, file, contents(path)) for path, (crate, file) in places]


def cases_of(relations, crate, file, text):
    """The cases of a file of proofs of a crate. A relation of the file itself is opened: it says what others do."""
    blocks = BLOCK.findall(re.sub(r"(?m)^\s*--.*$", "", text))
    spec = read_spec(crate, file, "\n".join(block.rstrip() for block in blocks if LOCAL.match(block)))
    relations.names.constructors[spec.crate, spec.file] = {}
    relations.giving.update({(found.place, name): True for name, found in spec.definitions.items()})
    found = [CASE.fullmatch(block.rstrip()) for block in blocks]
    return [case_of(relations, Term(spec, read(case[2])), case[1]) for case in found if case]


class Worked:
    """All cases, by the relations that they have and refuse."""

    def __init__(self, relations, files):
        self.relations = relations
        self.cases = [case for file in files for case in cases_of(relations, *file)]

    def of(self, term):
        """The cases that a relation has, and those that it refuses: its own, those of its parts, and of what is refused
        those of parts without which it has no way."""
        reached = set(self.relations.reach(term))
        parts_of, needed = {part for part, _ in reached}, {part for part, sure in reached if sure}
        return ([case for case in self.cases if case.has & parts_of],
                [case for case in self.cases if case.refuses & needed])
