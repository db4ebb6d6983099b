"""The links by which each definition leads to those that it uses, and to what uses it."""

from collections import defaultdict

from blocks import HEADLINE, LAWS, anchor
from closure import meanings, type_meanings
from items import Type
from sources import Definition

# How many that use a definition are named; of more it is said how many.
MOST_USERS = 8


def definitions_in(found):
    """The definitions among what names mean, each once."""
    return list({id(means): means for means in found if isinstance(means, Definition)}.values())


def name_of(user):
    """What uses a definition, as it is named."""
    return "`%s`" % user.name


class Links:
    """Which definitions use which, and the paragraph that says so of a block."""

    def __init__(self, names, reached, pages):
        self.pages, self.headline = pages, reached.headline
        self.uses, self.users = {}, defaultdict(list)
        for contract in reached.contracts:
            self.note(contract, contract.starts)
        for part in reached.parts:
            for found in part.definitions:
                self.note(found, meanings(names, names.sources.specs[found.crate, found.file], found))
            for found in part.types:
                self.note(found, type_meanings(names, found, None))

    def note(self, user, found):
        """Keeps what a definition, a type or a contract uses."""
        self.uses[id(user)] = definitions_in(found)
        for used in self.uses[id(user)]:
            self.users[id(used)].append(user)

    def place_of(self, user, page):
        """Where a link on a page leads to what uses a definition; nothing for a type, which is with the others."""
        if isinstance(user, Definition):
            return self.pages.block_of[id(user)].link_from(page)
        if isinstance(user, Type):
            return ""
        title, there = (user.name, LAWS) if user is not self.headline else ("the contract of " + user.name, HEADLINE)
        return "%s#%s" % ("" if there == page else there, anchor(title))

    def named(self, listed, block):
        """Definitions and contracts by name, those that stand elsewhere with a link."""
        there = [self.place_of(user, block.page) for user in listed]
        here = block.link_from(block.page)
        return ", ".join("[%s](%s)" % (name_of(user), place) if place and place != here else name_of(user)
                         for user, place in zip(listed, there))

    def entry(self, found, block):
        """What is said of one definition."""
        uses, users = self.uses[id(found)], self.users[id(found)]
        more = " and %d more" % (len(users) - MOST_USERS) if len(users) > MOST_USERS else ""
        told = " → " + self.named(uses, block) if uses else ""
        return name_of(found) + told + (" ← " + self.named(users[:MOST_USERS], block) + more if users else "")

    def text(self, block):
        """What is said of the definitions of a block."""
        found = sorted(block.definitions, key=lambda found: found.first)
        return "<br>".join(self.entry(definition, block) for definition in found)
