"""Follows what terms conclude, through definitions, to the relations that they say of steps."""

import re
from dataclasses import dataclass, field

from sources import Definition, Unread
from terms import Group, concluded, explicit, parts, read

FIELD = re.compile(r"^  (?:pub )?[^\s:]+ :(?:\s|$)")
# What stands for a parameter of which nothing is known.
GIVEN = "given"


@dataclass
class Term:
    """A term, the file whose names it has, and what stands for parameters in it."""
    spec: object
    items: list
    values: dict = field(default_factory=dict)


@dataclass(frozen=True)
class Relation:
    """A relation by its file and name, with the relations that it is applied to."""
    place: str
    name: str
    arguments: tuple = ()

    def __str__(self):
        return " ".join((self.name, *self.arguments))


def pieces(found):
    """The head of a definition, and its fields or equations, each as one text."""
    begins = FIELD.match if "record" in found.kinds else re.compile(r"^%s\b" % re.escape(found.name)).match
    texts = [found.lines[0]]
    for line in found.lines[1:]:
        if begins(line):
            texts.append(line)
        else:
            texts[-1] += "\n" + line
    return " ".join(texts[0].split()), texts[1:]


def is_relation(found):
    """Whether a definition is one of a relation or a statement: what it gives is a type."""
    if not isinstance(found, Definition) or "data" in found.kinds:
        return False
    form = r": Type \d where$" if "record" in found.kinds else r"[:→] Type \d$"
    return re.search(form, pieces(found)[0]) is not None


def has_type(items):
    """Whether a type, or a name with its type, is that of a relation."""
    return any(has_type(item.items) if isinstance(item, Group) else item == "Type" for item in items)


def record_parameters(head):
    """The explicit parameters of a record, None for each that is no relation."""
    groups = [group.items for group in explicit(read(head)) if isinstance(group, Group) and ":" in group.items]
    return [name if has_type(items) else None for items in groups for name in items[:items.index(":")]]


def equation_parameters(head, arguments):
    """The explicit arguments of an equation, None for each that is no relation."""
    signature = read(head)
    types = [part for part in parts(signature[signature.index(":") + 1:], "→") if explicit(part)]
    return [item if has_type(of) else None for item, of in zip(explicit(arguments), types)]


def bodies(found):
    """What a definition says: the parameters by which, and the term, of each field of a record or each equation."""
    head, texts = pieces(found)
    if "record" in found.kinds:
        return [(record_parameters(head), read(FIELD.sub("", text))) for text in texts]
    sides = [parts(read(text), "=") for text in texts]
    return [(equation_parameters(head, left[1:]), [item for part in right for item in part]) for left, *right in sides]


class Relations:
    """Finds what names mean, and which relations terms reach."""

    def __init__(self, names):
        self.names, self.giving = names, {}

    def meaning(self, term, word):
        """The relation that a word means in a term, None where it is another thing."""
        if word in term.values or ".proofs." in term.spec.imports.get(word, ("",))[0]:
            return None
        try:
            found = self.names.in_spec(term.spec, word)
        except Unread:
            return None
        return found if is_relation(found) else None

    def opened(self, term, means, arguments=None):
        """The terms of which a definition is made, with its arguments; with none nothing is known of these."""
        spec = self.names.sources.specs.get((means.crate, means.file), term.spec)
        for named, items in bodies(means):
            given = [GIVEN] * len(named) if arguments is None else [
                Term(term.spec, [item], term.values) for item in explicit(arguments)]
            yield Term(spec, items, {name: value for name, value in zip(named, given) if name})

    def inner(self, term, found):
        """The relations among the arguments of a word of the library, as terms."""
        for item in found.arguments:
            heads = concluded([item])
            is_function = isinstance(item, Group) and item.items[:1] == ["λ"]
            if heads and (is_function or heads[0].head in term.values or self.meaning(term, heads[0].head)):
                yield Term(term.spec, [item], term.values)

    def after(self, term, found, means):
        """The terms to which what is concluded leads on."""
        value = term.values.get(found.head)
        if value:
            return [value] if isinstance(value, Term) else []
        return list(self.opened(term, means, found.arguments) if means else self.inner(term, found))

    def name_of(self, term, item):
        """The name of the relation that an argument is, None where it is none."""
        heads = concluded([item])
        value = term.values.get(heads[0].head) if heads else None
        if isinstance(value, Term):
            return self.name_of(value, Group("(", value.items))
        means = self.meaning(term, heads[0].head) if heads else None
        return means.name if means else None

    def relation(self, term, found, means):
        """A relation that is concluded, with those to which it is applied."""
        named = [self.name_of(term, item) for item in found.arguments]
        return Relation(means.place, means.name, tuple(name for name in named if name))

    def reach(self, term, is_sure=True, path=()):
        """All relations that a term reaches, each with whether the term has no way without it; `GIVEN` for a
        parameter of which nothing is known."""
        for found in concluded(term.items, is_sure):
            sure, means = found.is_sure and found.head != "Any", self.meaning(term, found.head)
            if means and means in path:
                continue
            if means:
                yield self.relation(term, found, means), sure
            elif term.values.get(found.head) == GIVEN:
                yield GIVEN, sure
            for each in self.after(term, found, means):
                yield from self.reach(each, sure, path + (means,) if means else path)

    def gives(self, means):
        """Whether a definition says of a relation that it is given only where that holds."""
        key = (means.place, means.name)
        if key not in self.giving:
            terms = self.opened(Term(None, []), means)
            self.giving[key] = any(found == (GIVEN, True) for term in terms for found in self.reach(term))
        return self.giving[key]

    def is_opened(self, means, path):
        """Whether what a definition concludes is meant, and not itself: of a statement, of one that only gives where
        something holds, and of one by cases that have relations of their own."""
        cases = bodies(means)
        if all(not named for named, _ in cases) or self.gives(means):
            return True
        by_cases = len(cases) > 1 and "record" not in means.kinds
        return by_cases and any(self.said(term, path + (means,)) for term in self.opened(Term(None, []), means))

    def said(self, term, path=()):
        """The relations that a term concludes, each with its term; none of what are equations."""
        units = {}
        for found in concluded(term.items):
            means = self.meaning(term, found.head)
            if means and not self.is_opened(means, path):
                units[self.relation(term, found, means)] = Term(
                    term.spec, [found.head, *found.arguments], term.values)
            elif not means or means not in path:
                for each in self.after(term, found, means):
                    units.update(self.said(each, path + (means,) if means else path))
        return units
