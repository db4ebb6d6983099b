"""What the pages are about: the contracts that they show, what each rests on, and how many lines that is."""

from dataclasses import dataclass, field

from cited import cited_functions, is_law
from closure import Closure, closure, contract_of, opened


@dataclass
class Reach:
    """The headline's contract with all under it; what a board shows beyond that, and further contracts, each with what
    it adds to those before it. Laws stand under the heading of the document that cites them."""
    headline: object
    under: Closure
    board: Closure
    guarantees: list = field(default_factory=list)
    steps: list = field(default_factory=list)
    laws: list = field(default_factory=list)

    @property
    def groups(self):
        """The further contracts, in their order."""
        return [self.guarantees, self.steps] + [laws for _, laws in self.laws]

    @property
    def contracts(self):
        """All contracts of the page."""
        return [self.headline] + [contract for group in self.groups for contract, _ in group]

    @property
    def parts(self):
        """All that the page has, part by part."""
        return [self.under, self.board] + [added for group in self.groups for _, added in group]

    @property
    def library(self):
        """The names of the kit's library that are reached."""
        return {name for part in self.parts for _, name in part.library}

    def lines(self):
        """What is to be believed of the headline: its contract, definitions, types, and what a board shows."""
        return [len(self.headline.code()), self.under.size, size_of_types(self.under.types, False),
                self.board.size + size_of_types(self.board.types, True)]

    def lines_of_guarantees(self):
        """The same of all guarantees, the headline's among them."""
        contracts, definitions, types, board = self.lines()
        added = [part for _, part in self.guarantees]
        return [contracts + sum(len(contract.code()) for contract, _ in self.guarantees),
                definitions + sum(part.size for part in added),
                types + sum(size_of_types(part.types, False) for part in added), board]


def size_of_types(types, is_open):
    """The lines of types as they are printed; one that is seen as its value is one line where it is not opened."""
    return sum(len(of.code()) if is_open or not of.value else 1 for of in types)


def added_to(seen, reached):
    """What is reached and was not seen; it is seen then."""
    new = Closure([found for found in reached.definitions if id(found) not in seen],
                  [found for found in reached.types if id(found) not in seen], reached.library)
    seen |= {id(found) for found in new.definitions + new.types}
    return new


def file_of(sources, place, name):
    """The file of src/ that has a law of a name, as crate/file, of a crate or of one file as documents cite it."""
    crate, _, file = place.partition("/src/")
    return next("%s/%s" % (crate, at) for (of, at), module in sources.modules.items()
                if of == crate and file in ("", at) and is_law(module.text, name))


def laws_cited(sources, plan, documents):
    """The laws that documents cite: for each heading with some of them their files and names."""
    found = {}
    for text in documents:
        for heading, place, name in cited_functions(text, sources.text_of, is_law):
            law = (file_of(sources, place, name), name)
            if law not in plan.GUARANTEES and not any(law in laws for laws in found.values()):
                found.setdefault(heading, []).append(law)
    return found


def reach(names, plan, documents):
    """Follows all contracts that the pages show, the laws that documents cite among them."""
    headline = contract_of(names, *plan.HEADLINE)
    under = closure(names, headline.starts)
    seen = {id(found) for found in under.definitions + under.types if not getattr(found, "value", "")}
    board = added_to(seen, opened(names, names.view_of(*plan.BOARD)))
    seen |= {id(found) for found in under.types}

    def followed(listed):
        """Each contract, with what it adds."""
        contracts = [contract_of(names, place, function) for place, function in listed]
        return [(contract, added_to(seen, closure(names, contract.starts))) for contract in contracts]
    laws = laws_cited(names.sources, plan, documents)
    return Reach(headline, under, board, followed(plan.GUARANTEES), followed(plan.STEPS),
                 [(heading, followed(listed)) for heading, listed in laws.items()])
