"""The page of what of the definitions has a worked example or a worked case, and what has none."""

import re
from dataclasses import dataclass, field

from answers import MOST_ALONE
from blocks import by_file
from layout import counted
from parsing import cases_of
from relations import is_relation, pieces

FUNCTION, STATEMENT, NOUN = "function", "statement", "noun"


@dataclass
class Row:
    """A definition: what it is; of a function how many cases it has and which of them examples use; of a statement
    whether a worked case has it, and one refuses it."""
    definition: object
    kind: str
    cases: int = 0
    used: set = field(default_factory=set)
    has: bool = False
    refuses: bool = False

    @property
    def is_whole(self):
        """Whether it has all that it could: a noun has no more."""
        return self.kind == NOUN or len(self.used) == self.cases and self.kind == FUNCTION or self.has and self.refuses


# A type or a record that says of nothing that anything holds: its arguments, if it has any, are types.
BARE = re.compile(r"^(?:\w+ )*\S+(?: \([\w ]+ : Type \d\))* : Type \d(?: where)?$")


def kind_of(definition):
    """What a definition is of: a type of values is a noun, one that is about arguments a statement."""
    if "data" in definition.kinds or is_relation(definition) and BARE.match(pieces(definition)[0]):
        return NOUN
    return STATEMENT if is_relation(definition) else FUNCTION


def row_of(definition, used, worked):
    """What is to be said of a definition, by the cases that examples use, and by what gives the worked cases that a
    statement has and refuses."""
    kind, key = kind_of(definition), (definition.place, definition.name)
    if kind == FUNCTION:
        return Row(definition, kind, len(cases_of(definition)), {number for *of, number in used if tuple(of) == key})
    has, refuses = worked(definition) if kind == STATEMENT else ([], [])
    return Row(definition, kind, has=bool(has), refuses=bool(refuses))


def said_of(row):
    """What a row lacks, as it is listed."""
    if row.kind == STATEMENT:
        return "" if not (row.has or row.refuses) else " (refused by none)" if row.has else " (had by none)"
    lacking = [str(number + 1) for number in range(row.cases) if number not in row.used]
    return " (%s of %d)" % (", ".join(lacking), row.cases) if row.used else ""


def listed(rows):
    """Definitions by file, in lines."""
    return ["- `%s`: %s" % (place, ", ".join("`%s`%s" % (row.definition.name, said_of(row))
                                             for row in rows if row.definition.place == place))
            for place in by_file([row.definition for row in rows])]


def counts(rows):
    """How many definitions there are of each kind, and how many of them lack nothing."""
    functions, statements, nouns = ([row for row in rows if row.kind == kind] for kind in (FUNCTION, STATEMENT, NOUN))
    whole = sum(row.is_whole for row in functions)
    some = sum(bool(row.used) for row in functions) - whole
    cases, used = sum(row.cases for row in functions), sum(len(row.used) for row in functions)
    return [("Functions, each case of which an example uses", whole), ("Functions, of which examples use some", some),
            ("Functions that no example uses", len(functions) - whole - some),
            ("Cases of functions, and those that an example uses", "%s, %s" % (format(cases, ","), format(used, ","))),
            ("Statements that one worked case has, and one refuses", sum(row.is_whole for row in statements)),
            ("Statements with one of the two", sum(row.has != row.refuses for row in statements)),
            ("Statements with none", sum(not row.has and not row.refuses for row in statements)),
            ("Nouns: types of values", len(nouns))]


HEAD = """\
# Which definitions have a worked example

`checks/evaluate` makes this page; do not edit it. It evaluates the definitions under the contract of `serve`, as [the \
page of the headline](headline.md) prints them, and those of [what `soak` runs](laws.md#soak_files_are_generated), on \
%s of `tests/cases`, and what they come to is the text that is written there. The evaluator is not the kit's: \
`checks/evaluated` has the words of the library by [their \
sentences](headline.md#the-words-of-the-library). In runs of up to %d steps it also finds each record at the end to \
be that of its process alone, as `IsAccountedRun` says. %d more examples have too many steps, numbers that a compiler \
decides, or words that are no texts, and are not evaluated.

| Of these definitions | |
|---|---|"""
STATEMENTS = """
A function is evaluated; a statement is not, but cases of it, or of its parts, are proved, in files `Worked*.antt` of \
proofs (`checks/cases`).
"""
FUNCTIONS = """\
## Functions of which examples use not all

By the numbers of the cases that none uses, and of how many; without numbers none uses any.
"""


def page(rows, evaluated, left):
    """The page, of so many examples that are evaluated and others that are not."""
    functions = [row for row in rows if row.kind == FUNCTION and not row.is_whole]
    statements = [row for row in rows if row.kind == STATEMENT and not row.is_whole]
    lines = [HEAD % (counted(evaluated, "worked example"), MOST_ALONE, left)]
    lines += ["| %s | %s |" % row for row in counts(rows)] + [STATEMENTS, FUNCTIONS] + listed(functions)
    lines += ["", "## Statements without both cases", ""]
    return "\n".join(lines + listed(statements)) + "\n"
