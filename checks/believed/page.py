"""Makes the page of the headline: the sentence, what it is about, the contract, and the definitions under it."""

from aliases import OF_LIBRARY
from blocks import HEADLINE, LAWS, anchor
from layout import contents_text, counted, fenced, size_text, types_text
from library import LIBRARY, NOTATION
from standards import STANDARDS


def first_text(plan, reached):
    """What the page is, the headline in a sentence, which names have its parts, and what is not promised."""
    told = ("`checks/headline` makes this page from the sources; do not edit it. It has the contract of `%s`, which is "
            "what is proved of the whole program, with every definition under it, its comment and the standard that it "
            "comes from. On [another page](%s) stand what a board shows, the contracts of the other guarantees, and "
            "each law that is cited." % (reached.headline.name, LAWS))
    lines = ["# The headline in full", "", told, "", "## The headline", "", "**%s**" % plan.SENTENCE, "",
             "Where each part of it stands:", ""]
    lines += ["- " + part for part in plan.PARTS] + ["", "## What is not promised", ""]
    return lines + ["- " + part for part in plan.NOT_PROMISED] + [""]


def picture_text(plan):
    """A run in a picture, and what is promised of each of its arrows."""
    rows = ["| %s |" % " | ".join(row) for row in plan.ARROWS]
    return (["## A run in a picture", ""] + fenced("text", plan.PICTURE)
            + ["", "| Arrow | Of it is promised | Guarantee |", "|---|---|---|"] + rows + [""])


def numbers_text(plan, reached):
    """How much there is to believe."""
    rows = zip(("Contracts", "Definitions", "The program's types that they name", "What a board shows, beyond these"),
               reached.lines(), reached.lines_of_guarantees())
    one, five = sum(reached.lines()), sum(reached.lines_of_guarantees())
    table = ["| %s | %s | %s |" % (of, format(here, ","), format(there, ",")) for of, here, there in rows]
    told = "Under `%s` there are %s" % (reached.headline.name, size_text(reached.under.definitions))
    told += "".join(" What the program is given beside that is not among them: [`%s`](%s#%s) says it, with %s"
                    % (contract.name, LAWS, anchor(contract.name), size_text(added.definitions))
                    for _, laws in reached.laws for contract, added in laws if contract.key == plan.GIVEN)
    return ["## How much there is to believe", "",
            "Lines as they are printed here, without blank ones and comments.", "",
            "| Of | `%s` | All five guarantees |" % reached.headline.name, "|---|---|---|"] + table + [
            "| Together | %s, of at most %s | %s |" % tuple(format(size, ",") for size in (one, plan.LIMIT, five)), "",
            told, ""]


def premises_text(plan, contract):
    """What the contract asks of its caller, and what a reader assumes beside it, with how that could fail."""
    asks = ["The contract asks of its caller:", ""] + fenced("rust", "\n".join(contract.premises)) + [""]
    none = ["The contract asks nothing of its caller: it holds for all words, and for all shelves and sinks, each of "
            "which is proved to keep the contract of its trait.", ""]
    rows = ["| %d | %s | %s | %s |" % (number, *row) for number, row in enumerate(plan.ASSUMPTIONS, 1)]
    return (["## Assumptions", ""] + (asks if contract.premises else none)
            + ["Beside what is printed here a reader assumes:", "",
               "| | Assumed | It could fail by | What would show it |", "|---|---|---|---|"] + rows + [""])


def notation_text(reached):
    """How definitions are written, and the words of the library that are reached."""
    lines = ["## How definitions are written", "", "| Written | Means |", "|---|---|"]
    lines += ["| %s | %s |" % row for row in NOTATION] + ["", "## The words of the library", ""]
    for subject, words in LIBRARY:
        rows = ["| `%s` | %s |" % (word.replace("|", "\\|"), told) for word, told in words.items()
                if word in reached.library]
        lines += (["### " + subject, "", "| Word | Means |", "|---|---|"] + rows + [""]) if rows else []
    return lines


def reading_text(plan, layout):
    """Which definitions to read first, and how the links below each file are read."""
    lines = ["## What to read first", ""]
    for number, (found, told) in enumerate(plan.FIRST, 1):
        block, name = layout.block_with(found)
        lines.append("%d. [`%s`](%s): %s." % (number, name, block.link_from(HEADLINE), told))
    return lines + ["", "Below each file stands for each of its definitions, behind →, which others it uses, and "
                    "behind ←, what uses it: definitions, contracts and types. A variable or a field that is named as "
                    "a definition counts as that one. A name that no definition has is [a struct or an enum]"
                    "(#the-types-of-the-program-that-they-name) of the program, or [a word of the library]"
                    "(#the-words-of-the-library).", ""]


def sections_text(layout):
    """The contract, and the definitions under it, section by section."""
    headline, plan = layout.reached.headline, layout.plan
    lines = ["## The contract of `%s`" % headline.name, ""] + layout.contract_text(headline)[1:]
    for number, ((heading, _), blocks) in enumerate(zip(plan.SECTIONS, layout.pages.sections), 1):
        lines += ["## %d. %s" % (number, heading), ""] + layout.blocks_text(blocks)
    return lines


def last_text(layout):
    """The types of the program, the names that mean several things, and the standards."""
    lines = ["## The types of the program that they name", ""] + types_text(layout.reached.under.types, False)
    lines += ["## Names that mean several things", "", "| Name | Where |", "|---|---|"]
    lines += ["| `%s` | %s |" % (name, ", ".join(place if place == OF_LIBRARY else "`%s`" % place for place in places))
              for name, places in layout.several.items()]
    return lines + ["", "## Standards", "", "| Named as | Is |", "|---|---|"] + [
        "| %s | %s |" % row for row in STANDARDS.items()]


def headline_page(layout):
    """The page of the headline."""
    plan, reached = layout.plan, layout.reached
    head = first_text(plan, reached) + picture_text(plan) + numbers_text(plan, reached)
    rest = premises_text(plan, reached.headline) + notation_text(reached) + reading_text(plan, layout)
    rest += sections_text(layout) + last_text(layout)
    return "\n".join(head + contents_text(head + rest) + rest) + "\n"
