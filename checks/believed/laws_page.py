"""Makes the page of what stands beside the headline: what a board shows, the other guarantees, steps that somebody else
chooses, and laws."""

from blocks import HEADLINE
from layout import contents_text


def group_text(layout, title, told, group):
    """Contracts, each before what it adds."""
    lines = ["## " + title, "", told, ""]
    for contract, added in group:
        lines += layout.contract_text(contract) + layout.added_text(added)
    return lines


def first_text():
    """What the page is."""
    return ["# Laws, and what else stands beside the headline", "",
            "`checks/headline` makes this page from the sources; do not edit it. It has what stands beside [the "
            "headline](%s): what a board shows, the contracts of the other "
            "guarantees, and each law that the README and [claims.md](claims.md) cite, each with the definitions that "
            "it adds to those before it, and to those of the headline. How definitions are written, the words of the "
            "library, and the links below each file are told [there](%s#how-definitions-are-written)."
            % (HEADLINE, HEADLINE), ""]


def board_text(layout):
    """What a board shows."""
    return ["## What a board shows", "", "The board that a run leaves is a world to contracts: this reads it from what "
            "a board keeps.", ""] + layout.added_text(layout.reached.board, True)


def laws_page(layout):
    """The page of the laws."""
    reached = layout.reached
    lines = board_text(layout)
    lines += group_text(layout, "The other guarantees", "The contracts of guarantees 1 to 4 of the README, each before "
                        "what it adds.", reached.guarantees)
    lines += group_text(layout, "Steps that somebody else chooses", "The contract of any list of choices.",
                        reached.steps)
    for heading, laws in reached.laws:
        title = heading if heading.startswith("Laws") else "Laws: " + heading
        lines += group_text(layout, title, "Laws that [claims.md](claims.md) cites under that heading: the contracts "
                            "of functions that do nothing, each before what it adds.", laws)
    return "\n".join(first_text() + contents_text(lines) + lines).rstrip("\n") + "\n"
