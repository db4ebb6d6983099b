"""What a reader looks up, two steps from the README: a link there, and what its section says."""

import re

README = "README.md"
LOOKED_UP = {
    "when an allow that overlaps another fails": ("docs/drivers.md#what-holds-for-all", "no allow fails for that"),
    "which upcall is dropped": ("docs/drivers.md#what-holds-for-all", "a new one beside them is dropped and counted"),
    "what a denied store does": ("docs/manual.md#rules-in-tables", "What is denied changes no register and no byte"),
    "what a denied store does under `policy threshold`":
        ("docs/manual.md#rules-in-tables", "starts again (by `threshold N` where it had fewer than N restarts)"),
    "what `policy threshold` does": ("docs/manual.md#the-script", "starts again where it had fewer than N restarts"),
    "when an alarm's step is ready with partitions":
        ("docs/manual.md#time-partitions", "an alarm fires at its tick only where that lies in a window of its slot"),
    "the fifth byte of a console's grant":
        ("docs/drivers.md#what-holds-for-all", "its cost (bytes 4 to 7), which is the size in the table"),
    "what causes status 6": ("docs/claims.md#the-answers-of-the-tool", "only where the output failed"),
}


def section_at(text, anchor):
    """The section of a document to which a link with that anchor leads."""
    for title in re.findall(r"^## (.*)$", text, re.M):
        if re.sub(r"[^\w -]", "", title.lower()).replace(" ", "-") == anchor:
            return text.split("\n## %s\n" % title)[1].split("\n## ")[0]
    return ""


def not_found(pages):
    """What a reader looks up and does not find."""
    wrong = []
    for question, (link, answer) in LOOKED_UP.items():
        page, _, anchor = link.partition("#")
        if "(%s)" % link not in pages[README]:
            wrong.append("README.md has no link %s, which tells %s" % (link, question))
        elif answer not in section_at(pages[page], anchor):
            wrong.append("%s does not tell %s" % (link, question))
    return wrong
