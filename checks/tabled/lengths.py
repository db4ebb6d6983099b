"""How long documents may be: those that one reader has before him, together. A word is what stands between blanks, so a
bar of a table is one."""

MOST_WORDS = 20000
# Those for who uses the tool, and those for who changes or judges it.
READ_TOGETHER = [
    ["docs/%s.md" % page for page in ("manual", "drivers", "applications", "debugging", "compatibility")],
    ["docs/%s.md" % page for page in ("architecture", "claims", "DECISIONS", "definitions", "proofs")]]
COUNTED = [page for listed in READ_TOGETHER for page in listed]


def too_long(pages):
    """Documents that have too many words together."""
    counts = [(listed, sum(len(pages[page].split()) for page in listed)) for listed in READ_TOGETHER]
    return ["%s: %d words together, of at most %d" % (", ".join(listed), count, MOST_WORDS)
            for listed, count in counts if count > MOST_WORDS]


def unnoticed(pages, faults):
    """Documents to which so many words can be added that there are too many, and nothing notices it."""
    return ["%s: not noticed: %d words more" % (page, MOST_WORDS) for page in COUNTED
            if not faults({**pages, page: pages[page] + " word" * MOST_WORDS})]
