"""Draws how many runs ended how, in columns by their numbers or by when they ended, as an SVG picture."""

from collections import Counter

from drawing import line, step_of, text
from reports import OUTCOMES

# In pixels.
LEFT, WIDTH, RIGHT, TOP, HEIGHT, BOTTOM = 50, 900, 160, 30, 260, 40
MOST_COLUMNS, MOST_NAMES = 60, 8


def column_size(length):
    """How many numbers a column has: 1, 2 or 5 times a power of ten, so that there are not too many columns."""
    size = 1
    while length // size >= MOST_COLUMNS:
        size = size * 5 // 2 if str(size)[0] == "2" else size * 2
    return size


def columns_of(places):
    """Runs by the column in which they stand, where each run comes with its place; the first number of the first
    column, and how many numbers each has."""
    low, high = min(place for place, _ in places), max(place for place, _ in places)
    size = column_size(high - low)
    first = low // size * size
    columns = [[] for _ in range((high - first) // size + 1)]
    for place, run in places:
        columns[(place - first) // size].append(run)
    return columns, first, size


def draw_part(x, y, width, height, runs):
    """The runs of a column that ended in the same way; a tooltip has their names."""
    names = [run.name for run in runs[:MOST_NAMES]] + [".."] * (len(runs) > MOST_NAMES)
    return '<rect x="%.1f" y="%.1f" width="%.1f" height="%.1f" fill="%s"><title>%d %s: %s</title></rect>' % (
        x, y, width, height, OUTCOMES[runs[0].outcome], len(runs), runs[0].outcome, " ".join(names))


def draw_column(runs, x, width, unit):
    """A column: what went well stands lowest."""
    drawn, y = [], TOP + HEIGHT
    for outcome in reversed(OUTCOMES):
        part = [run for run in runs if run.outcome == outcome]
        y -= len(part) * unit
        if part:
            drawn.append(draw_part(x, y, width, len(part) * unit, part))
    return drawn


def draw_counts(most, unit):
    """How many runs, from below up."""
    drawn = []
    for count in range(0, most + 1, step_of(most)):
        y = TOP + HEIGHT - count * unit
        drawn += [line(LEFT, y, LEFT + WIDTH, y, "#e4e4e4"),
                  text(LEFT - 6, y + 3, str(count), "#666", ' text-anchor="end"')]
    return drawn


def draw_numbers(columns, first, size):
    """With which number columns begin, from left to right."""
    drawn = []
    for number in range(0, len(columns), step_of(len(columns))):
        x = LEFT + WIDTH * number / len(columns)
        drawn += [line(x, TOP + HEIGHT, x, TOP + HEIGHT + 4, "#666"),
                  text(x, TOP + HEIGHT + 15, str(first + number * size), "#666")]
    return drawn


def draw_legend(runs):
    """How many ended how, what went wrong highest."""
    counts, drawn = Counter(run.outcome for run in runs), []
    for place, outcome in enumerate(filter(counts.get, OUTCOMES)):
        y = TOP + 14 + 16 * place
        x, colour = LEFT + WIDTH + 14, OUTCOMES[outcome]
        drawn += ['<rect x="%d" y="%d" width="9" height="9" fill="%s"/>' % (x, y - 8, colour),
                  text(x + 14, y, "%d %s" % (counts[outcome], outcome))]
    return drawn


def draw_columns(runs, by):
    """The whole picture, by `number` or by `time`."""
    places = [(getattr(run, by), run) for run in runs if getattr(run, by) is not None]
    columns, first, size = columns_of(places)
    most = max(map(len, columns))
    unit, width = HEIGHT / most, WIDTH / len(columns)
    drawn = draw_counts(most, unit) + draw_numbers(columns, first, size)
    for number, column in enumerate(columns):
        drawn += draw_column(column, LEFT + number * width + width * 0.06, width * 0.88, unit)
    what = {"number": "the number in their names", "time": "the time at which they ended"}[by]
    head = "%d runs: how many ended how, by %s, %d to a column" % (len(runs), what, size)
    head += "; %d have none" % (len(runs) - len(places)) * (len(places) < len(runs))
    drawn += draw_legend(runs) + [text(LEFT, 16, head, "#222", ' font-weight="bold"')]
    shape = 'width="%d" height="%d"' % (LEFT + WIDTH + RIGHT, TOP + HEIGHT + BOTTOM)
    return ['<svg xmlns="http://www.w3.org/2000/svg" %s font-family="monospace" font-size="10">' % shape,
            '<rect width="100%" height="100%" fill="#fff"/>', *drawn, "</svg>"]
