"""Draws lanes over time as an SVG picture."""

from xml.sax.saxutils import escape

from spans import bars, rows_of, windows

# In pixels.
LEFT, WIDTH, RIGHT, ROW, TOP = 110, 900, 150, 15, 44
COLOURS = {"call": "#1f5fa8", "out": "#1c7a3e", "denied": "#b3261e", "refused": "#b3261e", "act": "#8a4b08",
           "given": "#8a4b08"}
BAR, SHADE = "#8a8f98", "#e3eefb"


class Picture:
    """The times that are shown, when the run ended, and what the script says."""

    def __init__(self, begin, end, last, script):
        self.begin, self.end, self.last, self.script = begin, end, last, script

    def place(self, time):
        """Where a time stands from left to right."""
        return LEFT + WIDTH * (time - self.begin) / max(self.end - self.begin, 1)

    def shown(self, marks):
        return [mark for mark in marks if self.begin <= mark.time <= self.end]


def text(x, y, content, colour="#222", more=""):
    return '<text x="%.1f" y="%.1f" fill="%s"%s>%s</text>' % (x, y, colour, more, escape(content))


def line(x1, y1, x2, y2, colour, width=1.0):
    return '<line x1="%.1f" y1="%.1f" x2="%.1f" y2="%.1f" stroke="%s" stroke-width="%s"/>' % (
        x1, y1, x2, y2, colour, width)


def draw_mark(mark, x, y, label_y):
    """A mark on the lane's line, with its text in a row above or below it, where it has one."""
    colour = COLOURS[mark.kind]
    drawn = [] if label_y is None else [line(x, y, x, label_y, colour, 0.6)]
    if mark.kind in ("denied", "refused"):
        shape = '<path d="M%.1f %.1fl8 8m0 -8l-8 8" stroke="%s" stroke-width="2"/>' % (x - 4, y - 4, colour)
    elif mark.kind == "out":
        shape = '<rect x="%.1f" y="%.1f" width="7" height="7" fill="%s"/>' % (x - 3.5, y - 3.5, colour)
    else:
        shape = '<circle cx="%.1f" cy="%.1f" r="3" fill="%s"/>' % (x, y, colour)
    drawn.append("<g>%s<title>%s</title></g>" % (shape, escape(mark.line)))
    if label_y is not None:
        drawn.append(text(x + 3, label_y + (9 if label_y > y else 0), mark.text, colour))
    return drawn


def draw_marks(picture, marks, rows, y, direction):
    """Marks with their texts in rows above (-1) or below (1) the lane's line."""
    return [part for mark, row in zip(marks, rows) for part in draw_mark(
        mark, picture.place(mark.time), y, None if row is None else y + direction * ROW * (row + 0.7))]


def height(rows):
    """How many rows are taken."""
    return max([row for row in rows if row is not None], default=-1) + 1


def draw_bars(picture, slot, lane, y):
    """The lane's line: thick where the process can run, thin where it lives."""
    runs, lives = bars(lane, slot, picture)
    return [line(picture.place(start), y, picture.place(stop), y, BAR, width)
            for parts, width in ((lives, 1), (runs, 5)) for start, stop, _ in parts]


def draw_lane(picture, slot, lane, top):
    """The lane of a slot from a height on, and where it ends."""
    marks = picture.shown(lane.marks)
    above, below = ([mark for mark in marks if (mark.kind == "call") == is_below] for is_below in (False, True))
    rows_above, rows_below = rows_of(above, picture.place), rows_of(below, picture.place)
    y = top + ROW * (1.2 + height(rows_above))
    end = y + ROW * (height(rows_below) + 1.2)
    drawn = ['<rect x="%.1f" y="%.1f" width="%.1f" height="%.1f" fill="%s"/>' % (
        picture.place(start), top, picture.place(stop) - picture.place(start), end - top, SHADE)
        for start, stop in windows(slot, picture.script.window, picture.begin, picture.end)]
    drawn += [text(10, y - 1, "slot %d %s" % (slot, lane.name), more=' font-weight="bold"'),
              text(10, y + 13, lane.end.split(" ")[0], "#666")]
    drawn += draw_bars(picture, slot, lane, y)
    return drawn + draw_marks(picture, above, rows_above, y, -1) + draw_marks(picture, below, rows_below, y, 1), end


def draw_given(picture, top):
    """The lane of what the script has come in, from a height on, and where it ends."""
    marks = picture.shown(picture.script.events)
    if not marks:
        return [], top
    rows = rows_of(marks, picture.place)
    y = top + ROW * (1.2 + height(rows))
    name = text(10, y - 1, "script", more=' font-weight="bold"')
    return [name, *draw_marks(picture, marks, rows, y, -1)], y + ROW * 1.2


def step_of(length):
    """A distance between marks of the axis: 1, 2 or 5 times a power of ten, at most twelve in all."""
    step = 1
    while length / step > 12:
        step = step * 5 // 2 if str(step)[0] == "2" else step * 2
    return step


def draw_axis(picture, bottom):
    step = step_of(picture.end - picture.begin)
    drawn = [text(10, 22, "time, in ticks", "#666")]
    for time in range(-(-picture.begin // step) * step, picture.end + 1, step):
        x = picture.place(time)
        drawn += [line(x, 30, x, bottom, "#eee"), text(x - 3, 22, str(time), "#666")]
    return drawn


def draw(picture, lanes):
    """The whole picture."""
    drawn, top = draw_given(picture, TOP)
    for slot, lane in lanes.items():
        if drawn:
            drawn.append(line(0, top, LEFT + WIDTH + RIGHT, top, "#ddd"))
        of_lane, top = draw_lane(picture, slot, lane, top)
        drawn += of_lane
    drawn.append(line(0, top, LEFT + WIDTH + RIGHT, top, "#ddd"))
    size = 'width="%d" height="%d"' % (LEFT + WIDTH + RIGHT, top + 8)
    return ['<svg xmlns="http://www.w3.org/2000/svg" %s font-family="monospace" font-size="10">' % size,
            '<rect width="100%" height="100%" fill="#fff"/>', *draw_axis(picture, top), *drawn, "</svg>"]
