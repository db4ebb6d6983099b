"""Letters in the cells of a screen: how wide they are, what they look like, and a picture of them."""

import unicodedata
from dataclasses import dataclass
from xml.sax.saxutils import escape

# The colours of a style, as a terminal numbers them, and as a picture on a dark ground has them.
COLOURS = {1: "#f27878", 2: "#8ec07c", 3: "#e8c468", 4: "#7fa7e0", 5: "#c792d6", 6: "#6fc3c3"}
INK, GROUND, FAINT = "#dcdcdc", "#1d1f21", "#8a8f98"
# The size of a cell of a picture, and what is left around them, in pixels.
WIDTH, HEIGHT, EDGE = 8, 17, 10


@dataclass(frozen=True)
class Style:
    """How letters look: in a colour, or in that of the terminal; bold, faint, or light on dark turned round."""
    colour: int = 0
    bold: bool = False
    faint: bool = False
    turned: bool = False


PLAIN, FAINTLY, TURNED = Style(), Style(faint=True), Style(turned=True)


def columns_of(letter):
    """How many columns a letter takes: none where it stands over the one before it, two where it is wide."""
    if unicodedata.category(letter) in ("Mn", "Me", "Cf"):
        return 0
    return 2 if unicodedata.east_asian_width(letter) in ("W", "F") else 1


def width_of(text):
    return sum(map(columns_of, text))


def cut(text, width):
    """The front of a text that fits into so many columns, and the rest."""
    for at, letter in enumerate(text):
        width -= columns_of(letter)
        if width < 0:
            return text[:at], text[at:]
    return text, ""


def parts_of(text, width):
    """A text in parts that fit into so many columns, at least two; one part where it is empty."""
    parts = []
    while True:
        part, text = cut(text, max(2, width))
        parts.append(part)
        if not text:
            return parts


class Cells:
    """A screen of so many rows and columns: in each row pieces of text, each with its column and style."""

    def __init__(self, height, width):
        self.height, self.width = height, width
        self.rows = [[] for _ in range(height)]

    def put(self, row, column, text, style=PLAIN):
        """Writes what there is room for, behind what stands in the row."""
        if 0 <= row < self.height and column < self.width:
            self.rows[row].append((column, cut(text, self.width - column)[0], style))

    def fill(self, row, text, style):
        """Writes a whole row, in place of what stands there."""
        if 0 <= row < self.height:
            self.rows[row] = []
            self.put(row, 0, text + " " * (self.width - width_of(text)), style)

    def text(self):
        """The rows as text alone."""
        lines = []
        for row in self.rows:
            line = ""
            for column, text, _ in row:
                line += " " * (column - width_of(line)) + text
            lines.append(line.rstrip())
        return lines


def drawn(row, column, text, style):
    """A piece of text in a picture, with its ground where that is turned round."""
    x, y, length = EDGE + column * WIDTH, EDGE + row * HEIGHT, width_of(text) * WIDTH
    colour = COLOURS.get(style.colour, FAINT if style.faint else INK)
    if style.turned:
        yield '<rect x="%d" y="%d" width="%d" height="%d" fill="%s"/>' % (x, y, length, HEIGHT, colour)
        colour = GROUND
    shown = text.rstrip()
    if shown:
        yield '<text x="%d" y="%d" fill="%s" textLength="%d"%s>%s</text>' % (
            x, y + HEIGHT - 4, colour, width_of(shown) * WIDTH, ' font-weight="bold"' * style.bold, escape(shown))


def picture_of(cells):
    """A screen as an SVG picture."""
    size = 'width="%d" height="%d"' % (2 * EDGE + cells.width * WIDTH, 2 * EDGE + cells.height * HEIGHT)
    lines = ['<svg xmlns="http://www.w3.org/2000/svg" %s font-family="monospace" font-size="13" xml:space="preserve">'
             % size, '<rect width="100%%" height="100%%" rx="6" fill="%s"/>' % GROUND]
    for number, row in enumerate(cells.rows):
        for column, text, style in row:
            lines += drawn(number, column, text, style)
    return "\n".join(lines + ["</svg>"]) + "\n"
