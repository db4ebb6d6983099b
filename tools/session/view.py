"""What a person sees of a session: the board, its slots, the console, and a line to type in."""

from debugger.board import Refused
from session.cells import FAINTLY, PLAIN, TURNED, Cells, Style, cut, picture_of, width_of
from session.console import Console
from session.recorded import write_whole
from session.sitting import HELP

SECOND = 1000
# So many colours of slots there are, and the numbers of the first ones.
SLOT_COLOURS = (2, 6, 3, 5, 4, 1)
LED_ON = Style(3, bold=True)
KEYS = """space   the board goes on, or pauses     enter   type a line, which comes in on the serial line
+ -     twice as fast, half as fast      0 to 9  press a button, or release it
.       a step                           up down mark a slot; then of its process
right   on by a second                   p       stop it, or start it again
left    back by a second                 l t r   list, terminate, restart it
tab     the console of one slot, or all  d       debug it, from this step
pages   scroll the console               u       undo the last of what was done
w       save the script                  :       a command, as below; q quits, ctrl-c too
"""
KEYS_SHORT = "space pause  enter type  0-9 buttons  arrows  p l t r act  : command  ? keys  q quit"
# How many rows and columns a picture has.
PICTURE = (20, 92)


class View:
    """What is shown beside the board itself, and how."""

    def __init__(self, sitting, name):
        self.sitting, self.present, self.name = sitting, sitting.present, name
        self.console, self.mark, self.pace = Console(), 0, ""
        self.prompt, self.text = None, ""       # `type` or `:` where a line is typed, and the line
        self.said, self.help = "? tells the keys", False
        self.lights = "●○"
        self.state = self.present.state()
        sitting.commands["picture"] = (self.save_picture, (1,))

    def save_picture(self, path):
        """Saves what is seen as a picture."""
        try:
            write_whole(path, picture_of(self.cells(*PICTURE)), "utf-8")
        except OSError as error:
            raise Refused("%s: %s" % (path, error.strerror)) from None
        return ["saved " + path]

    def cells(self, height, width):
        """The screen, in so many rows and columns."""
        self.state = self.present.state()
        self.console.take_in(self.present.lines, self.sitting.recorded.events, self.present.next)
        cells = Cells(height, width)
        if self.help:
            for row, line in enumerate((KEYS + "\n" + HELP).split("\n")):
                cells.put(row, 0, line)
        else:
            self.draw(cells)
        return cells

    def draw(self, cells):
        cells.fill(0, " %s   %.3f s   steps %d   %s" % (
            self.name, self.present.now / SECOND, self.present.steps, self.how_it_goes()), TURNED)
        row = self.draw_slots(cells, self.draw_lights(cells, 1))
        self.draw_console(cells, row)
        cells.fill(cells.height - 2, self.said, TURNED)
        if self.prompt:
            line = (self.prompt + " " if self.prompt == "type" else self.prompt) + self.text + "_"
            # The end of a long line is seen.
            while width_of(line) > cells.width:
                line = line[1:]
            cells.fill(cells.height - 1, line, PLAIN)
        else:
            cells.fill(cells.height - 1, KEYS_SHORT, PLAIN)

    def how_it_goes(self):
        """Whether it goes on, or why not."""
        if self.present.is_full:
            return "stands: tock makes no more steps than these"
        if self.state.report[-1].startswith("end done"):
            return ", ".join(word for word in (self.pace, "nothing is left to do") if word)
        return self.pace

    def draw_lights(self, cells, row):
        """The LEDs and the buttons, and the row behind them."""
        on, off = self.lights
        leds = next(line.split()[1] for line in self.state.report if line.startswith("leds "))
        cells.put(row, 0, " LEDs")
        column = 9
        for number, led in enumerate(leds if leds != "-" else ""):
            text = "%d%s" % (number, on if led == "1" else off)
            cells.put(row, column, text, LED_ON if led == "1" else FAINTLY)
            column += len(text) + 1
        count = self.sitting.recorded.number("buttons", 0)
        pressed = self.sitting.recorded.pressed(self.present.next)
        column = 9
        for number in range(count):
            text = "[%d]" % number
            cells.put(row + 1, column, text, TURNED if number in pressed else PLAIN)
            cells.put(row + 1, column + len(text), "down" if number in pressed else "")
            column += len(text) + 5
        if count:
            cells.put(row + 1, 0, " buttons")
        return row + (2 if count else 1)

    def draw_slots(self, cells, row):
        """The slots, those about the marked one where there is no room for all, and the row behind them."""
        lines = [line for line in self.state.report if line.startswith(("slot ", "unplaced "))]
        room = max(1, cells.height - row - 4)
        first = max(0, min(self.mark - room // 2, len(lines) - room))
        for line in lines[first:first + room]:
            words = line.split()
            if words[0] == "slot":
                slot, turns = int(words[1]), words.index("turns")
                is_marked = slot == self.mark
                cells.put(row, 0, ("> " if is_marked else "  ") + "%2d %-14s" % (slot, words[2]),
                          Style(SLOT_COLOURS[slot % len(SLOT_COLOURS)], bold=is_marked))
                cells.put(row, 20, "%-38s%s" % (" ".join(words[3:turns]), " ".join(words[turns:])))
            else:
                cells.put(row, 5, line)
            row += 1
        return row

    def draw_console(self, cells, row):
        named = "all" if self.console.slot is None else "slot %d" % self.console.slot
        below = self.console.below()
        title = "-- console: %s %s" % (named, "-- %d line%s below " % (below, "s" * (below > 1)) if below else "")
        cells.put(row, 0, title + "-" * (cells.width - width_of(title)), FAINTLY)
        self.height_of_console = max(0, cells.height - row - 3)
        for at, (slot, text) in enumerate(self.console.rows(cells.width, self.height_of_console)):
            style = FAINTLY if slot is None else Style(SLOT_COLOURS[slot % len(SLOT_COLOURS)])
            cells.put(row + 1 + at, 0, text, style)
