"""What a run tells on its way: the trace, and what the kernel does of which the trace has no line."""

from debugger.board import Board

CLASSES = ["yield", "subscribe", "command", "read-write allow", "read-only allow", "memop", "exit", "readable allow"]
DRIVERS = {0: "alarm", 1: "console", 2: "LED", 3: "button", 0x40001: "random", 0x50001: "storage"}
YIELDS = {0: "no-wait", 1: "wait", 2: "wait-for"}
# How many lines are remembered at most.
REMEMBERED = 100000


def driver_name(number):
    return DRIVERS.get(number, "driver 0x%x" % number)


def call_text(line):
    """A system call of the trace, in words."""
    words = line.split()
    kind, arguments = int(words[3]), [int(word, 16) for word in words[4:8]]
    text = CLASSES[kind] if kind < len(CLASSES) else "class %d" % kind
    if kind in (1, 2, 3, 4, 7):
        text = "%s %s %d (%s)" % (driver_name(arguments[0]), text, arguments[1],
                                  ", ".join("0x%x" % word for word in arguments[2:]))
    elif kind == 0:
        text += "-" + YIELDS.get(arguments[0], "?")
    else:
        text += " %d (0x%x)" % (arguments[0], arguments[1])
    if "=" in words:
        reply = words[words.index("=") + 1:]
        text += " = success" if int(reply[0], 16) >= 128 else " = failure %d" % int(reply[1], 16)
        text += ", refused: " + reply[4] if len(reply) > 4 else ""
    return "@%s slot %s: %s" % (words[0][1:], words[1], text)


def line_text(line):
    """A line of the trace, in words where it is a call."""
    words = line.split()
    if words[2] == "call":
        return call_text(line)
    if words[2] == "out":
        return "%s slot %s: prints %r" % (words[0], words[1], bytes.fromhex(words[3]).decode("latin-1"))
    return "%s slot %s: %s" % (words[0], words[1], " ".join(words[2:]))


def line_time(line):
    return int(line.split()[0][1:])


class Teller:
    """A second board, which goes on beside the first one and tells what happens, once."""

    def __init__(self, look, flash, script):
        self.board, self.lines = Board(look, flash, script), []

    def go_to(self, steps):
        """Goes on to after so many steps, where it is not there yet, and gives the new lines."""
        if steps <= self.board.steps:
            return []
        _, lines = self.board.moved(self.board.ask("trace", 0, steps - self.board.steps))
        self.lines = (self.lines + lines)[-REMEMBERED:]
        return lines

    def before(self, steps, time):
        """The lines of the steps made; where it went further than that, those before a time."""
        return self.lines if self.board.steps == steps else [line for line in self.lines if line_time(line) < time]

    def denial(self, slot, time):
        """The words of what was denied to a process in its turn at a time: the access, the address and the rule."""
        for line in reversed(self.lines):
            words = line.split()
            if words[:3] == ["@%d" % time, str(slot), "denied"]:
                return words[3:]
        return None


def script_events(path):
    """What a script says that comes in, by its times."""
    events = []
    with open(path, "rb") as file:
        for line in file.read().decode("ascii", "replace").splitlines():
            words = line.split()
            if words[:1] == ["at"] and len(words) > 2:
                events.append((int(words[1]), " ".join(words[2:])))
    return events


def changed_lives(slot, before, after):
    """What happened to a process in a step: its upcalls, its life."""
    was, now = before.place, after.place
    old, new = before.pending, after.pending
    lines = []
    if now.restarts != was.restarts:
        lines.append("starts again, for life %d" % (now.restarts + 1))
    elif now.turns > was.turns and was.state == "yielded" and now.state == "running":
        lines.append("takes an upcall: pc %08x, a0 to a2 %08x %08x %08x" % (now.pc, now.x[10], now.x[11], now.x[12]))
    elif now.state != was.state:
        lines.append("is %s" % now.state)
    for upcall in new[len(old):] if new[:len(old)] == old else []:
        lines.append("%s schedules upcall %d: %08x %08x %08x" % (
            (driver_name(upcall[0]), upcall[1]) + tuple(upcall[4:7])))
    return ["slot %d %s" % (slot, line) for line in lines]


def happened(board, first, last):
    """What happened in the steps from one to another, with its time: of each what the trace tells of it, and then what
    came of that, by what the kernel keeps before and after it."""
    board.seek(0, first)
    states = [board.state()]
    answers = board.ask_all(["trace 0 1", "state"] * (last - first))
    board.steps = last
    state = type(states[0])
    states += [state(answer) for answer in answers[1::2]]
    for traced, before, after in zip(answers[::2], states, states[1:]):
        # Behind the lines of the trace stand why it stopped, and where.
        yield from ((line_time(line), line_text(line)) for line in traced[:-2])
        for slot in before.slots:
            time = before.slots[slot].place.time
            for line in changed_lives(slot, before.slots[slot], after.slots[slot]):
                yield time, "@%d %s" % (time, line)
