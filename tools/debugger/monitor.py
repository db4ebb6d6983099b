"""Monitor commands: what the kernel keeps, what happened, and going to a step or a time."""

from debugger.output import NoText, printed, words_of
from debugger.trace import driver_name, happened, line_text, script_events

# How many pairs of upcalls, read-only buffers, read-write buffers and readable buffers each driver has
# (docs/drivers.md).
PAIRS = {0: (1, 0, 0, 1), 1: (3, 2, 2, 0), 2: (0, 0, 0, 0), 3: (1, 0, 0, 0), 0x40001: (1, 0, 1, 0),
         0x50001: (2, 1, 1, 0)}
KINDS = ("upcall", "read-only", "read-write", "readable")
STEPS_OF_EVENTS = 400
# In how many steps a text that was printed is looked for.
MOST_SEARCHED = 100000000
HELP = """slots              the report: each slot with its process
state              what the kernel keeps of each process: where it lies, what is pending, its grants; who waits
trace [N]          the last N system calls, denials, prints and acts (20)
events [N]         the last N steps (400): calls, upcalls, denials, what came in, acts and restarts
seek STEP, turn K, time T, output TEXT [N]
                   where `continue` goes at once: after a step, after a turn of this slot, to a time, to where a process
                   prints a text, for the first or the N-th time
where              where it looks
"""


def grant_lines(grants, at):
    """The words of grants, the last entered first: of each what it is, its pairs, and what its driver keeps. The first
    one lies at an address, the others behind it."""
    for driver, cost, *words in grants:
        yield "grant of %s, %d bytes at %08x" % (driver_name(driver), cost, at)
        for kind, count in zip(KINDS, PAIRS.get(driver, (0, 0, 0, 0))):
            for n in range(count):
                yield "  %s %d: %08x %08x" % (kind, n, *words[:2])
                words = words[2:]
        yield "  keeps " + " ".join("%08x" % word for word in words)
        at += cost


class Monitor:
    """The commands of a session."""

    def __init__(self, server, script):
        self.server, self.script = server, script

    def do(self, text):
        words = text.split()
        if words[:1] == ["output"]:
            self.server.packets.say(self.output(text.split(None, 1)[1:]))
            return
        commands = {"slots": self.slots, "state": self.state, "trace": self.trace, "events": self.events,
                    "seek": self.seek, "turn": self.turn, "time": self.time, "where": self.where}
        command = commands.get(words[0]) if words else None
        if command is None:
            self.server.packets.say(HELP)
            return
        wrong = [word for word in words[1:] if not word.isdigit()]
        if wrong:
            self.server.packets.say(self.stays("%s takes a number, not %s" % (words[0], wrong[0])))
            return
        try:
            text = command(*map(int, words[1:]))
        except TypeError:
            text = HELP
        self.server.packets.say(text)

    def slots(self):
        return "\n".join(self.server.past.state().report) + "\n"

    def state(self):
        past = self.server.past
        state = past.state()
        lines = []
        for slot in sorted(state.slots):
            lines += self.state_lines(state.slots[slot])
        lines += ["slots that wait for %s, the longest first: %s" % (device, " ".join(map(str, slots)))
                  for device, slots in state.waits.items() if slots]
        return "\n".join(lines) + "\n"

    def state_lines(self, state):
        lines = [state.report]
        numbers = state.numbers
        lines.append("  flash %08x to %08x, memory %08x to %08x, break %08x, grants from %08x" % (
            *numbers["flash"], *numbers["block"], *numbers["break"], *numbers["kernel-break"]))
        for upcall in state.pending:
            lines.append("  pending: %s upcall %d, function %08x, data %08x, a0 to a2 %08x %08x %08x" % (
                driver_name(upcall[0]), *upcall[1:]))
        return lines + ["  " + line for line in grant_lines(state.grants, *numbers["kernel-break"])]

    def here(self):
        return self.server.past.place(self.server.slot)

    def trace(self, count=20):
        self.server.teller.go_to(self.server.past.steps)
        lines = self.server.teller.before(self.server.past.steps, self.here().time)
        return "".join(line_text(line) + "\n" for line in lines[-count:])

    def events(self, count=STEPS_OF_EVENTS):
        past = self.server.past
        past.sync()
        first, now = max(0, past.steps - count), self.here().time
        start = past.time_after(first)
        # What comes in at a time does so before anything else; the sort leaves what the steps did in its order.
        found = [(time, "@%d the script: %s" % (time, text)) for time, text in script_events(self.script)
                 if start <= time <= now]
        found += happened(past.board, first, past.steps)
        if not found:
            return "nothing happened in steps %d to %d\n" % (first, past.steps)
        return "".join(line + "\n" for _, line in sorted(found, key=lambda event: event[0]))

    def stays(self, why):
        """Says why it goes nowhere; a `continue` that follows has somewhere to stay."""
        self.later(lambda: self.server.past.seek(self.server.past.steps))
        return why + "\n"

    def later(self, seek):
        # GDB keeps what it has read until it lets the process go on.
        self.server.target = seek
        return ""

    def output(self, words):
        """Goes to where a process hands a text to the console, and has that process be looked at."""
        try:
            text, times = words_of("".join(words))
        except NoText as wrong:
            return self.stays(str(wrong))
        found = printed(self.server.past.board, text, times, MOST_SEARCHED)
        if found is None:
            return self.stays("this is not printed%s in the first %d steps" % (
                " %d times" % times if times > 1 else "", MOST_SEARCHED))
        return self.later(lambda: self.look_at(*found))

    def look_at(self, steps, slot):
        self.server.slot = slot
        self.server.past.seek(steps)

    def seek(self, steps):
        return self.later(lambda: self.server.past.seek(steps))

    def turn(self, turns):
        return self.later(lambda: self.server.past.seek_turn(self.server.slot, turns))

    def time(self, time):
        return self.later(lambda: self.server.past.seek_time(time))

    def where(self):
        place = self.here()
        return "step %d, time %d: slot %d is %s after %d turns, pc %08x\n" % (
            place.steps, place.time, place.slot, place.state, place.turns, place.pc)
