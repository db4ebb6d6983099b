"""What GDB asks of a board, and what it is answered. Threads are the slots: thread 1 is slot 0. A run is a function of
the flash file, the script and the number of steps, so it goes back by running again, and nothing is written."""

import struct
import sys

from debugger.board import Refused
from debugger.conditions import codes_in, holds
from debugger.monitor import Monitor
from debugger.packets import INTERRUPT
from debugger.past import Past
from debugger.trace import Teller

NAMES = ("zero ra sp gp tp t0 t1 t2 fp s1 a0 a1 a2 a3 a4 a5 a6 a7 s2 s3 s4 s5 s6 s7 s8 s9 s10 s11 t3 t4 t5 t6").split()
POINTERS = {"ra": "code_ptr", "sp": "data_ptr", "gp": "data_ptr", "tp": "data_ptr", "fp": "data_ptr"}
# GDB's numbers of signals, by the code of mcause: illegal, breakpoint, misaligned, unknown system call; else SIGSEGV.
TRAP, INTERRUPTED, SEGMENTATION = 5, 2, 11
SIGNALS = {2: 4, 3: TRAP, 0: 10, 4: 10, 6: 10, 8: 12}
# How many steps it goes on before it looks whether GDB interrupts it.
PART = 5000000
MOST_ADDRESSES, MOST_WATCHED, MOST_BYTES = 64, 20, 64
READ_ONLY = "a run is a function of flash and script: nothing is written to it"
NO_READS = "no read is looked for: delete this watchpoint; `watch` stops where a write changes something"
NO_MEMORY = "E01"


def hex_of(word):
    return struct.pack("<I", word).hex()


def numbers_in(text):
    return tuple(int(word, 16) for word in text.split(","))


def target_description():
    registers = "".join('<reg name="%s" bitsize="32" type="%s"/>' % (name, POINTERS.get(name, "int")) for name in NAMES)
    return ('<?xml version="1.0"?><!DOCTYPE target SYSTEM "gdb-target.dtd"><target version="1.0">'
            '<architecture>riscv:rv32</architecture><feature name="org.gnu.gdb.riscv.cpu">%s'
            '<reg name="pc" bitsize="32" type="code_ptr"/></feature></target>' % registers)


class Server:
    """One session."""

    def __init__(self, look, flash, script, slot, packets):
        self.past, self.teller = Past(look, flash, script), Teller(look, flash, script)
        if slot is not None and slot not in self.past.first.slots:
            raise Refused("slot %d has no process" % slot)
        if not self.past.first.slots:
            raise Refused("no slot has a process")
        self.slot = min(self.past.first.slots) if slot is None else slot
        self.packets, self.monitor = packets, Monitor(self, script)
        self.addresses, self.watched = {}, set()    # each address with the conditions that its breakpoint has
        self.ahead = None           # the step after which it stands, before a denial or an exit of which GDB knows
        self.target = None          # where `continue` goes at once
        self.states = {}            # the state of each process, as GDB was told

    def serve(self):
        for packet in self.packets:
            try:
                answer = self.answer(packet)
            except Refused as refused:
                answer = "E.%s" % refused
            if answer is None:
                return
            self.packets.send(answer)

    # Registers and memory.

    def registers(self):
        place = self.past.place(self.slot)
        return "".join(hex_of(word) for word in place.x + [place.pc])

    def register(self, number):
        place = self.past.place(self.slot)
        return hex_of((place.x + [place.pc])[number]) if number < 33 else "E01"

    def read(self, at, count):
        data = self.past.memory(at, count)
        return data.hex() if data else NO_MEMORY

    # Stops.

    def stopped(self, signal, more="", slot=None):
        """The reply where it stopped, at the process of a slot."""
        self.slot = self.slot if slot is None else slot
        place = self.past.place(self.slot)
        return "T%02x%s20:%s;02:%s;08:%s;thread:%x;" % (
            signal, more, hex_of(place.pc), hex_of(place.x[2]), hex_of(place.x[8]), self.slot + 1)

    def tell_new(self):
        """Shows what was printed since it was told the last time."""
        for line in self.teller.go_to(self.past.steps):
            words = line.split()
            if words[2] == "out":
                text = bytes.fromhex(words[3]).decode("latin-1")
                self.packets.say(text if int(words[1]) == self.slot else "[slot %s] %s" % (words[1], text))
            if words[2] == "act":
                self.packets.say("[slot %s] an operator's %s\n" % (words[1], words[3]))

    def stand_before(self, slot, text):
        """Stands before the step that was made, which GDB is told, and tells what it is."""
        self.ahead = self.past.steps - 1
        self.past.seek(self.ahead)
        self.packets.say("slot %d: %s (step %d)\n" % (slot, text, self.ahead + 1))

    def at_denial(self, slot, cause, address):
        self.past.seek(self.past.steps - 1)
        told = self.teller.denial(slot, self.past.place(slot).time)
        denial = told or ["access", "%08x" % address, "mcause %d" % cause]
        self.past.seek(self.past.steps + 1)
        self.stand_before(slot, "%s of %s is denied: %s" % tuple(denial))
        return self.stopped(SIGNALS.get(cause, SEGMENTATION), slot=slot)

    def at_exit(self, slot, words):
        """An exit of the process that is looked at stops it where it ends; others are told alone."""
        text = "exits with code %d" % words[1] if words[0] == 0 else "starts again, with code %d" % words[1]
        if slot == self.slot and words[0] == 0:
            self.stand_before(slot, text)
            return self.stopped(TRAP, slot=slot)
        self.packets.say("slot %d: %s (step %d)\n" % (slot, text, self.past.steps))
        return None

    def stop_of(self, why, words):
        """The reply to GDB where a board stopped, or None where it goes on."""
        if why == "denied":
            return self.at_denial(*words)
        if why == "exit":
            return self.at_exit(words[0], words[1:])
        if why == "act":
            return self.stopped(TRAP, slot=words[0]) if words[0] == self.slot else None
        if why == "address":
            return self.stopped(TRAP, slot=words[0])
        if why == "changed":
            return self.stopped(TRAP, "watch:%x;" % words[0], self.past.first.slot_at(words[0]))
        if why == "range":
            return self.stopped(TRAP)
        if why == "done":
            self.packets.say("nothing is left to do\n")
            return self.stopped(TRAP, "replaylog:end;")
        return self.stopped(INTERRUPTED) if self.packets.is_interrupted() else None

    # Going on, and back.

    def pass_ahead(self):
        """Makes the step before which it stands, where GDB knows of it."""
        passed = self.ahead == self.past.steps
        self.ahead = None
        if passed:
            self.past.seek(self.past.steps + 1)
            self.tell_new()
        return passed

    def watched_numbers(self):
        return [number for place in sorted(self.watched) for number in place]

    def go_on(self, slot, area=(0, 0)):
        """Goes on, with an area until the process of a slot leaves it."""
        self.slot = slot
        if self.pass_ahead() and area[1]:
            return self.stopped(TRAP)
        here = None
        while True:
            before = self.past.steps
            why = here or self.past.until_held(slot, PART, area, self.watched_numbers(), self.addresses)
            self.tell_new()
            reply = self.stop_of(why[0], [int(word, 16) for word in why[1:]])
            if reply:
                return reply
            if self.past.steps == before:
                return self.stopped(TRAP, "replaylog:end;")
            here = self.past.stands_at(self.addresses)

    def go_back(self):
        self.ahead = None
        why = self.past.last(self.watched_numbers(), self.addresses) if self.past.steps else None
        if why is None:
            return self.stopped(TRAP, "replaylog:begin;")
        at = int(why[1], 16)
        if why[0] == "changed":
            return self.stopped(TRAP, "watch:%x;" % at, self.past.first.slot_at(at))
        return self.stopped(TRAP, slot=at)

    def step_back(self, slot):
        self.ahead, self.slot = None, slot
        return self.stopped(TRAP, "" if self.past.back(slot) else "replaylog:begin;")

    def go_there(self):
        """Goes where a monitor command said. It is an interrupt, since GDB goes on by itself after a trap where it
        knows of no breakpoint."""
        seek, self.target, self.ahead = self.target, None, None
        seek()
        self.tell_new()
        self.packets.say(self.monitor.where())
        return self.stopped(INTERRUPTED)

    def resume(self, actions):
        """`vCont`: an action for a thread, and one for all others."""
        action, _, thread = actions[0].partition(":")
        slot = int(thread.split(".")[-1], 16) - 1 if thread and not thread.endswith("-1") else self.slot
        if action[0] in "cC":
            return self.go_there() if self.target else self.go_on(slot)
        if action[0] == "r":
            low, high = numbers_in(action[1:])
            # An area of no bytes is one turn.
            return self.go_on(slot, (low, high) if low < high else (1, 1))
        return self.go_on(slot, (1, 1))

    # Breakpoints.

    def point(self, packet):
        insert, kind = packet[0] == "Z", packet[1]
        place, _, conditions = packet[3:].partition(";")
        at, size = numbers_in(place)
        if kind in "01":
            self.addresses.pop(at, None)
            if insert:
                self.addresses[at] = codes_in(conditions)
            return "OK" if len(self.addresses) <= MOST_ADDRESSES else "E.at most %d breakpoints" % MOST_ADDRESSES
        if kind in "34":
            return self.refuse(NO_READS) if insert else "OK"
        return self.watch(insert, at, size) if kind == "2" else ""

    def watch(self, insert, at, size):
        slot = self.past.first.slot_at(at)
        if slot is None or at + size > self.past.first.block(slot)[1]:
            return "E.no memory of a process"
        (self.watched.add if insert else self.watched.discard)((slot, at, size))
        if len(self.watched) > MOST_WATCHED or size > MOST_BYTES:
            self.watched.discard((slot, at, size))
            return "E.at most %d watchpoints, of %d bytes each" % (MOST_WATCHED, MOST_BYTES)
        return "OK"

    # What GDB may ask.

    def threads(self):
        """The document of threads, which GDB reads at each stop: the state of each process, where the board is."""
        if self.past.at_turn is None:
            self.states = {slot: state.place.state for slot, state in self.past.state().slots.items()}
        rows = ['<thread id="%x" name="%s">%s</thread>' % (slot + 1, self.past.first.name(slot), state)
                for slot, state in sorted(self.states.items())]
        return "<threads>%s</threads>" % "".join(rows)

    def transfer(self, packet):
        """A part of a document that GDB reads."""
        name, _, part = packet[len("qXfer:"):].rpartition(":")
        if name == "features:read:target.xml":
            text = target_description()
        elif name == "threads:read:":
            text = self.threads()
        else:
            return ""
        at, count = numbers_in(part)
        return ("m" if at + count < len(text) else "l") + text[at:at + count]

    def query(self, packet):
        if packet.startswith("qSupported"):
            return ("PacketSize=4000;QStartNoAckMode+;qXfer:features:read+;qXfer:threads:read+;ReverseStep+;"
                    "ReverseContinue+;vContSupported+;ConditionalBreakpoints+")
        if packet == "QStartNoAckMode":
            self.packets.acknowledges = False
            return "OK"
        if packet.startswith("qXfer:"):
            return self.transfer(packet)
        if packet == "qC":
            return "QC%x" % (self.slot + 1)
        if packet == "qfThreadInfo":
            return "m" + ",".join("%x" % (slot + 1) for slot in sorted(self.past.first.slots))
        if packet == "qsThreadInfo":
            return "l"
        if packet.startswith("qAttached"):
            return "1"
        if packet.startswith("qRcmd,"):
            self.monitor.do(bytes.fromhex(packet[len("qRcmd,"):]).decode("latin-1"))
            return "OK"
        return ""

    def select(self, packet):
        """`Hg`, `Hc` and `T` name a thread; 0 and -1 mean any."""
        number = int(packet[1 if packet[0] == "T" else 2:].split(".")[-1], 16)
        if number > 0 and number - 1 not in self.past.first.slots:
            return "E01"
        if packet.startswith("Hg") and number > 0:
            self.slot = number - 1
        return "OK"

    def refuse(self, why):
        # What GDB says itself does not name the reason; what comes from here on standard error it shows.
        sys.stderr.write("debug: %s\n" % why)
        sys.stderr.flush()
        return "E." + why

    def refuse_write(self, packet):
        # By an `X` of no bytes GDB asks whether it may send them so.
        return "E." + READ_ONLY if packet[0] == "X" and packet.endswith(",0:") else self.refuse(READ_ONLY)

    def answer(self, packet):
        """The answer to a packet; None ends the session."""
        if packet in (INTERRUPT, "?"):
            return self.stopped(INTERRUPTED if packet == INTERRUPT else TRAP)
        if packet == "g":
            return self.registers()
        if packet[0] == "p":
            return self.register(int(packet[1:], 16))
        if packet[0] == "m":
            return self.read(*numbers_in(packet[1:]))
        if packet[0] in "GPMX":
            return self.refuse_write(packet)
        if packet[0] in "Zz":
            return self.point(packet)
        if packet[0] in "qQ":
            return self.query(packet)
        if packet[0] in "HT":
            return self.select(packet)
        if packet[0] in "Dk" or packet.startswith("vKill"):
            self.packets.send("OK")
            return None
        return self.run(packet)

    def run(self, packet):
        """The answer to a packet that lets processes go on or back."""
        if packet == "vCont?":
            return "vCont;c;C;s;S;r"
        if packet.startswith("vCont;"):
            return self.resume(packet[len("vCont;"):].split(";"))
        if packet[0] in "cs":
            return self.resume([packet[0]])
        if packet == "bs":
            return self.step_back(self.slot)
        if packet == "bc":
            return self.go_there() if self.target else self.go_back()
        return ""
