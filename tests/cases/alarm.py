"""The alarm, and its clock in a buffer that the process reads."""

from flash_images import *
from .case import boot, tells
from .programs import WRAPS
from .swaps import BREAK, CODE, TOP

# Exits with the first argument of the upcall of the alarm that it arms 60 ticks from tick 0 on.
ALARM_AT_60 = app(mv(S0, A0), li(A4, SUBSCRIBE), li(A0, ALARM), li(A1, 0), addi(A2, S0, offset("rings")),
                  li(A3, 0), ecall, command(ALARM, 6, 0, 60), yields(1), "rings", mv(A1, A0), exits())

ALARMS = [
    tells("alarm-is-there", "a driver that is there says so", 128, command(ALARM, 0), mv(A1, A0)),
    tells("alarm-frequency", "a second has 1000 ticks", 1000, command(ALARM, 1)),
    tells("clock-of-the-start", "the clock shows the script's start and the time of the step", 12,
          command(ALARM, 2), script=b"start 7"),
    tells("clock-that-wraps", "modulo 2^32", 4, command(ALARM, 2), script=b"start 4294967295"),
    tells("alarm-from-now-on", "the reply is the tick of the expiration", 25, command(ALARM, 5, 20)),
    tells("alarm-from-a-reference", "counted from the reference", 901, command(ALARM, 6, 1, 900)),
    boot("alarm-from-a-later-reference", "which, where it is later than the clock, was long ago: it is due at once",
         app(command(ALARM, 6, 100, 20), exits()), """
        ==
        slot 0 - terminated 120 turns 9 restarts 0
        leds 0000
        end done steps 10 time 9
    """),
    tells("expiration-that-wraps", "modulo 2^32", 19, command(ALARM, 6, -1, 20)),
    tells("stop-of-no-alarm", "none is armed at first", 3, command(ALARM, 3)),
    tells("stop-of-an-alarm", "an alarm that is armed is stopped", 128,
          command(ALARM, 5, 900), command(ALARM, 3), mv(A1, A0)),
    tells("stop-of-a-stopped-alarm", "and then none is armed", 3,
          command(ALARM, 5, 900), command(ALARM, 3), command(ALARM, 3)),
    tells("no-such-command", "a number that the alarm does not know", 10, command(ALARM, 4)),
    tells("command-to-no-driver", "a number without a driver", 11, command(NO_DRIVER, 0)),
    tells("no-room-for-an-alarm", "an alarm needs room for its grant", 9, memop(0, TOP), command(ALARM, 5, 1)),
    boot("alarm-near-the-clocks-end", "the clock wraps while a process waits: the upcall tells tick 15", WRAPS,
         script=b"start 4294967280", text="""
        ==
        slot 0 - terminated 15 turns 20 restarts 0
        leds 0000
        end done steps 22 time 36
    """),
    boot("alarms-due-together", "alarms fire one after another, and take no time", ALARM_AT_60 + ALARM_AT_60, """
        ==
        slot 0 - terminated 60 turns 21 restarts 0
        slot 1 - terminated 60 turns 21 restarts 0
        leds 0000
        end done steps 45 time 70
    """),
    boot("alarm-of-one-that-ended", "an alarm of a process that ended wakes nobody",
         app(command(ALARM, 5, 100), li(A1, 5), exits()), """
        ==
        slot 0 - terminated 5 turns 10 restarts 0
        leds 0000
        end done steps 10 time 10
    """),
    boot("alarm-without-an-upcall", "a null upcall wakes nobody either", app(command(ALARM, 5, 100), yields(1)), """
        ==
        slot 0 - yielded turns 9 restarts 0
        leds 0000
        end done steps 11 time 105
    """),
    boot("permission-before-no-driver", "what the object does not permit is refused before all else",
         app(command(NO_DRIVER, 3), exits(), elements=[permissions_tlv((1, 0, 2))]), """
        ==
        slot 0 - terminated 11 turns 9 restarts 0
        leds 0000
        end done steps 9 time 9
    """),
]


def time_after(*parts):
    """When the last instruction of these has its turn, of a process that is alone and begins with them."""
    return len(assemble(parts)) // 4 - 1


# A process reads a buffer while the kernel writes it: the alarm shows the clock there, at its command 2 and where it
# answers. Each of these loads the first word of RAM at its end.
SHOWS, TIME, FIRST_WORD = swap(READABLE, ALARM, 0, RAM, 4), command(ALARM, 2), li(T0, RAM) + lw(A1, T0)
ALL_ONES = li(T0, RAM) + li(T1, -1) + sw(T1, T0)
IN_TWO_BYTES = swap(READABLE, ALARM, 0, RAM, 2)
LATER = 0x12345678
# A request for a random word into the same word of RAM; and a readable buffer that begins two bytes later.
DRAWS_HERE = swap(READ_WRITE, RANDOM, 0, RAM, 4), command(RANDOM, 1, 4)
SHOWS_THERE = swap(READABLE, ALARM, 0, RAM + 2, 4), TIME

READABLES = [
    boot("clock-at-the-start-of-ram", "a process reads the time of its own command 2, before which it made ten turns",
         app(mv(S0, A1), li(A4, 7), li(A0, ALARM), li(A1, 0), mv(A2, S0), li(A3, 4), ecall,
             li(A4, 2), li(A0, ALARM), li(A1, 2), ecall, lw(A1, S0), exits()), """
        ==
        slot 0 - terminated 10 turns 15 restarts 0
        leds 0000
        end done steps 15 time 15
    """),
    tells("clock-in-a-readable-buffer", "command 2 shows the clock where its process reads it",
          time_after(SHOWS, TIME), SHOWS, TIME, FIRST_WORD),
    tells("clock-without-a-buffer", "and nowhere, where no buffer was allowed", 0, TIME, FIRST_WORD),
    tells("clock-in-no-bytes", "or one without bytes", 0, swap(READABLE, ALARM, 0, RAM, 0), TIME, FIRST_WORD),
    tells("clock-in-two-bytes", "the low bytes are shown where the buffer is shorter, and nothing behind it",
          0xffff0000 + (LATER + time_after(ALL_ONES, IN_TWO_BYTES, TIME)) % 0x10000,
          ALL_ONES, IN_TWO_BYTES, TIME, FIRST_WORD, script=b"start %d" % LATER),
    tells("clock-in-a-longer-buffer", "and four bytes where it is longer", 0xffffffff,
          li(T0, RAM), li(T1, -1), sw(T1, T0, 4), swap(READABLE, ALARM, 0, RAM, 8), TIME, li(T0, RAM), lw(A1, T0, 4)),
    tells("readable-buffer-comes-back", "an allow gives the former buffer", 4, SHOWS,
          swap(READABLE, ALARM, 0, 0, 0), mv(A1, A2)),
    tells("clock-in-a-buffer-taken-back", "and what was taken back shows nothing", 0, SHOWS,
          swap(READABLE, ALARM, 0, 0, 0), TIME, FIRST_WORD),
    tells("readable-of-no-number", "the alarm has one", 10, swap(READABLE, ALARM, 1, RAM, 4)),
    tells("readable-of-another-driver", "and no other driver any", 10, swap(READABLE, CONSOLE, 0, RAM, 4)),
    tells("readable-of-no-driver", "a number without a driver", 11, swap(READABLE, NO_DRIVER, 0, RAM, 4)),
    tells("readable-in-flash", "the kernel writes it, so it lies in RAM", 6, swap(READABLE, ALARM, 0, CODE, 4)),
    tells("break-below-a-readable-buffer", "and the break stays above it", 9,
          swap(READABLE, ALARM, 0, BREAK - 16, 16), memop(0, BREAK - 4)),
    tells("no-room-for-a-readable-buffer", "it needs room for the alarm's grant", 9, memop(0, TOP), SHOWS),
    boot("readable-that-is-not-permitted", "and leave to use the alarm",
         app(SHOWS, exits(), elements=[permissions_tlv((1, 0, 2))]), """
        ==
        slot 0 - terminated 11 turns 9 restarts 0
        leds 0000
        end done steps 9 time 9
    """),
    boot("clock-at-an-alarm", "an alarm that fires shows the clock, though nobody subscribed its upcall",
         app(SHOWS, command(ALARM, 5, 3), *counts_down(5), FIRST_WORD, exits()), """
        ==
        slot 0 - terminated %d turns 28 restarts 0
        leds 0000
        end done steps 29 time 28
    """ % (time_after(SHOWS, command(ALARM, 5, 3)) + 3)),
    boot("readable-over-read-write", "buffers of two drivers may overlap: the clock is shown over a random word",
         app(*DRAWS_HERE, *SHOWS_THERE, FIRST_WORD, exits()), script=b"random 04030201", text="""
        ==
        slot 0 - terminated %d turns 32 restarts 0
        leds 0000
        end done steps 33 time 32
    """ % (0x0201 + time_after(*DRAWS_HERE, *SHOWS_THERE) * 0x10000)),
    boot("read-write-over-readable", "and the word is written over the clock, where it comes later",
         app(*SHOWS_THERE, *DRAWS_HERE, FIRST_WORD, exits()), script=b"random 04030201", text="""
        ==
        slot 0 - terminated %d turns 32 restarts 0
        leds 0000
        end done steps 33 time 32
    """ % 0x04030201),
]
