"""Yield: without a wait, with one, and for one upcall alone."""

from flash_images import *
from .case import boot, tells
from .programs import EXIT_7

YIELDS = [
    boot("yield-without-an-upcall", "a process waits, and nothing can come any more", app(yields(1)) + EXIT_7, """
        ==
        slot 0 - yielded turns 3 restarts 0
        slot 1 - terminated 7 turns 4 restarts 0
        leds 0000
        end done steps 7 time 7
    """),
    tells("yield-at-once", "where no upcall waits the flag is 0, and the process goes on", 0,
          li(T0, 5), sb(T0, A1), yields(0), lbu(A1, A1)),
    tells("yield-leaves-a0", "a yield has no reply", 3, yields(3), mv(A1, A0)),
    tells("flag-at-the-last-byte", "the flag may lie below the break", 0,
          addi(A1, A3, -1), li(T0, 5), sb(T0, A1), yields(0), lbu(A1, A1)),
    tells("flag-above-the-break", "elsewhere no flag is written", 7, mv(A1, A3), yields(0), li(A1, 7)),
    tells("flag-in-flash", "nor in flash", 5, mv(S0, A0), li(T0, 5), mv(A1, A0), yields(0), mv(A1, T0)),
    boot("yield-without-a-wait-delivers", "where an upcall waits the flag is 1, and its function runs",
         app(mv(S0, A0), mv(S1, A1), *hands(SUBSCRIBE, ALARM, 0, "fired"), command(ALARM, 5, 1), mv(A1, S1), yields(0),
             li(A1, 9), exits(), "fired", lbu(A1, S1), exits()), """
        ==
        slot 0 - terminated 1 turns 22 restarts 0
        leds 0000
        end done steps 23 time 22
    """),
    tells("yield-of-another-number", "any other number changes nothing", 5, li(A1, 5), yields(3)),
]

# Arms the alarm and waits for its upcall alone, without a function for it; exits with its first argument.
AWAITS = app(command(ALARM, 5, 20), waits_for(ALARM, 0), mv(A1, A0), exits())

WAITS = [
    boot("wait-for-an-alarm-alone", "the alarm's upcall tells tick 24, 20 ticks after the command that armed it",
         app(li(A4, 2), li(A0, ALARM), li(A1, 5), li(A2, 20), ecall, waits_for(ALARM, 0), mv(A1, A0), exits()), """
        ==
        slot 0 - terminated 24 turns 15 restarts 0
        leds 0000
        end done steps 17 time 29
    """),
    boot("wait-for-an-alarm-that-is-not-armed", "nothing comes, and the report tells for what it waits",
         app(waits_for(ALARM, 0)), """
        ==
        slot 0 - waiting 00000000 0 turns 5 restarts 0
        leds 0000
        end done steps 5 time 5
    """),
    boot("wait-for-one-upcall", "the arguments come in a0 to a2, though no function was subscribed", AWAITS, """
        ==
        slot 0 - terminated 25 turns 16 restarts 0
        leds 0000
        end done steps 18 time 30
    """),
    boot("wait-for-one-upcall-given", "once it came the process is ready", AWAITS, turns=13, text="""
        ==
        slot 0 - awaited turns 11 restarts 0
        leds 0000
        end turns steps 13 time 25
    """),
    boot("wait-for-what-never-comes", "the report tells for what it waits", app(waits_for(CONSOLE, 2)), """
        ==
        slot 0 - waiting 00000001 2 turns 5 restarts 0
        leds 0000
        end done steps 5 time 5
    """),
    boot("wait-for-another-upcall", "an upcall of another driver is queued, and does not wake it",
         app(mv(S0, A0), *hands(SUBSCRIBE, ALARM, 0, "rings"), command(ALARM, 5, 20), waits_for(CONSOLE, 1),
             "rings", exits()), """
        ==
        slot 0 - waiting 00000001 1 turns 18 restarts 0
        leds 0000
        end done steps 20 time 32
    """),
    boot("wait-for-what-is-pending", "the first of that driver and number is taken out, and its function does not run",
         app(mv(S0, A0), *hands(SUBSCRIBE, ALARM, 0, "rings"), command(ALARM, 5, 1), waits_for(ALARM, 0), mv(A1, A0),
             exits(), "rings", li(A1, 99), exits()), """
        ==
        slot 0 - terminated 13 turns 22 restarts 0
        leds 0000
        end done steps 23 time 22
    """),
    boot("wait-for-what-came-without-a-function", "without a function nothing of it is kept, and no other comes",
         app(command(ALARM, 5, 1), waits_for(ALARM, 0)), """
        ==
        slot 0 - waiting 00000000 0 turns 11 restarts 0
        leds 0000
        end done steps 12 time 11
    """),
    boot("wait-for-one-upcall-keeps-the-rest", "the other registers stay",
         app(command(ALARM, 5, 20), li(A3, 7), li(RA, 3), waits_for(ALARM, 0), add(A1, A3, RA), exits()), """
        ==
        slot 0 - terminated 10 turns 18 restarts 0
        leds 0000
        end done steps 20 time 30
    """),
]
