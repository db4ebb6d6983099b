"""The buttons."""

from flash_images import *
from .case import boot, tells, trace
from .swaps import TOP


def told_of(button, exit_code):
    """An application that enables a button, and exits with what the part puts in a1 once its upcall came; it waits
    from time 15 on."""
    return app(mv(S0, A0), *hands(SUBSCRIBE, BUTTON, 0, "edge"), li(A4, 2), li(A0, BUTTON), li(A1, 1), li(A2, button),
               ecall, yields(1), "edge", exit_code, exits())


# Counts edges of button 0, and exits with the count of 300: 17 turns until it waits, 8 for each edge, 9 for the last.
COUNTS_300 = app(mv(S0, A0), li(S1, 0), *hands(SUBSCRIBE, BUTTON, 0, "edge"), command(BUTTON, 1, 0),
                 "waits", yields(1), li(T0, 300), blt(S1, T0, "waits"), mv(A1, S1), exits(),
                 "edge", addi(S1, S1, 1), jalr(ZERO, RA))


def edges(times):
    """A script with one button, which is pressed at the first of these times, released at the next, and so on."""
    lines = ["at %d %s 0" % (time, ("press", "release")[k % 2]) for k, time in enumerate(times)]
    return ("buttons 1\n" + "\n".join(lines)).encode()


BUTTONS = [
    tells("count-of-buttons", "the script says how many there are", 7, command(BUTTON, 0), script=b"buttons 7"),
    tells("no-buttons", "without it there are none", 0, command(BUTTON, 0)),
    tells("no-such-button", "a number beyond the buttons is refused", 6, command(BUTTON, 1, 2), script=b"buttons 2"),
    tells("state-of-no-such-button", "by each command", 6, command(BUTTON, 3, 2), script=b"buttons 2"),
    tells("no-room-for-a-button", "to be told of one needs room for the grant", 9, memop(0, TOP), command(BUTTON, 1, 0),
          script=b"buttons 1"),
    tells("no-such-button-before-no-room", "where there is one of the number", 6, memop(0, TOP), command(BUTTON, 1, 1),
          script=b"buttons 1"),
    tells("button-disabled-that-was-not-enabled", "to be told of one no more makes no grant", 128,
          command(BUTTON, 2, 0), memop(0, TOP), mv(A1, A0), script=b"buttons 1"),
    tells("no-such-command-to-buttons", "a number that the buttons do not know", 10, command(BUTTON, 4),
          script=b"buttons 1"),
    trace("trace-of-no-such-button", "the rule is told",
          app(li(A4, 2), li(A0, BUTTON), li(A1, 1), li(A2, 2), ecall, exits()), script=b"buttons 2", text="""
        @4 0 call 2 00000003 00000001 00000002 80000100 = 00000000 00000006 00000002 80000100 range
        @7 0 call 6 00000000 00000006 00000002 80000100
        ==
        slot 0 - terminated 6 turns 8 restarts 0
        leds 0000
        end done steps 8 time 8
    """),
    boot("button-pressed", "the upcall tells which one", told_of(1, mv(A1, A0)), script=b"buttons 2\nat 30 press 1",
         text="""
        ==
        slot 0 - terminated 1 turns 20 restarts 0
        leds 0000
        end done steps 22 time 35
    """),
    boot("button-released", "and its state; an edge before it is enabled is not told", told_of(1, addi(A1, A1, 0)),
         script=b"buttons 2\nat 10 press 1\nat 30 release 1", text="""
        ==
        slot 0 - terminated 0 turns 20 restarts 0
        leds 0000
        end done steps 23 time 35
    """),
    boot("button-of-another-number", "nor one of a button that is not enabled", told_of(1, mv(A1, A0)),
         script=b"buttons 2\nat 30 press 0", text="""
        ==
        slot 0 - yielded turns 15 restarts 0
        leds 0000
        end done steps 17 time 30
    """),
    boot("button-that-is-pressed-already", "what changes no state is no edge",
         app(command(BUTTON, 1, 0), waits_for(BUTTON, 0), mv(A1, A0), exits()),
         script=b"buttons 1\nat 40 release 0\nat 50 press 0\nat 60 press 0", text="""
        ==
        slot 0 - terminated 0 turns 16 restarts 0
        leds 0000
        end done steps 22 time 60
    """),
    boot("wait-for-a-button", "an edge is waited for without a function",
         app(command(BUTTON, 1, 3), waits_for(BUTTON, 0), mv(A1, A0), exits()), script=b"buttons 4\nat 40 press 3",
         text="""
        ==
        slot 0 - terminated 3 turns 16 restarts 0
        leds 0000
        end done steps 18 time 45
    """),
    boot("button-disabled-again", "a button that was disabled is told of no more",
         app(mv(S0, A0), *hands(SUBSCRIBE, BUTTON, 0, "edge"), command(BUTTON, 1, 0), command(BUTTON, 2, 0), yields(1),
             "edge", exits()), script=b"buttons 1\nat 60 press 0", text="""
        ==
        slot 0 - yielded turns 22 restarts 0
        leds 0000
        end done steps 24 time 60
    """),
    boot("button-over-a-restart", "a restart keeps which buttons are pressed, and forgets which are enabled",
         app(mv(S0, A0), command(BUTTON, 3, 0), bne(A1, ZERO, "again"), command(BUTTON, 1, 0), exits(1),
             "again", *hands(SUBSCRIBE, BUTTON, 0, "edge"), yields(1), "edge", exits()),
         script=b"buttons 1\nat 10 press 0\nat 60 release 0", text="""
        ==
        slot 0 - yielded turns 34 restarts 1
        leds 0000
        end done steps 37 time 60
    """),
    boot("button-for-two", "each process that enabled it is told in the same step", told_of(1, mv(A1, A0)) * 2,
         script=b"buttons 2\nat 60 press 1", text="""
        ==
        slot 0 - terminated 1 turns 20 restarts 0
        slot 1 - terminated 1 turns 20 restarts 0
        leds 0000
        end done steps 42 time 70
    """),
    boot("21-edges", "twenty upcalls wait at most, and one more is dropped",
         app(mv(S0, A0), *hands(SUBSCRIBE, BUTTON, 0, "edge"), command(BUTTON, 1, 0), *counts_down(20), li(A1, 0),
             "edge", exits()), script=edges(range(20, 41)), text="""
        ==
        slot 0 - terminated 0 turns 58 restarts 0 dropped 1
        leds 0000
        end done steps 79 time 58
    """),
    boot("dropped-upcalls-over-a-restart", "how many were dropped is counted over all lives",
         app(mv(S0, A0), command(BUTTON, 3, 0), bne(A1, ZERO, "second"), *hands(SUBSCRIBE, BUTTON, 0, "edge"),
             command(BUTTON, 1, 0), *counts_down(20), exits(1), "second", "edge", li(A1, 0), exits()),
         script=edges(range(20, 41)), text="""
        ==
        slot 0 - terminated 0 turns 76 restarts 1 dropped 1
        leds 0000
        end done steps 97 time 76
    """),
    boot("300-edges-for-16", "sixteen processes are told of each of 300 edges, once",
         COUNTS_300 * 16, script=edges(range(1000, 61000, 200)), turns=100000, text="""
        ==
        %sleds 0000
        end done steps 39288 time 60944
    """ % "".join("slot %d - terminated 300 turns 2418 restarts 0\n        " % slot for slot in range(16))),
]
