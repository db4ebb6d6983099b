"""The console: what goes out, and what comes in."""

from flash_images import *
from .case import boot, tells
from .programs import CHANGES_ITS_BUFFER, ECHO, PRINTS, prints, reads

# The same, beside an application that goes on forever; the text is what is printed meanwhile.
GOES_ON = boot("output-as-it-comes", "output comes while a run goes on", PRINTS + app("again", jal(ZERO, "again")), """
    hello, world
""", turns=1_000_000_000)

# Asks for 4 bytes into a buffer of 8, and exits with the first two.
READS_4 = app(mv(S0, A0), mv(S1, A1), lends(READ_WRITE, CONSOLE, 1, 8), *hands(SUBSCRIBE, CONSOLE, 2, "came"),
              li(A4, 2), li(A0, CONSOLE), li(A1, 2), li(A2, 4), ecall, yields(1), "came", lhu(A1, S1), exits())

CONSOLES = [
    boot("write-of-70-bytes", "the UART takes 64 bytes at most, and a byte takes a tick", prints(b"p" * 70), """
        %s==
        slot 0 - terminated 70 turns 27 restarts 0
        leds 0000
        end done steps 32 time 94
    """ % ("p" * 70)),
    boot("write-of-a-line", "an application prints", PRINTS, """
        hello, world
        ==
        slot 0 - terminated 13 turns 27 restarts 0
        leds 0000
        end done steps 30 time 37
    """),
    boot("write-from-another-buffer", "each step takes bytes of the buffer that is held then, and no more than it has",
         CHANGES_ITS_BUFFER, """
        %s==
        slot 0 - terminated 70 turns 32 restarts 0
        leds 0000
        end done steps 37 time 87
    """ % ("a" * 64 + "b" * 6)),
    boot("two-writers", "writes are taken in the order in which they were asked for",
         prints(b"p" * 70) + prints(b"pong"), """
        %spong==
        slot 0 - terminated 70 turns 27 restarts 0
        slot 1 - terminated 4 turns 27 restarts 0
        leds 0000
        end done steps 61 time 99
    """ % ("p" * 70)),
    boot("echo", "what comes in is printed back", ECHO, script=b"at 50 input 6869", text="""
        hi==
        slot 0 - yielded turns 59 restarts 0
        leds 0000
        end done steps 64 time 74
    """),
    boot("input-for-a-read", "a read gets the bytes that came in", reads(4, 8, lhu(A1, S1)), script=b"at 50 input 6869",
         text="""
        ==
        slot 0 - terminated 26984 turns 28 restarts 0
        leds 0000
        end done steps 31 time 55
    """),
    boot("input-for-a-read-of-four", "a read of 4 bytes is done by the 2 that came in", READS_4,
         script=b"at 50 input 6869", text="""
        ==
        slot 0 - terminated 26984 turns 27 restarts 0
        leds 0000
        end done steps 30 time 55
    """),
    boot("read-without-a-buffer", "a read whose buffer has no bytes is told the status of a size",
         reads(4, 0, mv(A1, A0)), script=b"at 50 input 41", text="""
        ==
        slot 0 - terminated 7 turns 28 restarts 0
        leds 0000
        end done steps 31 time 55
    """),
    boot("lost-input", "of 300 bytes that come in at once the newest 256 are kept", reads(1, 8, lbu(A1, S1)),
         script=b"".join(b"at 5 input %s\n" % bytes(i % 256 for i in range(at, min(at + 64, 300))).hex().encode()
                         for at in range(0, 300, 64)), text="""
        ==
        slot 0 - terminated 44 turns 28 restarts 0
        leds 0000
        end done steps 34 time 28
    """),
    boot("read-that-is-dropped", "a read that is dropped is told so",
         app(mv(S0, A0), *hands(SUBSCRIBE, CONSOLE, 2, "came"), command(CONSOLE, 2, 4), command(CONSOLE, 3), yields(1),
             "came", mv(A1, A0), exits()), """
        ==
        slot 0 - terminated 8 turns 27 restarts 0
        leds 0000
        end done steps 27 time 27
    """),
    boot("restart-with-a-read-waiting", "a process that starts again waits for no bytes, and has none that came in",
         app(mv(S0, A1), li(A4, 2), li(A0, ALARM), li(A1, 2), ecall, li(T0, 12), bltu(T0, A1, "later"),
             li(A4, READ_WRITE), li(A0, CONSOLE), li(A1, 1), mv(A2, S0), li(A3, 4), ecall,
             li(A4, 2), li(A0, CONSOLE), li(A1, 2), li(A2, 4), ecall, li(A4, 6), li(A0, 1), ecall,
             "later", lbu(A1, S0), exits()), script=b"at 24 input 41", text="""
        ==
        slot 0 - terminated 0 turns 32 restarts 1
        leds 0000
        end done steps 33 time 32
    """),
    boot("input-for-nobody", "bytes come in where nobody reads", b"", script=b"at 5 input 41", text="""
        ==
        leds 0000
        end done steps 2 time 5
    """),
    tells("second-read", "a process has one read at a time", 2, command(CONSOLE, 2, 4), command(CONSOLE, 2, 4)),
]
