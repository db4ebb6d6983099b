"""Small applications that more than one subject runs, instruction by instruction."""

from flash_images import *


def fixed_at(ram, object):
    """An application that exits with 7, linked for a RAM start and for an object at an address of flash; its
    header has 44 bytes."""
    return app(CODE_7, elements=[fixed_addresses_tlv(ram, object + 44)])


# The class 6 is exit; variant 0 ends the process with the code in a1.
CODE_7 = li(A4, 6) + li(A0, 0) + li(A1, 7) + ecall
EXIT_7 = app(CODE_7, size=64)
RUN_OF_EXIT_7 = """
    ==
    slot 0 - terminated 7 turns 4 restarts 0
    leds 0000
    end done steps 4 time 4
"""


def rings_after(ticks):
    """An application that arms the alarm at time 11 for so many ticks later, waits from time 14 on, and exits with the
    first argument of the upcall."""
    return app(mv(S0, A0), li(A4, SUBSCRIBE), li(A0, ALARM), li(A1, 0), addi(A2, S0, offset("rings")), li(A3, 0), ecall,
               li(A4, 2), li(A0, ALARM), li(A1, 5), li(A2, ticks), ecall, yields(1), "rings", mv(A1, A0), exits())


WRAPS = rings_after(20)


def prints(text):
    """An application that prints a text and exits with the count of bytes that the UART took."""
    return app(mv(S0, A0), *hands(SUBSCRIBE, CONSOLE, 1, "told"), *hands(READ_ONLY, CONSOLE, 1, "text", len(text)),
               command(CONSOLE, 1, len(text)), yields(1), "told", mv(A1, A0), exits(), "text", text)


# Prints a line, and exits with the count of its bytes.
PRINTS = prints(b"hello, world\n")

# Prints back what comes in, up to 16 bytes at a time. It waits from time 35 on.
ECHO = app(mv(S0, A0), mv(S1, A1), lends(READ_WRITE, CONSOLE, 1, 16), lends(READ_ONLY, CONSOLE, 1, 16),
           *hands(SUBSCRIBE, CONSOLE, 2, "came"), *hands(SUBSCRIBE, CONSOLE, 1, "sent"), command(CONSOLE, 2, 16),
           "waits", yields(1), jal(ZERO, "waits"),
           "came", mv(A2, A1), li(A4, 2), li(A0, CONSOLE), li(A1, 1), li(A3, 0), ecall, jalr(ZERO, RA),
           "sent", command(CONSOLE, 2, 16), jalr(ZERO, RA))


def reads(count, size, exit_code):
    """An application that asks for so many bytes into a buffer of a size, and exits with what the part puts in a1
    once the upcall came; it waits from time 22 on."""
    return app(mv(S0, A0), mv(S1, A1), *hands(SUBSCRIBE, CONSOLE, 2, "came"), lends(READ_WRITE, CONSOLE, 1, size),
               command(CONSOLE, 2, count), yields(1), "came", exit_code, exits())


# Asks for a write of 100 bytes of one buffer at time 11, and hands another of 70.
CHANGES_ITS_BUFFER = app(mv(S0, A0), *hands(READ_ONLY, CONSOLE, 1, "first", 100),
                         li(A4, 2), li(A0, CONSOLE), li(A1, 1), li(A2, 100), ecall,
                         *hands(READ_ONLY, CONSOLE, 1, "second", 70), *hands(SUBSCRIBE, CONSOLE, 1, "told"), yields(1),
                         "told", mv(A1, A0), exits(), "first", b"a" * 100, "second", b"b" * 70)


def draws(count, size, exit_code):
    """An application that asks for random bytes into a buffer of a size."""
    return app(mv(S0, A0), mv(S1, A1), lends(READ_WRITE, RANDOM, 0, size), *hands(SUBSCRIBE, RANDOM, 0, "told"),
               command(RANDOM, 1, count), yields(1), "told", exit_code, exits())


def storage_reads(places, exit_code):
    """An application that makes a read for each (offset, length), one after another, into a buffer of 8 bytes whose
    first is 0x55, and exits with what the part puts in a1."""
    each = [command(STORAGE, 2, *place) + yields(1) for place in places]
    return app(mv(S0, A0), mv(S1, A1), li(T0, 0x55), sb(T0, S1), lends(READ_WRITE, STORAGE, 0, 8),
               *hands(SUBSCRIBE, STORAGE, 0, "told"), *each, exit_code, exits(), "told", jalr(ZERO, RA))


# `ebreak`
BREAKPOINT = app(word(0x00100073))

# Three applications with names, and padding before the third.
THREE = (app(CODE_7, name="hello") + app(sw(ZERO, A1), sw(ZERO, A1, 256), name="stray") + padding()
         + app(memop(3), exits(), name="memop"))

# An application with Main, Program and a name; its binary ends at 84, and 12 bytes of footers follow.
FOOTERS = bytes(range(12))


def blink(footers, name="blink", flags=ENABLED):
    header = [main_tlv(), program_tlv(binary_end=84), package_name_tlv(name)]
    return tbf(header, CODE_7 + footers, flags) + padding()


BLINK = blink(FOOTERS)
BAD_CHECKSUM = patched(EXIT_7, 12, b"\x43")

# One that never ends, one that waits for any upcall, and one that faults at its second store.
SPINS = app("here", jal(ZERO, "here"), name="spins")
NAPS = app(yields(1), name="naps")
FAULTS = app(sw(ZERO, A1), sw(ZERO, A1, 256), name="stray")
# Exits with 3 once its alarm fired, for which it waits alone from time 15 on.
WAKES = app(command(ALARM, 5, 40), waits_for(ALARM, 0), li(A1, 3), exits(), name="wakes")

# Exits with where its RAM starts.
TELLS_ITS_START = app(memop(2), exits())
