"""The source of random bytes."""

from flash_images import *
from .case import boot
from .programs import draws

RANDOMS = [
    boot("random-%s" % name, shows, draws(6, 8, exit_code), script=b"random 11223344", text="""
        ==
        slot 0 - terminated %d turns 31 restarts 0
        leds 0000
        end done steps 33 time 31
    """ % code) for name, shows, exit_code, code in [
        ("status", "where no word is left for a request it is told so", mv(A1, A0), 1),
        ("bytes", "with the count of bytes that it got", addi(A1, A1, 0), 4),
        ("word", "a word's lowest byte comes first", lw(A1, S1), 0x11223344),
        ("rest", "and nothing else is written", lw(A1, S1, 4), 0)]
] + [
    boot(name, shows,
         app(mv(S0, A0), li(S1, count), li(S2, RANDOM), li(A4, 1), mv(A0, S2), li(A1, 0), mv(A2, S0), li(A3, 0), ecall,
             li(A4, 2), "again", mv(A0, S2), li(A1, 1), li(A2, 0), ecall, addi(S1, S1, -1), bne(S1, ZERO, "again"),
             li(A4, 6), li(A0, 0), li(A1, 0), ecall), """
        ==
        slot 0 - terminated 0 turns %d restarts 0%s
        leds 0000
        end done steps %d time %d
    """ % (15 + 6 * count, dropped, 15 + 7 * count, 15 + 6 * count))
    for name, shows, count, dropped in [
        ("eleven-upcalls", "eleven upcalls may be pending", 11, ""),
        ("twenty-upcalls", "so may twenty", 20, ""),
        ("twenty-one-upcalls", "and one more is dropped", 21, " dropped 1")]
]
