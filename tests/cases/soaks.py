"""Generated applications."""

from .case import soak

# The eight applications do the same until they spin, each in slices of 16 turns: number 0 gives `slice 16`.
SOAKS = [
    soak("soak-of-no-turn", "nothing was printed before the first turn", "0", 0, """
        printed 0 sum 0
        ==
        slot 0 - running turns 0 restarts 0
        slot 1 - running turns 0 restarts 0
        slot 2 - running turns 0 restarts 0
        slot 3 - running turns 0 restarts 0
        slot 4 - running turns 0 restarts 0
        slot 5 - running turns 0 restarts 0
        slot 6 - running turns 0 restarts 0
        slot 7 - running turns 0 restarts 0
        leds 0000
        end turns steps 0 time 0
    """),
    soak("soak-of-a-hundred-turns", "six slices of 16, and 4 turns of the seventh", "0", 100, """
        printed 0 sum 0
        ==
        slot 0 - running turns 16 restarts 0
        slot 1 - running turns 16 restarts 0
        slot 2 - running turns 16 restarts 0
        slot 3 - running turns 16 restarts 0
        slot 4 - running turns 16 restarts 0
        slot 5 - running turns 16 restarts 0
        slot 6 - running turns 4 restarts 0
        slot 7 - running turns 0 restarts 0
        leds 0000
        end turns steps 100 time 100
    """),
    soak("soak-of-the-first-message", "in its second slice the first one asks for its write, of eight bytes",
         "0", 133, """
        printed 8 sum 409
        ==
        slot 0 - running turns 20 restarts 0
        slot 1 - running turns 16 restarts 0
        slot 2 - running turns 16 restarts 0
        slot 3 - running turns 16 restarts 0
        slot 4 - running turns 16 restarts 0
        slot 5 - running turns 16 restarts 0
        slot 6 - running turns 16 restarts 0
        slot 7 - running turns 16 restarts 0
        leds 0000
        end turns steps 133 time 132
    """),
    soak("soak-of-the-greatest-number", "the number has at most 32 bits", "4294967295", 1, """
        printed 0 sum 0
        ==
        slot 0 - running turns 1 restarts 0
        slot 1 - running turns 0 restarts 0
        slot 2 - running turns 0 restarts 0
        slot 3 - running turns 0 restarts 0
        slot 4 - running turns 0 restarts 0
        slot 5 - running turns 0 restarts 0
        slot 6 - running turns 0 restarts 0
        slot 7 - running turns 0 restarts 0
        leds 0000
        end turns steps 1 time 1
    """),
]
