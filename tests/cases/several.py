"""Several applications: slices, places in memory, faults and policies."""

from flash_images import *
from .case import boot
from .programs import CODE_7, EXIT_7, fixed_at

# The first process keeps a word that it exits with; the second strays to where that word is. The store is the
# 123rd turn of the second, so in its second slice of 100, and the first looks at its word in its third.
KEEPS_ITS_WORD = app(li(A2, 1445), sw(A2, A1), *counts_down(100), lw(A1, A1), exits())
STRAYS_TO_THE_FIRST = app(*counts_down(60), li(T1, RAM), sw(ZERO, T1))

FOREVER = app("again", jal(ZERO, "again"))

SEVERAL = [
    boot("two-applications", "each runs to its end", EXIT_7 * 2, """
        ==
        slot 0 - terminated 7 turns 4 restarts 0
        slot 1 - terminated 7 turns 4 restarts 0
        leds 0000
        end done steps 8 time 8
    """),
    boot("slice-of-100-turns", "a process that goes on gives way to the next after 100 turns", FOREVER * 2,
         turns=250, text="""
        ==
        slot 0 - running turns 150 restarts 0
        slot 1 - running turns 100 restarts 0
        leds 0000
        end turns steps 250 time 250
    """),
    boot("store-into-the-block-before", "a store between two slices of the block's owner changes nothing",
         KEEPS_ITS_WORD + STRAYS_TO_THE_FIRST, """
        ==
        slot 0 - terminated 1445 turns 207 restarts 0
        slot 1 - faulted store 80000000 no-region turns 123 restarts 0
        leds 0000
        end done steps 330 time 330
    """),
    boot("slices-of-one-turn", "in turns of one instruction neither strays into the other's block",
         KEEPS_ITS_WORD + STRAYS_TO_THE_FIRST, script=b"slice 1", text="""
        ==
        slot 0 - terminated 1445 turns 207 restarts 0
        slot 1 - faulted store 80000000 no-region turns 123 restarts 0
        leds 0000
        end done steps 330 time 330
    """),
    boot("store-into-the-block-of-the-turn-before", "in the second turn the registers are those of the second process",
         app("here", jal(ZERO, "here"), size=40) + app(sw(ZERO, A1, -1024)), script=b"slice 1", turns=2, text="""
        ==
        slot 0 - running turns 1 restarts 0
        slot 1 - faulted store 80000000 no-region turns 1 restarts 0
        leds 0000
        end turns steps 2 time 2
    """),
    boot("store-into-the-next-block", "no process stores into the next one's block",
         app(sw(ZERO, A1, 0x400)) + EXIT_7, """
        ==
        slot 0 - faulted store 80000400 no-region turns 1 restarts 0
        slot 1 - terminated 7 turns 4 restarts 0
        leds 0000
        end done steps 5 time 5
    """),
    boot("jump-into-the-next-object", "no process executes the next one's code",
         app(jalr(ZERO, A0, 64)) + EXIT_7, """
        ==
        slot 0 - faulted fetch 20000060 no-region turns 2 restarts 0
        slot 1 - terminated 7 turns 4 restarts 0
        leds 0000
        end done steps 6 time 6
    """),
    boot("restarts-beside-another", "one that starts again forever leaves the other its turns",
         app(exits(1)) + EXIT_7, """
        ==
        slot 0 - running turns 996 restarts 332
        slot 1 - terminated 7 turns 4 restarts 0
        leds 0000
        end turns steps 1000 time 1000
    """),
    boot("class-9-beside-another", "an unknown class stops its process alone",
         app(li(A4, 9), ecall) + EXIT_7, """
        ==
        slot 0 - faulted fetch 20000024 unknown-class turns 2 restarts 0
        slot 1 - terminated 7 turns 4 restarts 0
        leds 0000
        end done steps 6 time 6
    """),
    boot("nine-applications", "nine applications have each a slot", EXIT_7 * 9, """
        ==
        slot 0 - terminated 7 turns 4 restarts 0
        slot 1 - terminated 7 turns 4 restarts 0
        slot 2 - terminated 7 turns 4 restarts 0
        slot 3 - terminated 7 turns 4 restarts 0
        slot 4 - terminated 7 turns 4 restarts 0
        slot 5 - terminated 7 turns 4 restarts 0
        slot 6 - terminated 7 turns 4 restarts 0
        slot 7 - terminated 7 turns 4 restarts 0
        slot 8 - terminated 7 turns 4 restarts 0
        leds 0000
        end done steps 36 time 36
    """),
    boot("seventeen-applications", "there are sixteen slots", EXIT_7 * 17, """
        ==
        slot 0 - terminated 7 turns 4 restarts 0
        slot 1 - terminated 7 turns 4 restarts 0
        slot 2 - terminated 7 turns 4 restarts 0
        slot 3 - terminated 7 turns 4 restarts 0
        slot 4 - terminated 7 turns 4 restarts 0
        slot 5 - terminated 7 turns 4 restarts 0
        slot 6 - terminated 7 turns 4 restarts 0
        slot 7 - terminated 7 turns 4 restarts 0
        slot 8 - terminated 7 turns 4 restarts 0
        slot 9 - terminated 7 turns 4 restarts 0
        slot 10 - terminated 7 turns 4 restarts 0
        slot 11 - terminated 7 turns 4 restarts 0
        slot 12 - terminated 7 turns 4 restarts 0
        slot 13 - terminated 7 turns 4 restarts 0
        slot 14 - terminated 7 turns 4 restarts 0
        slot 15 - terminated 7 turns 4 restarts 0
        unplaced 1024 no-slot
        leds 0000
        end done steps 64 time 64
    """),
    boot("last-of-sixteen-differs", "what the last of sixteen does, the others do not see",
         EXIT_7 * 15 + app(li(A4, 6), li(A0, 0), li(A1, 8), ecall, size=64), """
        ==
        slot 0 - terminated 7 turns 4 restarts 0
        slot 1 - terminated 7 turns 4 restarts 0
        slot 2 - terminated 7 turns 4 restarts 0
        slot 3 - terminated 7 turns 4 restarts 0
        slot 4 - terminated 7 turns 4 restarts 0
        slot 5 - terminated 7 turns 4 restarts 0
        slot 6 - terminated 7 turns 4 restarts 0
        slot 7 - terminated 7 turns 4 restarts 0
        slot 8 - terminated 7 turns 4 restarts 0
        slot 9 - terminated 7 turns 4 restarts 0
        slot 10 - terminated 7 turns 4 restarts 0
        slot 11 - terminated 7 turns 4 restarts 0
        slot 12 - terminated 7 turns 4 restarts 0
        slot 13 - terminated 7 turns 4 restarts 0
        slot 14 - terminated 7 turns 4 restarts 0
        slot 15 - terminated 8 turns 4 restarts 0
        leds 0000
        end done steps 64 time 64
    """),
    boot("five-applications-in-4096-bytes", "four blocks of 1024 bytes fill the least RAM", EXIT_7 * 5,
         script=b"ram 4096\n", text="""
        ==
        slot 0 - terminated 7 turns 4 restarts 0
        slot 1 - terminated 7 turns 4 restarts 0
        slot 2 - terminated 7 turns 4 restarts 0
        slot 3 - terminated 7 turns 4 restarts 0
        unplaced 256 no-room
        leds 0000
        end done steps 16 time 16
    """),
    boot("fixed-ram-start-that-is-no-multiple-of-8", "a block begins at a multiple of 8",
         fixed_at(RAM + 0x404, FLASH), """
        ==
        unplaced 0 fixed-taken
        leds 0000
        end done steps 0 time 0
    """),
    boot("fixed-ram-start-below-ram", "RAM has no place for a block that begins below it", fixed_at(RAM - 8, FLASH), """
        ==
        unplaced 0 fixed-taken
        leds 0000
        end done steps 0 time 0
    """),
    boot("fixed-ram-start-below-the-last-end", "blocks do not overlap, and the next application is placed",
         EXIT_7 * 2 + fixed_at(RAM + 0x400, FLASH + 128) + EXIT_7, """
        ==
        slot 0 - terminated 7 turns 4 restarts 0
        slot 1 - terminated 7 turns 4 restarts 0
        slot 2 - terminated 7 turns 4 restarts 0
        unplaced 128 fixed-taken
        leds 0000
        end done steps 12 time 12
    """),
    boot("ram-that-is-too-much", "one that asks for more than there is has no room",
         app(CODE_7, minimum_ram=0xFFFFFFFF, size=64), """
        ==
        unplaced 0 no-room
        leds 0000
        end done steps 0 time 0
    """),
]
