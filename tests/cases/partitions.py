"""Time partitions."""

from flash_images import *
from .case import boot, tells, trace
from .programs import BREAKPOINT, CODE_7, draws, ECHO, EXIT_7, fixed_at, NAPS, prints, reads, rings_after, SPINS
from .programs import storage_reads, TELLS_ITS_START

PARTITIONS = [
    boot("windows-of-four-ticks", "each process ends in its first window", EXIT_7 * 2, script=b"partition 4", text="""
        ==
        slot 0 - terminated 7 turns 4 restarts 0
        slot 1 - terminated 7 turns 4 restarts 0
        leds 0000
        end done steps 8 time 8
    """),
    boot("windows-of-three-ticks", "what is left waits for the slot's next window, 48 ticks later", EXIT_7 * 2,
         script=b"partition 3", text="""
        ==
        slot 0 - terminated 7 turns 4 restarts 0
        slot 1 - terminated 7 turns 4 restarts 0
        leds 0000
        end done steps 23 time 52
    """),
    boot("windows-and-a-slice", "a slice decides nothing there", EXIT_7 * 2, script=b"slice 1\npartition 3", text="""
        ==
        slot 0 - terminated 7 turns 4 restarts 0
        slot 1 - terminated 7 turns 4 restarts 0
        leds 0000
        end done steps 23 time 52
    """),
    boot("windows-beside-one-that-goes-on", "a process that never ends takes nothing of the window of another",
         SPINS + EXIT_7, script=b"partition 4", turns=8, text="""
        ==
        slot 0 spins running turns 4 restarts 0
        slot 1 - terminated 7 turns 4 restarts 0
        leds 0000
        end turns steps 8 time 8
    """),
    boot("windows-beside-one-that-starts-again", "nor does one that faults and starts again, in its own window alone",
         BREAKPOINT + EXIT_7, script=b"partition 4\npolicy restart", turns=20, text="""
        ==
        slot 0 - running turns 4 restarts 4
        slot 1 - terminated 7 turns 4 restarts 0
        leds 0000
        end turns steps 20 time 56
    """),
    boot("windows-beside-one-that-waits", "time passes in the window of one that waits for good, and then it is over",
         NAPS + EXIT_7, script=b"partition 10", text="""
        ==
        slot 0 naps yielded turns 3 restarts 0
        slot 1 - terminated 7 turns 4 restarts 0
        leds 0000
        end done steps 8 time 14
    """),
    boot("sixteen-windows", "each of sixteen slots has a window and a share of RAM, of 1024 bytes here", EXIT_7 * 17,
         script=b"ram 16384\npartition 4", text="""
        ==
        %sunplaced 1024 no-slot
        leds 0000
        end done steps 64 time 64
    """ % "".join("slot %d - terminated 7 turns 4 restarts 0\n        " % slot for slot in range(16))),
    boot("shares-of-ram", "each block starts where the share of its slot does, a sixteenth of RAM", TELLS_ITS_START * 2,
         script=b"partition 6", text="""
        ==
        slot 0 - terminated %d turns 6 restarts 0
        slot 1 - terminated %d turns 6 restarts 0
        leds 0000
        end done steps 12 time 12
    """ % (RAM, RAM + 4096)),
    boot("shares-that-are-rounded-down", "a share is a multiple of 1024 bytes", TELLS_ITS_START * 2,
         script=b"ram 17408\npartition 6", text="""
        ==
        slot 0 - terminated %d turns 6 restarts 0
        slot 1 - terminated %d turns 6 restarts 0
        leds 0000
        end done steps 12 time 12
    """ % (RAM, RAM + 1024)),
    boot("shares-of-nothing", "where a sixteenth is less nobody has a place", EXIT_7 * 2,
         script=b"ram 4096\npartition 4", text="""
        ==
        unplaced 0 no-room
        unplaced 64 no-room
        leds 0000
        end done steps 0 time 0
    """),
    boot("fixed-ram-start-of-no-bytes", "nor one that is linked for another RAM start", fixed_at(RAM + 1024, FLASH),
         script=b"ram 15360\npartition 4", text="""
        ==
        unplaced 0 fixed-taken
        leds 0000
        end done steps 0 time 0
    """),
    boot("block-longer-than-a-share", "a block of 5120 bytes has no room in a share of 4096, and one of 4096 has",
         app(CODE_7, minimum_ram=3332) + app(CODE_7, minimum_ram=3328), script=b"partition 4", text="""
        ==
        slot 0 - terminated 7 turns 4 restarts 0
        unplaced 0 no-room
        leds 0000
        end done steps 4 time 4
    """),
    boot("fixed-ram-start-of-the-share", "an application may be linked for the start of its share",
         EXIT_7 + fixed_at(RAM + 4096, FLASH + 64), script=b"partition 4", text="""
        ==
        slot 0 - terminated 7 turns 4 restarts 0
        slot 1 - terminated 7 turns 4 restarts 0
        leds 0000
        end done steps 8 time 8
    """),
    boot("fixed-ram-start-of-no-share", "and for no other address, though nobody has it",
         EXIT_7 + fixed_at(RAM + 1024, FLASH + 64), script=b"partition 4", text="""
        ==
        slot 0 - terminated 7 turns 4 restarts 0
        unplaced 64 fixed-taken
        leds 0000
        end done steps 4 time 4
    """),
    trace("input-for-two", "what comes in comes in for each, at its time; each reads it in its own window", ECHO * 2,
          script=b"partition 100\nat 50 input 6869", text="""
        @7 0 call 3 00000001 00000001 80000000 00000010 = 00000082 00000000 00000000 00000010
        @13 0 call 4 00000001 00000001 80000000 00000010 = 00000082 00000000 00000000 00000010
        @19 0 call 1 00000001 00000002 200000b0 00000000 = 00000082 00000000 00000000 00000000
        @25 0 call 1 00000001 00000001 200000cc 00000000 = 00000082 00000000 00000000 00000000
        @31 0 call 2 00000001 00000002 00000010 00000000 = 00000080 00000002 00000010 00000000
        @34 0 call 0 00000001 00000002 00000010 00000000
        @56 0 call 2 00000001 00000001 00000002 00000000 = 00000080 00000001 00000002 00000000
        @57 0 out 6869
        @61 0 call 0 00000001 00000001 00000002 00000000
        @68 0 call 2 00000001 00000002 00000010 00000000 = 00000080 00000002 00000010 00000000
        @73 0 call 0 00000001 00000002 00000010 00000000
        @107 1 call 3 00000001 00000001 80001000 00000010 = 00000082 00000000 00000000 00000010
        @113 1 call 4 00000001 00000001 80001000 00000010 = 00000082 00000000 00000000 00000010
        @119 1 call 1 00000001 00000002 20000198 00000000 = 00000082 00000000 00000000 00000000
        @125 1 call 1 00000001 00000001 200001b4 00000000 = 00000082 00000000 00000000 00000000
        @131 1 call 2 00000001 00000002 00000010 00000000 = 00000080 00000002 00000010 00000000
        @134 1 call 0 00000001 00000002 00000010 00000000
        @141 1 call 2 00000001 00000001 00000002 00000000 = 00000080 00000001 00000002 00000000
        @142 1 out 6869
        @146 1 call 0 00000001 00000001 00000002 00000000
        @153 1 call 2 00000001 00000002 00000010 00000000 = 00000080 00000002 00000010 00000000
        @158 1 call 0 00000001 00000002 00000010 00000000
        ==
        slot 0 - yielded turns 59 restarts 0
        slot 1 - yielded turns 59 restarts 0
        leds 0000
        end done steps 127 time 159
    """),
    boot("input-in-the-window-of-another", "one that waits is told of it in its next window",
         reads(4, 8, lhu(A1, S1)) + EXIT_7, script=b"partition 30\nat 50 input 6869", text="""
        ==
        slot 0 - terminated 26984 turns 28 restarts 0
        slot 1 - terminated 7 turns 4 restarts 0
        leds 0000
        end done steps 51 time 485
    """),
    boot("random-words-for-two", "each draws the first word", draws(4, 8, lw(A1, S1)) * 2,
         script=b"partition 40\nrandom 11223344 55667788", text="""
        ==
        slot 0 - terminated %d turns 31 restarts 0
        slot 1 - terminated %d turns 31 restarts 0
        leds 0000
        end done steps 65 time 71
    """ % (0x11223344, 0x11223344)),
    boot("random-words-that-are-shared", "of which there is one without partitions", draws(4, 8, lw(A1, S1)) * 2,
         script=b"random 11223344 55667788", text="""
        ==
        slot 0 - terminated %d turns 31 restarts 0
        slot 1 - terminated %d turns 31 restarts 0
        leds 0000
        end done steps 64 time 62
    """ % (0x11223344, 0x55667788)),
    boot("storage-faults-of-two", "the first request of each slot fails", storage_reads([(0, 4)], nop) * 2,
         script=b"partition 40\nstorage 16\nstorage-fault 1", text="""
        ==
        slot 0 - terminated 1 turns 34 restarts 0
        slot 1 - terminated 1 turns 34 restarts 0
        leds 0000
        end done steps 71 time 74
    """),
    boot("storage-faults-of-the-board", "and without partitions the first of all", storage_reads([(0, 4)], nop) * 2,
         script=b"storage 16\nstorage-fault 1", text="""
        ==
        slot 0 - terminated 1 turns 34 restarts 0
        slot 1 - terminated 0 turns 34 restarts 0
        leds 0000
        end done steps 70 time 68
    """),
    trace("uart-that-is-busy-for-another", "it is free for who did not use it", prints(b"p" * 8) + prints(b"pong"),
          script=b"partition 50\nuart 1000", text="""
        @6 0 call 1 00000001 00000001 20000078 00000000 = 00000082 00000000 00000000 00000000
        @12 0 call 4 00000001 00000001 20000088 00000008 = 00000082 00000000 00000000 00000008
        @18 0 call 2 00000001 00000001 00000008 00000000 = 00000080 00000001 00000008 00000000
        @19 0 out 7070707070707070
        @21 0 call 0 00000001 00000001 00000008 00000000
        @56 1 call 1 00000001 00000001 20000108 00000000 = 00000082 00000000 00000000 00000000
        @62 1 call 4 00000001 00000001 20000118 00000004 = 00000082 00000000 00000000 00000004
        @68 1 call 2 00000001 00000001 00000004 00000000 = 00000080 00000001 00000004 00000000
        @69 1 out 706f6e67
        @71 1 call 0 00000001 00000001 00000004 00000000
        @4073 1 call 6 00000000 00000004 00000000 00000000
        @8023 0 call 6 00000000 00000008 00000000 00000000
        ==
        slot 0 - terminated 8 turns 27 restarts 0
        slot 1 - terminated 4 turns 27 restarts 0
        leds 0000
        end done steps 220 time 8024
    """),
    # It is due at 45, and fires at 480, where the next window of its slot begins. Time passes once from 33 to 60.
    boot("alarm-in-the-window-of-another", "it fires in the next window of its slot, and ends no wait of another",
         rings_after(34) + NAPS, script=b"partition 30", text="""
        ==
        slot 0 - terminated 480 turns 20 restarts 0
        slot 1 naps yielded turns 3 restarts 0
        leds 0000
        end done steps 40 time 485
    """),
    boot("alarm-in-the-own-window", "and at its tick where that lies in a window of its slot", rings_after(10) + EXIT_7,
         script=b"partition 30", text="""
        ==
        slot 0 - terminated 21 turns 20 restarts 0
        slot 1 - terminated 7 turns 4 restarts 0
        leds 0000
        end done steps 27 time 34
    """),
    tells("buttons-before-partition", "buttons may be said before it, and nobody presses them", 2, command(BUTTON, 0),
          script=b"buttons 2\npartition 9"),
]
