"""Subscribe and the allows: what a process hands to drivers, and which grants that makes."""

from flash_images import *
from .case import boot, tells

# What a process hands to drivers. The object starts at FLASH, so its code at FLASH + 32; its block of 1024 bytes
# starts at RAM, and its break is RAM + 256. After a swap a0 is 130, and a1 and a2 the former pair; after its
# refusal a0 is 2, a1 the error's code, and a2 and a3 the passed pair.
CODE, BREAK, TOP = FLASH + 32, RAM + 256, RAM + 1024
# Three subscribes, of seven, seven and six turns.
FIRST = swap(SUBSCRIBE, ALARM, 0, CODE, 1)
SECOND = swap(SUBSCRIBE, ALARM, 0, CODE + 4, 2)
NULL = swap(SUBSCRIBE, ALARM, 0, 0, 3)

SWAPS = [
    tells("first-subscribe", "nothing was subscribed before", 0, FIRST),
    tells("first-subscribe-data", "nor any data", 0, FIRST, mv(A1, A2)),
    tells("second-subscribe", "the former function comes back", CODE, FIRST, SECOND),
    tells("second-subscribe-data", "and the former data", 1, FIRST, SECOND, mv(A1, A2)),
    tells("null-subscribe", "a null upcall is subscribed as any other", CODE + 4, FIRST, SECOND, NULL),
    tells("after-a-null-subscribe", "and comes back with its data", 3, NULL, FIRST, mv(A1, A2)),
    tells("function-that-is-odd", "the last bit of a function counts for nothing", 130,
          swap(SUBSCRIBE, ALARM, 0, CODE + 44 - 4 + 1, 0), mv(A1, A0)),
    tells("function-in-ram", "a function may lie in RAM, with four bytes below the break", 130,
          swap(SUBSCRIBE, ALARM, 0, BREAK - 4, 0), mv(A1, A0)),
    tells("function-past-the-break", "which this one has not", 6, swap(SUBSCRIBE, ALARM, 0, BREAK - 2, 0)),
    tells("subscribe-of-no-driver", "a number without a driver", 11, swap(SUBSCRIBE, NO_DRIVER, 0, CODE, 0)),
    tells("subscribe-of-no-number", "the alarm has one upcall", 10, swap(SUBSCRIBE, ALARM, 1, CODE, 0)),
    tells("allow-of-no-number", "the alarm takes no read-write buffer", 10, swap(READ_WRITE, ALARM, 0, 0, 0)),
    tells("no-number-before-outside", "of two rules the first counts", 10, swap(READ_WRITE, CONSOLE, 2, FLASH, 4)),
    tells("refused-pair", "a refusal gives the passed pair", 99,
          swap(READ_WRITE, CONSOLE, 1, FLASH, 99), mv(A1, A3)),
    tells("buffer-to-the-break", "a buffer may end at the break", 130,
          swap(READ_WRITE, CONSOLE, 1, BREAK - 16, 16), mv(A1, A0)),
    tells("buffer-past-the-break", "and not a byte after it", 6, swap(READ_WRITE, CONSOLE, 1, BREAK - 16, 17)),
    tells("buffer-of-any-length", "a buffer's length may not pass the block", 6,
          swap(READ_WRITE, CONSOLE, 1, RAM, -1)),
    tells("buffer-past-the-block", "nor may it lie behind it", 6, swap(READ_WRITE, CONSOLE, 1, TOP, 4)),
    tells("buffer-past-the-last-address", "addresses end at 2^32", 6, swap(READ_WRITE, CONSOLE, 1, RAM + 1, -RAM)),
    tells("buffer-without-bytes", "a buffer without bytes lies anywhere", 130,
          swap(READ_WRITE, CONSOLE, 1, -1, 0), mv(A1, A0)),
    tells("read-only-in-flash", "a driver may read the application", 130,
          swap(READ_ONLY, CONSOLE, 1, CODE, 44), mv(A1, A0)),
    tells("read-only-past-the-object", "and nothing after it", 6, swap(READ_ONLY, CONSOLE, 1, CODE, 41)),
    tells("read-only-of-the-header", "nor the header", 6, swap(READ_ONLY, CONSOLE, 1, CODE - 1, 4)),
    tells("read-write-in-flash", "and not write it", 6, swap(READ_WRITE, CONSOLE, 1, CODE, 4)),
    tells("buffers-of-two-kinds", "read-only and read-write buffers are kept apart", 0,
          swap(READ_WRITE, CONSOLE, 1, RAM, 4), swap(READ_ONLY, CONSOLE, 1, RAM, 4)),
    tells("buffers-of-two-numbers", "and so are the numbers", 0,
          swap(READ_WRITE, CONSOLE, 0, RAM, 4), swap(READ_WRITE, CONSOLE, 1, RAM, 4)),
    tells("break-below-a-buffer", "the break stays above an allowed buffer", 9,
          swap(READ_WRITE, CONSOLE, 1, BREAK - 16, 16), memop(0, BREAK - 4)),
    tells("break-at-the-buffers-end", "and may come down to it", 128,
          swap(READ_WRITE, CONSOLE, 1, RAM, 16), memop(0, RAM + 16), mv(A1, A0)),
    tells("no-room-for-a-grant", "a grant lies above the break", 9, memop(0, TOP), FIRST),
    tells("room-for-a-grant", "the alarm's has 48 bytes, which may begin at the break", 0, memop(0, TOP - 48), FIRST),
    tells("room-for-all-but-4-bytes", "and not below it", 9, memop(0, TOP - 44), FIRST),
    tells("outside-before-no-room", "a function that is not the process's is told first", 6, memop(0, TOP),
          swap(SUBSCRIBE, ALARM, 0, FLASH, 0)),
    tells("break-to-a-grant", "the break may come up to the grants", 128, FIRST, memop(0, TOP - 48), mv(A1, A0)),
    tells("break-into-a-grant", "and not past their start", 9, FIRST, memop(0, TOP - 44)),
    boot("a-restart-drops-the-grants", "each life finds nothing subscribed, and starts the next", turns=1000,
         flash=app(FIRST, bne(A1, ZERO, "kept"), exits(1), "kept", exits()), text="""
        ==
        slot 0 - running turns 1000 restarts 90
        leds 0000
        end turns steps 1000 time 1000
    """),
    boot("store-at-the-grants", "a process cannot store where its grants lie",
         app(mv(S0, A1), FIRST, sw(ZERO, S0, 1020)), """
        ==
        slot 0 - faulted store 800003fc no-region turns 9 restarts 0
        leds 0000
        end done steps 9 time 9
    """),
]
