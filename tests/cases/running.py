"""How an application exits, what it is denied, what its instructions do, and memop."""

from flash_images import *
from .case import boot, tells
from .programs import EXIT_7, RUN_OF_EXIT_7

RUNS = [
    boot("exit-with-7", "an application exits, and the report tells its code", EXIT_7, RUN_OF_EXIT_7),
    boot("empty-flash", "a flash image without objects makes no step", b"", """
        ==
        leds 0000
        end done steps 0 time 0
    """),
    boot("no-turns", "a run may have no turns", EXIT_7, turns=0, text="""
        ==
        slot 0 - running turns 0 restarts 0
        leds 0000
        end turns steps 0 time 0
    """),
    boot("just-enough-turns", "the run is done where the last turn ends the last process", EXIT_7, turns=4,
         text=RUN_OF_EXIT_7),
    boot("exit-1-restarts-forever", "exit 1 starts the process again, three turns a life",
         app(exits(1)), """
        ==
        slot 0 - running turns 1000 restarts 333
        leds 0000
        end turns steps 1000 time 1000
    """),
]

DENIALS = [
    boot("store-to-flash", "flash is not to be written", app(sb(ZERO, A0)), """
        ==
        slot 0 - faulted store 20000020 no-write turns 1 restarts 0
        leds 0000
        end done steps 1 time 1
    """),
    boot("misaligned-store", "a word lies at a multiple of 4", app(sw(ZERO, A1, 1)), """
        ==
        slot 0 - faulted store 80000001 misaligned turns 1 restarts 0
        leds 0000
        end done steps 1 time 1
    """),
    boot("load-of-the-header", "its header is not the process's to read", app(lw(T0, A0, -32)), """
        ==
        slot 0 - faulted load 20000000 no-region turns 1 restarts 0
        leds 0000
        end done steps 1 time 1
    """),
    boot("load-of-the-footers", "a binary that ends at 49 may be read up to 52, and not the byte there",
         tbf([program_tlv(binary_end=49)], lbu(A1, A0, 11) + lbu(A1, A0, 12) + bytes(8)), """
        ==
        slot 0 - faulted load 20000034 no-region turns 2 restarts 0
        leds 0000
        end done steps 2 time 2
    """),
    boot("jump-to-ram", "RAM is not to be executed", app(jalr(ZERO, A1)), """
        ==
        slot 0 - faulted fetch 80000000 no-execute turns 2 restarts 0
        leds 0000
        end done steps 2 time 2
    """),
    boot("store-past-the-break", "the last word below the break may be stored, and the next may not",
         app(sw(ZERO, A1, 252), sw(ZERO, A1, 256)), """
        ==
        slot 0 - faulted store 80000100 no-region turns 2 restarts 0
        leds 0000
        end done steps 2 time 2
    """),
    boot("second-parcel-past-flash", "each parcel of an instruction is permitted on its own",
         app(jalr(ZERO, A0, 30), bytes(26), nop[:2]), """
        ==
        slot 0 - faulted fetch 20000040 no-region turns 2 restarts 0
        leds 0000
        end done steps 2 time 2
    """),
]

LEAST, MOST = 0x80000000, 0xFFFFFFFF
# Operations of two registers by the unprivileged manual: what each is shown by, the numbers, and what it gives.
OPERATIONS = [
    (slt, "slt", "-1 is below 1", MOST, 1, 1), (sltu, "sltu", "without signs it is not", MOST, 1, 0),
    (xor, "xor", "bits that one of both has", 0b1100, 0b1010, 0b0110),
    (or_, "or", "bits that either has", 0b1100, 0b1010, 0b1110),
    (and_, "and", "bits that both have", 0b1100, 0b1010, 0b1000),
    (sll, "sll", "of the amount the low 5 bits count", 1, 33, 2), (srl, "srl", "zeros come in", LEAST, 31, 1),
    (sra, "sra", "the sign comes in", LEAST, 4, 0xF8000000),
    (sub, "sub", "below 0 it goes on from 2^32", 0, 1, MOST),
    (mul, "mul", "the low half of a product", 0x10001, 0x10001, 0x20001),
    (mulh, "mulh", "the high half of -2^31 times 2", LEAST, 2, MOST),
    (mulhsu, "mulhsu", "the high half of -1 times 2^32 - 1", MOST, MOST, MOST),
    (mulhu, "mulhu", "the high half of 2^32 - 1 times itself", MOST, MOST, MOST - 1),
    (div, "div", "rounded towards 0", MOST - 6, 2, MOST - 2), (divu, "divu", "rounded down", MOST, 2, LEAST - 1),
    (rem, "rem", "it has the sign of the dividend", MOST - 6, 2, MOST), (remu, "remu", "without signs", MOST, 16, 15),
]
# Loads of the half word 0x8081, and what each gives.
LOADS = [(lb, "lb", "a byte with its sign", 0xFFFFFF81), (lbu, "lbu", "a byte without one", 0x81),
         (lh, "lh", "a half word with its sign", 0xFFFF8081), (lhu, "lhu", "a half word without one", 0x8081)]

INSTRUCTIONS = [
    *[tells("operation-" + name, "%s: %s" % (name, shows), result, li(A1, left), li(A2, right), make(A1, A1, A2))
      for make, name, shows, left, right, result in OPERATIONS],
    *[tells("load-" + name, "%s: %s" % (name, shows), result, mv(S1, A1), li(A2, 0x8081), sw(A2, S1), make(A1, S1))
      for make, name, shows, result in LOADS],
    tells("fence", "a fence changes nothing but pc", 5, li(A1, 5), word(0x0FF0000F)),
    boot("compressed-lui", "c.lui a1, 0xfffff sets the upper bits", app(parcel(0x75FD), exits()), """
        ==
        slot 0 - terminated 4294963200 turns 4 restarts 0
        leds 0000
        end done steps 4 time 4
    """),
    boot("compressed-shift", "c.srli a1, 9 shifts zeros in", app(li(A1, LEAST), parcel(0x81A5), exits()), """
        ==
        slot 0 - terminated 4194304 turns 5 restarts 0
        leds 0000
        end done steps 5 time 5
    """),
    boot("division-by-zero", "the quotient by zero has all bits set",
         app(li(A1, 7), div(A1, A1, ZERO), exits()), """
        ==
        slot 0 - terminated 4294967295 turns 5 restarts 0
        leds 0000
        end done steps 5 time 5
    """),
    boot("division-that-overflows", "the least number divided by -1 is itself",
         app(li(A1, 0x80000000), li(A2, -1), div(A1, A1, A2), exits()), """
        ==
        slot 0 - terminated 2147483648 turns 6 restarts 0
        leds 0000
        end done steps 6 time 6
    """),
    boot("remainder-that-overflows", "the remainder of the least number by -1 is 0",
         app(li(A1, 0x80000000), li(A2, -1), rem(A1, A1, A2), exits()), """
        ==
        slot 0 - terminated 0 turns 6 restarts 0
        leds 0000
        end done steps 6 time 6
    """),
    boot("compressed-li", "a parcel sets the register that a word had set",
         app(li(A4, 6), li(A0, 1), li(A1, 9), c_li(A0, 0), ecall), """
        ==
        slot 0 - terminated 9 turns 5 restarts 0
        leds 0000
        end done steps 5 time 5
    """),
    boot("compressed-exit", "an application of parcels alone, but for the call",
         app(c_li(A4, 6), c_li(A0, 0), c_li(A1, 7), ecall, size=64), RUN_OF_EXIT_7),
    boot("compressed-ebreak", "a breakpoint stops the process", app(c_ebreak), """
        ==
        slot 0 - faulted fetch 20000020 breakpoint turns 1 restarts 0
        leds 0000
        end done steps 1 time 1
    """),
    boot("parcel-of-zeros", "the parcel of zeros is illegal", app(parcel(0)), """
        ==
        slot 0 - faulted fetch 20000020 illegal turns 1 restarts 0
        leds 0000
        end done steps 1 time 1
    """),
    boot("compressed-shift-by-32", "no shift is by 32", app(c_slli(ZERO, 32)), """
        ==
        slot 0 - faulted fetch 20000020 illegal turns 1 restarts 0
        leds 0000
        end done steps 1 time 1
    """),
    boot("stack-adjusted-by-0", "the stack pointer is not adjusted by 0", app(c_addi16sp(0)), """
        ==
        slot 0 - faulted fetch 20000020 illegal turns 1 restarts 0
        leds 0000
        end done steps 1 time 1
    """),
    boot("fence-i", "fence.i is no instruction of this machine", app(fence_i), """
        ==
        slot 0 - faulted fetch 20000020 illegal turns 1 restarts 0
        leds 0000
        end done steps 1 time 1
    """),
    boot("illegal-word", "the word after the first instruction is none", app(lui(A1, 0x80000), size=64), """
        ==
        slot 0 - faulted fetch 20000024 illegal turns 2 restarts 0
        leds 0000
        end done steps 2 time 2
    """),
]

# Memop 0 sets the break, 3 asks for the block's end, and 9 for the end of a region in flash.
# The header of an application that names two flash regions it may write, each by its offset in the object and its size.
REGIONS = [writeable_flash_regions_tlv((64, 32), (96, 16))]

CALLS = [
    tells("region-count", "memop 7 tells how many flash regions the header names", 2, memop(7), elements=REGIONS),
    tells("region-start", "memop 8 tells where the second begins", FLASH + 96, memop(8, 1), elements=REGIONS),
    tells("region-end", "and memop 9 where it ends", FLASH + 112, memop(9, 1), elements=REGIONS),
    boot("region-that-is-not-there", "memop 9 is refused where the header names no region",
         app(memop(9, 0), exits()), """
        ==
        slot 0 - terminated 1 turns 7 restarts 0
        leds 0000
        end done steps 7 time 7
    """),
    boot("fixed-ram-start", "the block begins at the start that the header fixes; memop 3 tells its end",
         app(memop(3), exits(), elements=[fixed_addresses_tlv(RAM + 0x400, FLASH + 44)]), """
        ==
        slot 0 - terminated 2147485696 turns 6 restarts 0
        leds 0000
        end done steps 6 time 6
    """),
    boot("break-that-rounds-to-ram", "a break is rounded up to 4 before it is looked at: this one is the RAM start",
         app(memop(0, RAM - 1), mv(A1, A0), exits()), """
        ==
        slot 0 - terminated 128 turns 9 restarts 0
        leds 0000
        end done steps 9 time 9
    """),
    boot("break-below-ram", "a break outside the block is refused; the process exits with the error's code",
         app(memop(0, -1), exits()) + EXIT_7, """
        ==
        slot 0 - terminated 9 turns 7 restarts 0
        slot 1 - terminated 7 turns 4 restarts 0
        leds 0000
        end done steps 11 time 11
    """),
    boot("class-8-is-unknown", "the classes end at 7", app(li(A4, 8), ecall), """
        ==
        slot 0 - faulted fetch 20000024 unknown-class turns 2 restarts 0
        leds 0000
        end done steps 2 time 2
    """),
]
