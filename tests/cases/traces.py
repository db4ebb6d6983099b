"""What `trace` tells."""

from flash_images import *
from .case import trace
from .programs import BREAKPOINT, CHANGES_ITS_BUFFER, EXIT_7, WRAPS

# The time of a line is that before its step. Registers that a reply does not use stay as they were: at first a0 is the
# application's address, a1 RAM, a2 the block's 1024 bytes and a3 the break.
TRACES = [
    trace("trace-of-no-step", "where nothing runs there is the report alone", b"", """
        ==
        leds 0000
        end done steps 0 time 0
    """),
    trace("trace-of-a-refused-allow", "a refusal tells its rule after the registers of the reply",
          app(swap(READ_WRITE, CONSOLE, 1, -16, 32), swap(READ_WRITE, CONSOLE, 1, -16, 0), exits()), """
        @5 0 call 3 00000001 00000001 fffffff0 00000020 = 00000002 00000006 fffffff0 00000020 outside
        @11 0 call 3 00000001 00000001 fffffff0 00000000 = 00000082 00000000 00000000 00000000
        @14 0 call 6 00000000 00000000 00000000 00000000
        ==
        slot 0 - terminated 0 turns 15 restarts 0
        leds 0000
        end done steps 15 time 15
    """),
    trace("trace-of-refused-commands", "each refusal of a command or a memop has its error code and its rule",
          app(command(NO_DRIVER, 1), command(LED, 9), memop(12), command(ALARM, 3), command(CONSOLE, 2, 0),
              command(CONSOLE, 2, 4), command(CONSOLE, 2, 4), memop(8, 3), exits()), """
        @5 0 call 2 00000004 00000001 00000000 00000000 = 00000000 0000000b 00000000 00000000 no-driver
        @11 0 call 2 00000002 00000009 00000000 00000000 = 00000000 0000000a 00000000 00000000 no-command
        @14 0 call 5 0000000c 0000000a 00000000 00000000 = 00000000 0000000a 00000000 00000000 no-operation
        @20 0 call 2 00000000 00000003 00000000 00000000 = 00000000 00000003 00000000 00000000 nothing
        @26 0 call 2 00000001 00000002 00000000 00000000 = 00000000 00000007 00000000 00000000 empty
        @32 0 call 2 00000001 00000002 00000004 00000000 = 00000080 00000002 00000004 00000000
        @38 0 call 2 00000001 00000002 00000004 00000000 = 00000000 00000002 00000004 00000000 busy
        @42 0 call 5 00000008 00000003 00000004 00000000 = 00000000 00000001 00000004 00000000 index
        @45 0 call 6 00000000 00000001 00000004 00000000
        ==
        slot 0 - terminated 1 turns 46 restarts 0
        leds 0000
        end done steps 46 time 46
    """),
    trace("trace-of-former-buffers", "each allow gives the buffer before it, and the break stays above the last",
          app(mv(S0, A1), li(A4, READ_WRITE),
              li(A0, CONSOLE), li(A1, 1), mv(A2, S0), li(A3, 16), ecall,
              li(A0, CONSOLE), li(A1, 1), addi(A2, S0, 32), li(A3, 8), ecall,
              li(A0, CONSOLE), li(A1, 1), li(A2, 0), li(A3, 0), ecall,
              li(A4, 5), li(A0, 0), addi(A1, S0, 36), ecall, exits()), """
        @6 0 call 3 00000001 00000001 80000000 00000010 = 00000082 00000000 00000000 00000010
        @11 0 call 3 00000001 00000001 80000020 00000008 = 00000082 80000000 00000010 00000008
        @16 0 call 3 00000001 00000001 00000000 00000000 = 00000082 80000020 00000008 00000000
        @20 0 call 5 00000000 80000024 00000008 00000000 = 00000000 00000009 00000008 00000000 break
        @23 0 call 6 00000000 00000009 00000008 00000000
        ==
        slot 0 - terminated 9 turns 24 restarts 0
        leds 0000
        end done steps 24 time 24
    """),
    trace("trace-of-readable-buffers", "a call of class 7 is told as any other",
          app(mv(S0, A1), *([li(A4, READABLE), li(A0, ALARM), li(A1, 0), mv(A2, S0), li(A3, 4), ecall]),
              swap(READABLE, ALARM, 0, 0, 0), li(A1, 5), exits()), """
        @6 0 call 7 00000000 00000000 80000000 00000004 = 00000082 00000000 00000000 00000004
        @12 0 call 7 00000000 00000000 00000000 00000000 = 00000082 80000000 00000004 00000000
        @16 0 call 6 00000000 00000005 00000004 00000000
        ==
        slot 0 - terminated 5 turns 17 restarts 0
        leds 0000
        end done steps 17 time 17
    """),
    trace("trace-of-no-room", "a grant has no room below the break, and has it once the break went down",
          app(mv(S0, A1), li(A4, 5), li(A0, 0), addi(A1, S0, 1024), ecall,
              swap(SUBSCRIBE, CONSOLE, 1, 0, 0),
              li(A4, 5), li(A0, 1), li(A1, -96), ecall,
              swap(SUBSCRIBE, CONSOLE, 1, 0, 0), word(0)), """
        @4 0 call 5 00000000 80000400 00000400 80000100 = 00000080 80000400 00000400 80000100
        @10 0 call 1 00000001 00000001 00000000 00000000 = 00000002 00000009 00000000 00000000 no-room
        @14 0 call 5 00000001 ffffffa0 00000000 00000000 = 00000081 80000400 00000000 00000000
        @20 0 call 1 00000001 00000001 00000000 00000000 = 00000082 00000000 00000000 00000000
        @21 0 denied fetch 20000074 illegal
        ==
        slot 0 - faulted fetch 20000074 illegal turns 22 restarts 0
        leds 0000
        end done steps 22 time 22
    """),
    trace("trace-of-subscribes", "each subscribe gives the upcall before it; the alarm has one",
          app(mv(S0, A0), *(li(A4, SUBSCRIBE) + li(A0, ALARM) + li(A1, number) + function + li(A3, data) + ecall
                            for number, function, data in [(0, addi(A2, S0, 64), 1), (0, addi(A2, S0, 68), 2),
                                                           (0, li(A2, 0), 3), (1, li(A2, 0), 4)])), """
        @6 0 call 1 00000000 00000000 20000060 00000001 = 00000082 00000000 00000000 00000001
        @12 0 call 1 00000000 00000000 20000064 00000002 = 00000082 20000060 00000001 00000002
        @18 0 call 1 00000000 00000000 00000000 00000003 = 00000082 20000064 00000002 00000003
        @24 0 call 1 00000000 00000001 00000000 00000004 = 00000002 0000000a 00000000 00000004 no-number
        @25 0 denied fetch 20000084 no-region
        ==
        slot 0 - faulted fetch 20000084 no-region turns 26 restarts 0
        leds 0000
        end done steps 26 time 26
    """),
    trace("trace-of-two-buffers-of-a-write", "the bytes that the UART took of each",
          CHANGES_ITS_BUFFER, """
        @6 0 call 4 00000001 00000001 2000009c 00000064 = 00000082 00000000 00000000 00000064
        @11 0 call 2 00000001 00000001 00000064 00000064 = 00000080 00000001 00000064 00000064
        @12 0 out %s
        @17 0 call 4 00000001 00000001 20000100 00000046 = 00000082 2000009c 00000064 00000046
        @23 0 call 1 00000001 00000001 2000008c 00000000 = 00000082 00000000 00000000 00000000
        @26 0 call 0 00000001 00000000 00000000 00000000
        @76 0 out 626262626262
        @86 0 call 6 00000000 00000046 00000000 00000000
        ==
        slot 0 - terminated 70 turns 32 restarts 0
        leds 0000
        end done steps 37 time 87
    """ % ("61" * 64)),
    trace("trace-of-a-subscribe-that-drops", "a subscribe drops what is pending for it: the yield finds no upcall",
          app(mv(S0, A0), mv(S3, A1), li(S2, RANDOM),
              li(A4, SUBSCRIBE), mv(A0, S2), li(A1, 0), mv(A2, S0), li(A3, 0), ecall,
              li(A4, 2), mv(A0, S2), li(A1, 1), li(A2, 0), ecall, li(T0, 5), sb(T0, S3),
              li(A4, SUBSCRIBE), mv(A0, S2), li(A1, 0), addi(A2, S0, 4), li(A3, 9), ecall,
              li(A4, 0), li(A0, 0), mv(A1, S3), ecall, lbu(A1, S3), exits()), """
        @9 0 call 1 00040001 00000000 20000020 00000000 = 00000082 00000000 00000000 00000000
        @14 0 call 2 00040001 00000001 00000000 00000000 = 00000080 00000001 00000000 00000000
        @22 0 call 1 00040001 00000000 20000024 00000009 = 00000082 20000020 00000000 00000009
        @26 0 call 0 00000000 80000000 00000000 00000009
        @30 0 call 6 00000000 00000000 00000000 00000009
        ==
        slot 0 - terminated 0 turns 31 restarts 0
        leds 0000
        end done steps 32 time 31
    """),
    trace("trace-of-an-alarm", "the reply is the tick of the expiration, past the clock's end", WRAPS,
          script=b"start 4294967280", text="""
        @6 0 call 1 00000000 00000000 2000005c 00000000 = 00000082 00000000 00000000 00000000
        @11 0 call 2 00000000 00000005 00000014 00000000 = 00000081 0000000f 00000014 00000000
        @14 0 call 0 00000001 0000000f 00000014 00000000
        @35 0 call 6 00000000 0000000f 00000000 00000000
        ==
        slot 0 - terminated 15 turns 20 restarts 0
        leds 0000
        end done steps 22 time 36
    """),
    trace("trace-of-permissions", "one command of one driver is permitted, and nothing else",
          app(li(A4, 2), li(A0, LED), li(A1, 1), li(A2, 0), ecall,
              li(A4, READ_WRITE), li(A0, STORAGE), li(A1, 0), li(A2, 0), li(A3, 0), ecall,
              li(A4, 2), li(A0, CONSOLE), li(A1, 1), li(A2, 0), ecall, word(0),
              elements=[permissions_tlv((CONSOLE, 0, 2))]), """
        @4 0 call 2 00000002 00000001 00000000 80000100 = 00000000 0000000b 00000000 80000100 permission
        @11 0 call 3 00050001 00000000 00000000 00000000 = 00000002 0000000b 00000000 00000000 permission
        @16 0 call 2 00000001 00000001 00000000 00000000 = 00000080 00000001 00000000 00000000
        @17 0 denied fetch 2000007c illegal
        ==
        slot 0 - faulted fetch 2000007c illegal turns 18 restarts 0
        leds 0000
        end done steps 19 time 18
    """),
    trace("trace-of-a-yield", "a yield has no reply", app(yields(1)), """
        @2 0 call 0 00000001 80000000 00000400 80000100
        ==
        slot 0 - yielded turns 3 restarts 0
        leds 0000
        end done steps 3 time 3
    """),
    trace("trace-of-restarts", "nor has an exit that starts the process again", app(exits(1)), turns=6, text="""
        @2 0 call 6 00000001 80000000 00000400 80000100
        @5 0 call 6 00000001 80000000 00000400 80000100
        ==
        slot 0 - running turns 6 restarts 2
        leds 0000
        end turns steps 6 time 6
    """),
    trace("trace-of-an-unknown-class", "a class that there is not is a denial, and no call", app(li(A4, 8), ecall), """
        @1 0 denied fetch 20000024 unknown-class
        ==
        slot 0 - faulted fetch 20000024 unknown-class turns 2 restarts 0
        leds 0000
        end done steps 2 time 2
    """),
    trace("trace-of-three-slots", "each line tells whose step it was",
          app("again", jal(ZERO, "again"), word(0)) + BREAKPOINT + EXIT_7, turns=14,
          script=b"slice 2\npolicy threshold 2\n", text="""
        @2 1 denied fetch 20000048 breakpoint
        @3 1 denied fetch 20000048 breakpoint
        @8 1 denied fetch 20000048 breakpoint
        @10 2 call 6 00000000 00000007 00000400 80000900
        ==
        slot 0 - running turns 7 restarts 0
        slot 1 - faulted fetch 20000048 breakpoint turns 3 restarts 2
        slot 2 - terminated 7 turns 4 restarts 0
        leds 0000
        end turns steps 14 time 14
    """),
    trace("trace-without-a-flash-file", "the files are asked for as those of boot are", None, status=3,
          text="file flash fault"),
]
