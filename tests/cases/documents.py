"""The runs that the documents show, with the applications in C that stand longest."""

from .case import readme

# The applications in C, and the documents' other runs. Counts, times and addresses of code and stack are the
# compiler's: they were counted in the disassembly of the images as they are kept. The text of soak 1 was computed by a
# model of the eight programs and the round robin, apart from the program.
README = [
    readme("applications-in-c", "one prints, one strays into the next one's memory, one prints back what comes in "
           "until it is ended",
           "./tock boot examples/images/together.bin examples/scripts/operator.script --turns 1000", """
        hello from C
        hi
        2 echo yielded
        ==
        slot 0 greet terminated 0 turns 55 restarts 0
        slot 1 trespass faulted store 80000800 no-region turns 10 restarts 0
        slot 2 echo terminated 0 turns 155 restarts 0
        leds 0000
        end done steps 229 time 300
    """),
    readme("list-of-applications-in-c", "the three objects, one after another",
           "./tock list examples/images/together.bin", """
        object 0 196 app greet
        object 196 84 app trespass
        object 280 228 app echo
        objects 3
    """),
    readme("greet", "a line is printed",
           "./tock boot examples/images/greet.bin examples/scripts/empty.script --turns 1000", """
        hello from C
        ==
        slot 0 greet terminated 0 turns 55 restarts 0
        leds 0000
        end done steps 58 time 61
    """),
    readme("trace-of-greet", "a buffer in flash is lent, an upcall subscribed, and the write waited for",
           "./tock trace examples/images/greet.bin examples/scripts/empty.script --turns 1000", """
        @14 0 call 4 00000001 00000001 200000b4 0000000d = 00000082 00000000 00000000 0000000d
        @21 0 call 1 00000001 00000001 2000003c 800000e0 = 00000082 00000000 00000000 800000e0
        @27 0 call 2 00000001 00000001 0000000d 00000000 = 00000080 00000001 0000000d 00000000
        @28 0 out 68656c6c6f2066726f6d20430a
        @34 0 call 0 00000001 00000001 0000000d 00000000
        @60 0 call 6 00000000 00000000 00000000 800000e0
        ==
        slot 0 greet terminated 0 turns 55 restarts 0
        leds 0000
        end done steps 58 time 61
    """),
    readme("echo-in-c", "what comes in is printed back, and more is waited for",
           "./tock boot examples/images/echo.bin examples/scripts/hi.script --turns 1000", """
        hi
        ==
        slot 0 echo yielded turns 155 restarts 0
        leds 0000
        end done steps 160 time 161
    """),
    readme("trace-of-echo-in-c", "a read, a write of what came in, and the next read",
           "./tock trace examples/images/echo.bin examples/scripts/hi.script --turns 1000", """
        @13 0 call 3 00000001 00000001 800000d0 00000010 = 00000082 00000000 00000000 00000010
        @30 0 call 1 00000001 00000002 20000038 800000e0 = 00000082 00000000 00000000 800000e0
        @36 0 call 2 00000001 00000002 00000010 00000000 = 00000080 00000002 00000010 00000000
        @43 0 call 0 00000001 00000002 00000010 00000000
        @75 0 call 4 00000001 00000001 800000d0 00000003 = 00000082 00000000 00000000 00000003
        @92 0 call 1 00000001 00000001 20000038 800000e0 = 00000082 00000000 00000000 800000e0
        @98 0 call 2 00000001 00000001 00000003 00000000 = 00000080 00000001 00000003 00000000
        @99 0 out 68690a
        @105 0 call 0 00000001 00000001 00000003 00000000
        @130 0 call 3 00000001 00000001 800000d0 00000010 = 00000082 800000d0 00000010 00000010
        @147 0 call 1 00000001 00000002 20000038 800000e0 = 00000082 20000038 800000e0 800000e0
        @153 0 call 2 00000001 00000002 00000010 00000000 = 00000080 00000002 00000010 00000000
        @160 0 call 0 00000001 00000002 00000010 00000000
        ==
        slot 0 echo yielded turns 155 restarts 0
        leds 0000
        end done steps 160 time 161
    """),
    readme("trespass", "a store behind a process's memory is denied",
           "./tock boot examples/images/trespass.bin examples/scripts/empty.script --turns 1000", """
        ==
        slot 0 trespass faulted store 80000400 no-region turns 10 restarts 0
        leds 0000
        end done steps 10 time 10
    """),
    readme("trace-of-trespass", "memop tells where its memory ends, and the next store is denied",
           "./tock trace examples/images/trespass.bin examples/scripts/empty.script --turns 1000", """
        @7 0 call 5 00000003 00000000 00000000 00000000 = 00000081 80000400 00000000 00000000
        @9 0 denied store 80000400 no-region
        ==
        slot 0 trespass faulted store 80000400 no-region turns 10 restarts 0
        leds 0000
        end done steps 10 time 10
    """),
    readme("three-applications-with-names", "an exit, a store past the break, and a call that tells an address",
           "./tock boot examples/images/three.bin examples/scripts/16k.script --turns 1000", """
        ==
        slot 0 hello terminated 7 turns 4 restarts 0
        slot 1 stray faulted store 80000500 no-region turns 2 restarts 0
        slot 2 memop terminated 2147486720 turns 6 restarts 0
        leds 0000
        end done steps 12 time 12
    """),
    readme("trace-of-three-applications", "an exit, a store past the break, and a call with its reply",
           "./tock trace examples/images/three.bin examples/scripts/16k.script --turns 1000", """
        @3 0 call 6 00000000 00000007 00000400 80000100
        @5 1 denied store 80000500 no-region
        @8 2 call 5 00000003 80000800 00000400 80000900 = 00000081 80000c00 00000400 80000900
        @11 2 call 6 00000000 80000c00 00000400 80000900
        ==
        slot 0 hello terminated 7 turns 4 restarts 0
        slot 1 stray faulted store 80000500 no-region turns 2 restarts 0
        slot 2 memop terminated 2147486720 turns 6 restarts 0
        leds 0000
        end done steps 12 time 12
    """),
    readme("trace-of-three-applications-in-windows", "each slot has three ticks of every 48, and a share of RAM",
           "./tock trace examples/images/three.bin examples/scripts/windows.script --turns 1000", """
        @4 1 denied store 80001100 no-region
        @8 2 call 5 00000003 80002000 00000400 80002100 = 00000081 80002400 00000400 80002100
        @48 0 call 6 00000000 00000007 00000400 80000100
        @56 2 call 6 00000000 80002400 00000400 80002100
        ==
        slot 0 hello terminated 7 turns 4 restarts 0
        slot 1 stray faulted store 80001100 no-region turns 2 restarts 0
        slot 2 memop terminated 2147492864 turns 6 restarts 0
        leds 0000
        end done steps 28 time 57
    """),
    readme("list-of-three-applications", "padding is listed too", "./tock list examples/images/three.bin", """
        object 0 60 app hello
        object 60 52 app stray
        object 112 16 padding -
        object 128 68 app memop
        objects 4
    """),
    readme("soak-of-a-million-turns", "a run that anyone can repeat", "./tock soak 1 --turns 1000000", """
        printed 9240 sum 526146
        ==
        slot 0 - running turns 140808 restarts 0
        slot 1 - running turns 140367 restarts 0
        slot 2 - running turns 138473 restarts 0
        slot 3 - running turns 138313 restarts 0
        slot 4 - running turns 140469 restarts 0
        slot 5 - terminated 81 turns 17940 restarts 0
        slot 6 - running turns 140833 restarts 0
        slot 7 - running turns 140487 restarts 0
        leds 0000
        end turns steps 1000000 time 997690
    """),
]
