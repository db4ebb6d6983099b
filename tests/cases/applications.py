"""The applications in C of examples/."""

import struct
import zlib

from .case import Case, kept

# The other applications in C. Their texts were computed by a model of the kernel, the devices and the round robin,
# apart from the program, over the disassembly of the images as they are kept; those of doze, which was changed
# afterwards, were counted over it by hand.
VICTIM_SAYS = "my secret is as it was\n"
VICTIMS = VICTIM_SAYS * 3
MINE = "all time and the line are mine, all time and the line are mine\n"
VICTIMS_LINE = "slot 0 victim terminated 0 turns 2044 restarts 0\n"


def crunched(rounds):
    """What examples/apps/crunch has as its checksum after so many rounds."""
    primes = [number for number in range(2, 1000) if all(number % divisor for divisor in range(2, number))]
    checksum = 1
    for _ in range(rounds):
        numbers = []
        for _ in range(64):
            checksum = (checksum * 1664525 + 1013904223) % 2 ** 32
            numbers.append(checksum)
        for place, prime in enumerate(primes):
            numbers[place % 64] -= numbers[place % 64] % prime
        rows = [numbers[start:start + 8] for start in range(0, 64, 8)]
        products = [sum(one * other for one, other in zip(row, column)) % 2 ** 32
                    for row in rows for column in zip(*rows)]
        checksum = zlib.crc32(struct.pack("<64I", *sorted(products)))
    return checksum


APPLICATIONS = [
    kept("blink", "an LED goes on and off by the alarm, a tenth of a second each, and is lit at the end",
         "blink", "empty", """
        ==
        slot 0 blink terminated 0 turns 330 restarts 0
        leds 1000
        end done steps 344 time 981
    """),
    kept("lost", "a pointer is overwritten, and its load denied later: docs/debugging.md finds where",
         "lost", "empty", """
        open
        ==
        slot 0 lost faulted load 00000004 no-region turns 3148 restarts 0
        leds 0000
        end done steps 3150 time 3148
    """),
    kept("desk", "a session of tools/live, as it was saved: buttons pressed, a line typed, an operator's acts",
         "desk", "desk", """
        hello, board
        2 echo yielded
        ==
        slot 0 buttons yielded turns 127 restarts 0
        slot 1 trespass faulted store 80000c00 no-region turns 10 restarts 0
        slot 2 echo stopped turns 155 restarts 0
        leds 1001
        end done steps 305 time 4300
    """),
    kept("clock", "an alarm is awaited in a word that the kernel writes, without an upcall and without a yield",
         "clock", "empty", """
        ==
        slot 0 clock terminated 109 turns 161 restarts 0
        leds 0000
        end done steps 162 time 161
    """),
    kept("doze", "an alarm and a write are waited for alone each, and no function of an upcall runs",
         "doze", "empty", """
        awake
        awake
        awake
        ==
        slot 0 doze terminated 0 turns 145 restarts 0
        leds 0000
        end done steps 157 time 421
    """),
    Case("doze-too-late", "an upcall that comes before it is waited for is kept, since it has a function",
         ["boot", "examples/images/doze.bin", "script", "--turns", "1000"], 0, """
        awake
        awake
        awake
        ==
        slot 0 doze terminated 0 turns 142 restarts 0
        leds 0000
        end done steps 154 time 418
    """, None, b"uart 0\n", is_kept=True),
    kept("press", "an LED is on while a button is pressed, and the last press of another ends it", "press", "press", """
        ==
        slot 0 press terminated 0 turns 116 restarts 0
        leds 1000
        end done steps 124 time 517
    """),
    kept("logger", "what is in storage outlives a restart: an application counts its starts there",
         "logger", "empty", """
        start 1
        start 2
        start 3
        ==
        slot 0 logger terminated 0 turns 4182 restarts 2
        leds 0000
        end done steps 4194 time 4182
    """),
    kept("random-in-c", "six random bytes, then the four that are left of the script's, and the error that says so",
         "random", "words", """
        443322118877
        ccbbaa99
        ==
        slot 0 random terminated 1 turns 1133 restarts 0
        leds 0000
        end done steps 1143 time 1141
    """),
    kept("crunch", "a sieve, a product of matrices, a sort and a CRC-32, round after round without an end",
         "crunch", "empty", "".join("%08x\n" % crunched(rounds) for rounds in (1, 2, 4, 8)) + """\
==
slot 0 crunch running turns 499988 restarts 0
leds 0000
end turns steps 500000 time 499996
""", turns=500000),
    kept("permissions", "a header says what its process may ask for: one lights LEDs and may not print, one "
         "the reverse",
         "permissions", "empty", """
        no LED for me
        ==
        slot 0 lamp terminated 11 turns 90 restarts 0
        slot 1 voice terminated 0 turns 154 restarts 0
        leds 0100
        end done steps 247 time 251
    """),
    kept("trace-of-permissions-in-c", "what is not permitted is refused by that rule, as if there was no driver",
         "permissions", "empty", command="trace", text="""
        @7 0 call 2 00000002 00000001 00000001 00000000 = 00000080 00000001 00000001 00000000
        @79 0 call 4 00000001 00000001 2000013c 0000000e = 00000002 0000000b 2000013c 0000000e permission
        @89 0 call 6 00000000 0000000b 2000013c 0000000e
        @97 1 call 2 00000002 00000001 00000002 00000000 = 00000000 0000000b 00000002 00000000 permission
        @185 1 call 4 00000001 00000001 2000028c 0000000e = 00000082 00000000 00000000 0000000e
        @197 1 call 1 00000001 00000001 200001a0 80000be0 = 00000082 00000000 00000000 80000be0
        @205 1 call 2 00000001 00000001 0000000e 00000000 = 00000080 00000001 0000000e 00000000
        @206 1 out 6e6f204c454420666f72206d650a
        @212 1 call 0 00000001 00000001 0000000e 00000000
        @236 1 call 1 00000001 00000001 00000000 00000000 = 00000082 200001a0 80000be0 00000000
        @242 1 call 4 00000001 00000001 00000000 00000000 = 00000082 2000028c 0000000e 00000000
        @250 1 call 6 00000000 00000000 0000000e 00000000
        ==
        slot 0 lamp terminated 11 turns 90 restarts 0
        slot 1 voice terminated 0 turns 154 restarts 0
        leds 0100
        end done steps 247 time 251
    """),
    kept("crash", "a crash ends no other, and by the policy starts again twice, each time with fresh memory",
         "crash", "threshold", """
        step 1
        step 2
        step 1
        step 2
        step 1
        step 2
        ==
        slot 0 crash faulted store 00000000 no-region turns 702 restarts 2
        leds 0000
        end done steps 720 time 708
    """),
    kept("victim", "an application that keeps a secret, alone", "victim", "empty",
         VICTIMS + "==\n" + VICTIMS_LINE + """\
leds 0000
end done steps 2059 time 2368
"""),
    kept("spied", "beside a spy, whose tries are refused or denied, its text and its turns are the same",
         "spied", "empty", "refused four times\n" + VICTIMS + "==\n" + VICTIMS_LINE + """\
slot 1 spy faulted load 80000400 no-region turns 369 restarts 0
leds 0000
end done steps 2429 time 2645
"""),
    kept("lanes", "with time partitions each slot reads all that comes in, and draws the script's random words from "
         "the first",
         "lanes", "lanes", """
        hi
        hi
        443322118877
        443322118877
        ccbbaa99
        ccbbaa99
        ==
        slot 0 echo yielded turns 155 restarts 0
        slot 1 random terminated 1 turns 1133 restarts 0
        slot 2 echo yielded turns 155 restarts 0
        slot 3 random terminated 1 turns 1133 restarts 0
        leds 0000
        end done steps 2635 time 17641
    """),
    kept("beside-quiet", "under time partitions the victim has a slot's windows, here beside one that ends at once",
         "beside_quiet", "partition", VICTIMS + """\
==
slot 0 quiet terminated 0 turns 8 restarts 0
slot 1 victim terminated 0 turns 2044 restarts 0
leds 0000
end done steps 2128 time 32868
"""),
    kept("beside-hostile", "and here beside one that wants all time and the line, at the same times",
         "beside_hostile", "partition", MINE * 2 + VICTIM_SAYS + MINE + VICTIM_SAYS * 2 + MINE * 6 + """\
==
slot 0 hostile faulted store 80001000 no-region turns 7200 restarts 2
slot 1 victim terminated 0 turns 2044 restarts 0
leds 0000
end done steps 9516 time 120108
"""),
]

# Applications in the form of libtock-c's. What they print and which LEDs are lit follows from their sources; how many
# turns they take does not.
APPLICATIONS += [
    kept("hello", "a line by printf, in the form of libtock-c's c_hello", "hello", "empty", """
        Hello World!
        ==
        slot 0 hello terminated 0 turns .. restarts 0
        leds 0000
        end done steps .. time ..
    """),
    kept("lights", "the LEDs count in binary, and are at 3", "lights", "empty", """
        ==
        slot 0 lights running turns .. restarts 0
        leds 1100
        end turns steps 750 time ..
    """, turns=750),
    kept("buttons", "each press toggles the LED of its number: two of button 0, one of button 1",
         "buttons", "press", """
        ==
        slot 0 buttons yielded turns .. restarts 0
        leds 0100
        end done steps .. time ..
    """),
    kept("alarms", "two alarms of a period each, and one that comes once, by the one that a process has",
         "alarms", "empty", """
        fast 1
        fast 2
        slow 1
        fast 3
        fast 4
        fast is over
        slow 2
        ==
        slot 0 alarms terminated 4 turns .. restarts 0
        leds 0000
        end done steps .. time ..
    """),
    kept("dice", "twelve random bytes modulo 6, and the word of the error that says there are no more",
         "dice", "words", """
        1:  2
        2:  2
        3:  2
        4:  2
        5:  2
        6:  2
        no more: FAIL
        ==
        slot 0 dice terminated 0 turns .. restarts 0
        leds 0000
        end done steps .. time ..
    """),
    kept("answer", "a read that does not wait, and an alarm beside it; the number comes in in time",
         "answer", "number", """
        a number? 12 times 12 is 144
        ==
        slot 0 answer terminated 0 turns .. restarts 0
        leds 0000
        end done steps .. time ..
    """),
    kept("answer-too-late", "or nothing comes in", "answer", "empty", """
        a number? none came: FAIL
        ==
        slot 0 answer terminated 1 turns .. restarts 0
        leds 0000
        end done steps .. time ..
    """),
    kept("words", "malloc, stdio and floating point numbers of picolibc, and a table of texts, linked for one place",
         "words", "lines", """
        first: apple
        second: pear
        third: plum
        4.33 letters on average
        ==
        slot 0 words terminated 0 turns .. restarts 0
        leds 0000
        end done steps .. time ..
    """),
    kept("rust-hello", "in Rust: what core::fmt makes of numbers and values", "rust_hello", "empty", """
        Hello world!
            42 0xbeef 00000101 1099511627776
        Board { leds: 4, name: "simulated" }
        Milliseconds(7) Err(Invalid)
        there is an alarm
        ==
        slot 0 rust_hello terminated 0 turns .. restarts 0
        leds 0000
        end done steps .. time ..
    """),
    kept("rust-blink", "in Rust: all LEDs change six times, each a quarter of a second after the last",
         "rust_blink", "empty", """
        ==
        slot 0 rust_blink terminated 0 turns .. restarts 0
        leds 1000
        end done steps .. time ..
    """),
    kept("rust-lines", "in Rust: lines are read and sorted, by String, Vec and BTreeMap", "rust_lines", "lines", """
        longest: apple
        1 apple
        1 pear
        1 plum
        ==
        slot 0 rust_lines terminated 0 turns .. restarts 0
        leds 0000
        end done steps .. time ..
    """),
    kept("rust-buttons", "in Rust: an upcall that borrows from main, for as long as a scope lasts",
         "rust_buttons", "press", """
        button 0: Pressed
        button 0: Released
        button 0: Pressed
        button 1: Pressed
        ==
        slot 0 rust_buttons terminated 0 turns .. restarts 0
        leds 1100
        end done steps .. time ..
    """),
    kept("rust-alarms", "in Rust: two periods of their own, and an alarm that ends one of them",
         "rust_alarms", "empty", """
        fast 1
        fast 2
        slow 1
        fast 3
        fast 4
        fast is over
        slow 2
        ==
        slot 0 rust_alarms terminated 4 turns .. restarts 0
        leds 0000
        end done steps .. time ..
    """),
    kept("rust-clock", "in Rust: an alarm is awaited in a word that the kernel writes, without a yield",
         "rust_clock", "empty", """
        ==
        slot 0 rust_clock terminated 100 turns .. restarts 0
        leds 0000
        end done steps .. time ..
    """),
    kept("rust-panic", "in Rust: a panic says where and why, and exits with 101", "rust_panic", "words", """
        4 bytes: [ff, ff, ff, 44]
        panicked at rust_panic/main.rs:22:20:
        index out of bounds: the len is 6 but the index is 68
        ==
        slot 0 rust_panic terminated 101 turns .. restarts 0
        leds 0000
        end done steps .. time ..
    """),
]

# What examples/tour runs, in its order.
TOUR = ["greet", "echo-in-c", "blink", "clock", "doze", "press", "logger", "random-in-c", "crunch", "trespass",
        "applications-in-c", "permissions", "crash", "victim", "spied", "lanes", "beside-quiet", "beside-hostile",
        "hello", "lights", "buttons", "desk", "alarms", "dice", "answer", "words", "lost",
        "rust-hello", "rust-blink", "rust-lines", "rust-buttons", "rust-alarms", "rust-clock",
        "rust-panic"]
