"""Checks of what builds applications and scripts: examples/Makefile with its C library and picolibc, examples/pack, and
tools/script. `checks` gives each with its name, for tests/run."""

import os
import re
import shutil
import subprocess
import tempfile

from cases.programs import CODE_7, EXIT_7
from common import EXAMPLES, REPOSITORY, SCRIPTS, TOCK, contents, run, write
from flash_images import (FLASH, RAM, app, fixed_addresses_tlv, padding, permissions_tlv, program_tlv, tbf,
                          writeable_flash_regions_tlv)

EMPTY = os.path.join(SCRIPTS, "empty.script")

# What examples/pack refuses, with a part of what it says.
BAD_PACKS = [
    (["a b", "256", "program"], "a name has 1 to 32 visible letters of ASCII"),
    (["n" * 33, "256", "program"], "a name has 1 to 32 visible letters of ASCII"),
    (["name", "much", "program"], "RAM is no number: much"),
    (["name", "258", "program"], "RAM is no multiple of 4: 258"),
    (["name", "262148", "program"], "RAM is not from 0 to 262144: 262148"),
    (["name", "256", "none"], "none: No such file or directory"),
    (["name", "256", "empty"], "empty: a program has 1 to 1048576 bytes, and this one 0"),
    (["name"], "examples/pack NAME RAM PROGRAM OBJECT"),
]

# The same of the words behind these.
BAD_ELEMENTS = [
    ("1", "a permission is DRIVER:COMMAND: 1"),
    ("1:x", "a command is no number: x"),
    ("region=64", "a region is OFFSET:SIZE: 64"),
    ("region=0:4294967296", "a size is not from 0 to 4294967295: 4294967296"),
    ("fixed=0", "fixed addresses are RAM:FLASH: 0"),
    ("flash=0:0", "neither region= nor fixed=: flash=0:0"),
]

NOT_FOR_ELF2TAB = "own: permissions, regions and FIXED are for ./pack, not for elf2tab"

# An application of two files with static variables of both kinds, and calls of C's library.
MAIN = r"""
#include "console.h"
#include <string.h>

struct block { int words[40]; };
static struct block first = {{1, 2, 3}}, second;
static uint64_t wide = 1000000000000;
static char bytes[SIZE];
extern int times_seven(int);

int main(void)
{
    second = first;
    struct block third = second;
    memset(bytes, 7, sizeof bytes);
    memmove(bytes + 1, bytes, 100);
    wide /= (uint32_t)times_seven(third.words[2]);
    console_print(memcmp(&second, &first, sizeof second) ? "differ\n" : "same\n");
    return (int)(wide % 1000) + bytes[sizeof bytes - 1];
}
"""
SEVEN = "int times_seven(int number) { static int sum; sum += number; return sum * 7; }\n"

# The same with what has an address in it: a table of texts, one of functions, a pointer with a first value. Code that
# has one is for no compiler.
FIXED_CODE = """
int times_seven(int number)
{
    int high;
    __asm__("lui %0, %%hi(times_seven)" : "=r"(high));
    return high != 0 ? number * 7 : 0;
}
"""
TABLES = """
static const char *const names[] = {"a", "b"};
static int plus(int number) { return number + 1; }
static int minus(int number) { return number - 1; }
static int (*const changes[])(int) = {plus, minus};
static int sum;
int *counted = &sum;
int times_seven(int number)
{
    *counted += number;
    return changes[number & 1](sum * 7) + names[number & 1][0] - 'a';
}
"""


def make(folder, *words):
    """Builds the application of a folder."""
    return run(["make", "-C", EXAMPLES, "APP=" + os.path.join(folder, "own"), *words], timeout=600)


def ran(program, *images, script=EMPTY):
    """What a run of these images, put together, writes."""
    with tempfile.TemporaryDirectory() as folder:
        flash = os.path.join(folder, "flash")
        with open(flash, "wb") as file:
            file.write(b"".join(contents(image) for image in images))
        return run([program, "boot", flash, script, "--turns", "1000000"]).stdout


def packed_for(flash, entries):
    """The object with two regions whose program begins at a multiple of 16 where the object begins at that place of
    flash, and how many bytes stand before it."""
    def told(*fixed):
        return [writeable_flash_regions_tlv((64, 16), (96, 8)), fixed_addresses_tlv(RAM, *fixed), entries]

    before = len(app(name="name", elements=told()))
    if flash == "-":
        return app(b"a program!", name="name", elements=told()), before
    start = (int(flash, 16) + before + 15) // 16 * 16
    fill = start - int(flash, 16) - before
    return app(bytes(fill), b"a program!", name="name", elements=told(start), entry=fill, protected=fill), before + fill


def pack():
    """examples/pack makes the object of its words, and refuses words that are wrong."""
    with tempfile.TemporaryDirectory() as folder:
        write(folder, "program", "a program!")
        write(folder, "empty", "")
        tool, made = os.path.join(EXAMPLES, "pack"), os.path.join(folder, "object")
        entries = permissions_tlv((1, 0, 10), (1, 1, 1), (2, 0, 1))
        run([tool, "name", "256", "program", "object", "0x1:1", "2:0", "0x1:3", "1:64"], cwd=folder)
        if contents(made) != app(b"a program!", name="name", elements=[entries]):
            return "made %r" % contents(made)
        for flash in ("-", "0x20000000", "0x20000344"):
            words = ["2:0", "region=0x40:16", "0x1:1", "fixed=0x80000000:" + flash, "0x1:3", "region=0x60:8", "1:64"]
            run([tool, "name", "256", "program", "object", *words], cwd=folder)
            expected, before = packed_for(flash, entries)
            header = run([tool, "--header", "name", *words], cwd=folder).stdout
            if contents(made) != expected or header != "%d\n" % before:
                return "made %r with a header of %s" % (contents(made), header)
        bad = BAD_PACKS + [(["name", "256", "program", "other", word], said) for word, said in BAD_ELEMENTS]
        for words, said in bad:
            end = run([tool] + words + ["other"] * (len(words) == 3), cwd=folder)
            if end.returncode != 1 or said not in end.stderr or os.path.exists(os.path.join(folder, "other")):
                return "%s: %d, %r" % (words, end.returncode, end.stderr)
    return None


def missing_tools():
    """Where there is no compiler, or no picolibc, the Makefile says how to come by one."""
    with tempfile.TemporaryDirectory() as folder:
        write(folder, "own/main.c", SEVEN)
        end = make(folder, "TOOLCHAIN=none-")
        if end.returncode == 0 or "there is no none-gcc: on Debian, apt-get install" not in end.stderr:
            return end.stderr
        write(folder, "fake-gcc", "#!/bin/sh\necho picolibc.specs\n", 0o755)
        end = make(folder, "TOOLCHAIN=" + os.path.join(folder, "fake-"), "FIXED=1")
    said = "there is no picolibc: on Debian, apt-get install picolibc-riscv64-unknown-elf"
    return None if end.returncode and said in end.stderr else end.stderr


def own_application(program):
    """Any application is built: with static variables, C's library, several files, tables of addresses whatever the
    compiler makes of them; a stack that is too small is found out; and code that depends on where it lies is refused,
    by its name."""
    with tempfile.TemporaryDirectory() as folder:
        write(folder, "own/main.c", MAIN.replace("SIZE", "1500"))
        write(folder, "own/seven.c", SEVEN)
        image = os.path.join(folder, "own", "own.bin")
        for words, said in (([], "same\n==\nslot 0 own terminated 626 "),
                            (["STACK=16"], "==\nslot 0 own faulted store 7ffff")):
            end = make(folder, *words)
            if end.returncode or not ran(program, image).startswith(said):
                return "%s: %r, %r" % (words, end.stderr, ran(program, image))
        write(folder, "own/seven.c", TABLES)
        for words in ([], ["OPT=-O0"], ["OPT=-O2", "STACK=1024"]):
            end = make(folder, *words)
            text = end.stderr or ran(program, image, image)
            if not re.match(r"(same\n){2}==\n(slot [01] own terminated 626 .*\n){2}leds", text):
                return "tables: %s: %r" % (words, text)
        write(folder, "own/seven.c", FIXED_CODE)
        end = make(folder)
        said = "own: times_seven holds the address of times_seven, and nothing relocates it\nown: its bytes depend on"
        if end.returncode == 0 or said not in end.stderr or "FIXED=1" not in end.stderr:
            return "what holds an address: %r" % end.stderr
        write(folder, "own/seven.c", TABLES)
        write(folder, "own/main.c", MAIN.replace("SIZE", "1900"))
        end = make(folder)
        if end.returncode == 0 or "static variables may have 2,000 bytes in all: FIXED=1 has no" not in end.stderr:
            return "too many static variables: %r" % end.stderr
    return None


def placed_program():
    """A program that is linked for one place by itself, for a debugger, has the same bytes; and the debugger is started
    on an application by its name."""
    with tempfile.TemporaryDirectory() as folder:
        write(folder, "own/main.c", MAIN.replace("SIZE", "1500"))
        write(folder, "own/seven.c", SEVEN)
        end = make(folder)
        end = end if end.returncode else make(folder, "own.placed.elf", "FLASH_AT=0x20000028", "RAM_AT=0x80000400")
        if end.returncode:
            return end.stderr
        out = os.path.join(folder, "own", "out")
        run(["riscv64-unknown-elf-objcopy", "-O", "binary", os.path.join(out, "own.placed.elf"),
             os.path.join(out, "placed")])
        symbols = run(["riscv64-unknown-elf-nm", os.path.join(out, "own.placed.elf")]).stdout
        if contents(os.path.join(out, "placed")) != contents(os.path.join(out, "own.program")):
            return "other bytes"
        end = make(folder, "-n", "own.debug", "SCRIPT=" + os.path.join(SCRIPTS, "hi.script"))
    debug = "../tools/debug %s/own.tbf %s/hi.script --slot 0 %s/own.elf" % (out, SCRIPTS, out)
    if debug not in end.stdout:
        return "not started: %s%s" % (end.stdout, end.stderr)
    return None if "20000028 T _start" in symbols else symbols


def fixed_application(program):
    """With FIXED=1 tables of addresses, any size of static variables, permissions and regions work, at the first place
    and behind another object; at another place the object is refused."""
    with tempfile.TemporaryDirectory() as folder:
        write(folder, "own/main.c", MAIN.replace("SIZE", "20000"))
        write(folder, "own/seven.c", TABLES)
        write(folder, "own/permissions", "0x1:1\n")
        write(folder, "own/regions", "0:64 64:32\n")
        before = EXIT_7 + padding(20)
        with open(os.path.join(folder, "other"), "wb") as file:
            file.write(before)
        image, other = os.path.join(folder, "own", "own.bin"), os.path.join(folder, "other")
        for words, images, slot in (([], [image], 0), (["STACK=4096"], [image], 0),
                                    (["FLASH=0x%x" % (FLASH + len(before)), "RAM=0x%x" % (RAM + 0x2000)],
                                     [other, image], 1)):
            end = make(folder, "FIXED=1", *words)
            if end.returncode:
                return "%s: %s" % (words, end.stderr)
            text = ran(program, *images)
            if "same\n" not in text or "\nslot %d own terminated " % slot not in text:
                return "%s: %r" % (words, text)
        text = ran(program, image)
    return None if "slot" not in text and "own" not in text else "at another place: %r" % text


def behind_another(program):
    """An application is linked for the place behind another one by what the list tells of that, and TOCK_PLACES=1; it
    has footers, which no code is."""
    other = tbf([program_tlv(40 + len(CODE_7))], CODE_7 + bytes(20))
    environment = dict(os.environ, TOCK_PROGRAM=program, TOCK_PLACES="1")
    with tempfile.TemporaryDirectory() as folder:
        image = os.path.join(folder, "other")
        with open(image, "wb") as file:
            file.write(other)
        write(folder, "own/main.c", MAIN.replace("SIZE", "20000"))
        write(folder, "own/seven.c", TABLES)
        listed = run([TOCK, "list", image], env=environment).stdout
        told = run([TOCK, "boot", image, EMPTY, "--turns", "0"], env=environment).stderr
        start, size = map(int, re.match(r"object (\d+) (\d+) app ", listed).groups())
        words = ["FIXED=1", "RAM=" + re.search(r" RAM from \S+ to (\S+),", told)[1]]
        code_end = int(re.search(r" code from \S+ to (\S+)", told)[1], 16)
        for place, is_run in ((FLASH + start + size, True), (code_end, False)):
            end = make(folder, *words, "FLASH=0x%x" % place)
            text = end.stderr if end.returncode else ran(program, image, os.path.join(folder, "own", "own.bin"))
            if ("\nslot 1 own terminated " in text) != is_run or end.returncode:
                return "0x%x: %s" % (place, text)
    return None


# Stands in for elf2tab: it keeps its words, and writes an object beside the program, its last word.
ELF2TAB = """#!/bin/sh
echo "$*" >"%s/words"
for last; do :; done
cp "%s" "${last%%.elf}.tbf"
"""


def elf2tab(program, has_picolibc):
    """ELF2TAB= packs an application by elf2tab, with the words that it takes; one that this cannot pack is refused."""
    with tempfile.TemporaryDirectory() as folder:
        exit_7, tool, kept = (os.path.join(folder, name) for name in ("exit7", "elf2tab", "words"))
        with open(exit_7, "wb") as file:
            file.write(EXIT_7)
        write(folder, "elf2tab", ELF2TAB % (folder, exit_7), 0o755)
        write(folder, "own/main.c", SEVEN + "int main(void) { return times_seven(1); }\n")
        end = make(folder, "ELF2TAB=" + tool, "STACK=512")
        out = os.path.join(folder, "own", "out")
        words = "-n own -o %s/own.tab --stack 512 --app-heap 0 --kernel-heap 0 %s/own.elf\n" % (out, out)
        if end.returncode or contents(kept).decode() != words or contents(out + "/own.elf")[:4] != b"\x7fELF":
            return "elf2tab got %r: %s" % (contents(kept) if os.path.exists(kept) else None, end.stderr)
        if contents(os.path.join(folder, "own", "own.bin")) != EXIT_7:
            return "the image is not what elf2tab wrote"
        os.remove(kept)
        for name, text, more in (("permissions", "1:1", []), ("regions", "0:64", []), ("none", "", ["FIXED=1"])):
            write(folder, "own/" + name, text)
            end = make(folder, "-B", "ELF2TAB=" + tool, *more) if has_picolibc or not more else None
            os.remove(os.path.join(folder, "own", name))
            if end and (not end.returncode or NOT_FOR_ELF2TAB not in end.stderr or os.path.exists(kept)):
                return "%s: %s" % (name, end.stderr)
    return None


def other_folders(program):
    """IMAGES= names a folder that need not be there, and gets the images; a debugger and a session at the board are
    started without one written there."""
    with tempfile.TemporaryDirectory() as folder:
        images, out = os.path.join(folder, "new", "images"), os.path.join(folder, "out")
        words = ["make", "-C", EXAMPLES, "IMAGES=" + images, "OUT=" + out, "TOCK=" + program]
        end = run(words + [os.path.join(images, name + ".bin") for name in ("lamp", "permissions")])
        if end.returncode or not contents(os.path.join(images, "permissions.bin")).startswith(
                contents(os.path.join(images, "lamp.bin"))):
            return end.stderr or "permissions.bin does not begin with lamp.bin"
        for name, begins in (("lost.debug", "debug %s/lost.tbf "), ("lanes.live", "live %s/lanes.bin "),
                             ("lost.live", "live %s/lost.bin ")):
            end = run(["make", "-n", "-C", EXAMPLES, "OUT=" + out, name])
            if end.returncode or "../tools/" + begins % out not in end.stdout or "images/" in end.stdout:
                return "%s: %s%s" % (name, end.stdout, end.stderr)
    return None


def by_this_machine(source):
    """What a C file of tests/ writes by the C library of this machine."""
    with tempfile.TemporaryDirectory() as folder:
        program = os.path.join(folder, "program")
        subprocess.run(["cc", "-w", "-std=gnu11", "-o", program, os.path.join(REPOSITORY, "tests", source), "-lm"],
                       check=True)
        return run([program]).stdout


def by_the_board(program, source, *words):
    """What it writes as an application that is built so, and the report."""
    with tempfile.TemporaryDirectory() as folder:
        os.mkdir(os.path.join(folder, "own"))
        shutil.copy(os.path.join(REPOSITORY, "tests", source), os.path.join(folder, "own", "main.c"))
        end = make(folder, *words)
        return end.stderr if end.returncode else ran(program, os.path.join(folder, "own", "own.bin"))


def library(program, has_picolibc):
    """What calls of string.h, stdlib.h and printf write is the same by the C library of this machine, by the one of
    examples/ and by picolibc."""
    expected = by_this_machine("library.c") + "==\nslot 0 own terminated 0 "
    texts = [by_the_board(program, "library.c", *words) for words in [[], ["FIXED=1"]][:1 + has_picolibc]]
    wrong = [text for text in texts if not text.startswith(expected)]
    return repr(wrong[0]) if wrong else None


def picolibc(program):
    """So is what floating point numbers, memory and texts come to by picolibc; an assertion that fails ends the process
    with the code 134."""
    text, expected = by_the_board(program, "picolibc.c", "FIXED=1"), by_this_machine("picolibc.c")
    is_told = re.search(r'^assertion "argc == -1" failed: .*\n==\nslot 0 own terminated 134 ', text, re.M)
    return None if text.startswith(expected) and expected and is_told else repr(text)


def alarms(program):
    """Alarms that are set, cancelled and waited for inside the functions of others come as tests/alarms.c says."""
    text = by_the_board(program, "alarms.c")
    return None if text.startswith("1a2bc3d40e-1g\n==\nslot 0 own terminated 0 ") else repr(text)


# An alarm every 100 ms that prints a line each time, and how many ms it is since the first was set; then a delay.
EVERY_100_MS = r"""
#include <stdio.h>
#include <libtock-sync/services/alarm.h>

static libtock_alarm_repeating_t alarm;
static uint32_t start, frequency, end;
static int times;

static void tell(uint32_t now, uint32_t scheduled, void *opaque)
{
    (void)scheduled, (void)opaque;
    times++;
    printf("%d at %lu\n", times, (unsigned long)libtock_alarm_ticks_to_ms(now - start));
}

int main(void)
{
    libtock_alarm_command_read(&start);
    libtock_alarm_repeat_every_ms(100, tell, NULL, &alarm);
    while (times < 40) {
        yield();
    }
    libtock_alarm_repeating_cancel(&alarm);
    libtock_alarm_command_read(&start);
    libtocksync_alarm_delay_ms(5000);
    libtock_alarm_command_read(&end);
    libtock_alarm_command_get_frequency(&frequency);
    printf("%lu s, %d\n", (unsigned long)((end - start) / frequency), libtock_alarm_ms_to_ticks(4294968) == UINT32_MAX);
    return 0;
}
"""


def milliseconds(program):
    """With TICKS_PER_MS=1000 an alarm every 100 ms keeps its time though it prints, and so do those of alarms, to the
    tenth second; a number that is none is refused."""
    with tempfile.TemporaryDirectory() as folder:
        shutil.copytree(os.path.join(EXAMPLES, "apps", "alarms"), os.path.join(folder, "own"))
        end = make(folder, "TICKS_PER_MS=1000")
        text = end.stderr or ran(program, os.path.join(folder, "own", "own.bin"))
        time = re.match(r"(\w+ \w+\n){5}fast is over\nslow 2\n==\n.*\n.*\nend done steps \d+ time (\d+)\n$", text)
        if not time or not 10000000 <= int(time[2]) < 10005000:
            return repr(text)
        write(folder, "own/main.c", EVERY_100_MS)
        end = make(folder, "TICKS_PER_MS=1000")
        text = end.stderr or ran(program, os.path.join(folder, "own", "own.bin"))
        if not text.startswith(every_100_ms(40) + "5 s, 1\n==\nslot 0 own terminated 0 "):
            return repr(text)
        for number in ("0", "01", "x", "1000000", "1 2"):
            end = make(folder, "TICKS_PER_MS=" + number)
            if not end.returncode or "TICKS_PER_MS=%s: it is no number from 1 to 999999" % number not in end.stderr:
                return "%s: %s" % (number, end.stderr)
    return None


def every_100_ms(times):
    """What such an alarm prints."""
    return "".join("%d at %d\n" % (time, 100 * time) for time in range(1, times + 1))


# Lines that tools/script reads, and the script that it writes.
TYPED = r"""# what a person does
buttons 2
2s type hello world
100 type apple
+50 send a\x00b\n
300ms tap 1
+1 tap 0 5
1000 terminate echo
900 type 01234567890123456789012345678901234567890123456789012345678901234567890123456789 é
+0 press 0
ticks-per-ms 1000
5ms press 0
1s tap 1
4000 tap 1
"""
SCRIPT = """# what a person does
buttons 2
at 100 input 6170706c650a
at 150 input 6100620a
at 300 press 1
at 301 press 0
at 306 release 0
at 400 release 1
at 900 input %s
at 900 input %s
at 900 press 0
at 1000 do terminate echo
at 2000 input 68656c6c6f20776f726c640a
at 4000 press 1
at 5000 press 0
at 104000 release 1
at 1000000 press 1
at 1100000 release 1
""" % ((b"0123456789" * 6 + b"0123").hex(), ("4567890123456789 é\n".encode()).hex())

# Lines that it refuses, and a part of what it says.
BAD_LINES = [
    ("5 tipe x", "line 1: this is neither type, send, press, release, tap nor an operator's act: tipe"),
    ("\nAt 5", "line 2: this is neither a time with what is done then, nor a setting: At 5"),
    ("leds 4\ntype hello", "line 2: this is neither a time with what is done then, nor a setting: type hello"),
    ("ledz 4", "line 1: this is neither a time with what is done then, nor a setting: ledz 4"),
    ("release 0", "line 1: this is neither a time with what is done then, nor a setting: release 0"),
    ("at 5 input 41", "line 1: this is neither a time with what is done then, nor a setting: at 5 input 41"),
    ("leds 4\n5 type \udcff", "line 2: it is not UTF-8"),
    ("# \udce9", "line 1: it is not UTF-8"),
    ("5 send \\q", "line 1: this is no escape: \\q"),
    ("5 send", "line 1: there is no text"),
    ("5 press a", "line 1: press wants the number of a button"),
    ("5 tap", "line 1: tap wants the number of a button, and may have ticks"),
    ("5 stop a b", "line 1: stop wants the name of a process"),
    ("ticks-per-ms 0", "line 1: ticks-per-ms wants a number from 1 to 999999"),
    ("ticks-per-ms", "line 1: ticks-per-ms wants a number from 1 to 999999"),
    ("4294968s type x", "line 1: a time is at most 4294967295 ticks"),
]


def settings():
    """A line for each setting that the manual has a row for, and lines that say nothing."""
    manual = contents(os.path.join(REPOSITORY, "docs", "manual.md")).decode()
    table = re.search(r"^\| Line \| Says \|.*\n((?:\|.*\n)+)", manual, re.M)[1]
    lines = [line for row in table.split("\n") for line in re.findall("`([^`]+)`", (row + " | ").split(" | ")[0])]
    return "".join(line + "\n" for line in lines if not line.startswith("at ")) + "  # a comment\n \t\n leds 4\n"


def typed_in_manual():
    """The lines that the manual shows of what a person does."""
    manual = contents(os.path.join(REPOSITORY, "docs", "manual.md")).decode()
    shown = re.search(r"^writes a script of lines with a time.*$", manual, re.M)[0]
    return [line for line in re.findall("`([^`]*)`", shown) if "/" not in line]


def scripts():
    """tools/script makes a script of what a person does, and says what is wrong; those of examples/ are made by it."""
    tool = os.path.join(REPOSITORY, "tools", "script")
    for typed, script in ((TYPED, SCRIPT), (settings(), settings())):
        end = run([tool], input=typed)
        if (end.returncode, end.stdout, end.stderr) != (0, script, ""):
            return "made %r, %r" % (end.stdout, end.stderr)
    for line in typed_in_manual():
        end = run([tool], input=line)
        if end.returncode:
            return "%s, of the manual: %s" % (line, end.stderr)
    for line, said in BAD_LINES:
        for language in ("C.UTF-8", "C"):
            end = run([tool], input=line + "\n", errors="surrogateescape", env=dict(os.environ, LC_ALL=language))
            if (end.returncode, end.stdout, end.stderr.count("\n")) != (1, "", 1) or said not in end.stderr:
                return "%s: %d, %r" % (line, end.returncode, end.stderr)
    for name in os.listdir(SCRIPTS):
        if name.endswith(".typed"):
            made = run([tool, os.path.join(SCRIPTS, name)]).stdout
            if made != contents(os.path.join(SCRIPTS, name.replace(".typed", ".script"))).decode():
                return "%s makes %r" % (name, made)
    end = run([tool, "none"])
    return None if end.returncode == 1 and "none: No such file or directory" in end.stderr else end.stderr


def checks(program, has_compiler, has_picolibc):
    """Each check with its name."""
    found = [("pack", pack), ("missing-tools", missing_tools), ("scripts", scripts)]
    if has_compiler:
        found += [("own-application", lambda: own_application(program)), ("placed-program", placed_program),
                  ("alarms-in-alarms", lambda: alarms(program)), ("milliseconds", lambda: milliseconds(program)),
                  ("elf2tab", lambda: elf2tab(program, has_picolibc)),
                  ("other-folders", lambda: other_folders(program))]
    if has_picolibc:
        found += [("fixed-application", lambda: fixed_application(program)),
                  ("behind-another", lambda: behind_another(program))]
    else:
        print("fixed-application, behind-another: not tried without picolibc")
    if has_compiler and shutil.which("cc"):
        found.append(("library", lambda: library(program, has_picolibc)))
        found += [("picolibc", lambda: picolibc(program))] * has_picolibc
    else:
        print("library, picolibc: not tried without both compilers, cc and the one for RISC-V")
    return found
