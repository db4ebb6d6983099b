"""Checks of what docs/applications.md shows, and of what programs and libraries from elsewhere want of
examples/Makefile: libtock-c's names and words, POSIX functions, further files, and libraries of Debian's sources.
`checks` gives each with its name, for tests/run."""

import glob
import os
import re
import tempfile

import rust
from building import make, ran
from cases.case import REPOSITORY
from common import EXAMPLES, SCRIPTS, contents, run, write

# An application whose stack, heap and compiler are asked for by the words after make.
WORDS = r"""
#include <stdio.h>
#include <stdlib.h>

#ifndef NUMBER
#define NUMBER 0
#endif

int main(void)
{
    volatile char much[MUCH];
    much[0] = much[sizeof much - 1] = 1;
#ifdef __PICOLIBC__
    printf("%d ", malloc(MALLOC) != NULL);
#endif
    printf("%d %d\n", NUMBER, much[0]);
    return 0;
}
"""
# Words, and what it writes; None where the stack is too small for it.
ANSWERS = [
    (["CFLAGS=-DMUCH=1500"], "0 1\n"),
    (["CFLAGS=-DMUCH=3000"], None),
    (["CFLAGS=-DMUCH=3000 -DNUMBER=7", "STACK_SIZE=4096"], "7 1\n"),
    (["CFLAGS=-DMUCH=100", "OPT=-Og"], "0 1\n"),
    (["CFLAGS=-DMUCH=100", "OPT=-O0"], "0 1\n"),
]
ANSWERS_FIXED = [
    (["CFLAGS=-DMUCH=100 -DMALLOC=5000"], "0 0 1\n"),
    (["CFLAGS=-DMUCH=100 -DMALLOC=5000", "APP_HEAP_SIZE=6000"], "1 0 1\n"),
]

# What says that FIXED=1 helps, and what does not.
HINT = "own: C's whole library is there with picolibc: FIXED=1 after make"
HINTED = [("#include <math.h>\nint main(void) { return 0; }\n", True),
          ("#include <stdlib.h>\nvoid *malloc(size_t);\nint main(void) { return malloc(1) == 0; }\n", True),
          ("int main(void) { return none; }\n", False)]

# Names of libtock-c's; the last expectation does not hold. The clock goes past its 2^32 ticks meanwhile.
SOON = "start 4294966000\n"
NAMES = r"""
#include <stdio.h>
#include <sys/time.h>
#include <libtock/tock.h>
#include <libtock/services/alarm.h>
#include <libtock-sync/peripherals/rng.h>
#include <libtock-sync/services/alarm.h>
#include <libtock-sync/storage/nonvolatile_storage.h>

static void come(uint32_t now, uint32_t scheduled, void *opaque)
{
    *(uint32_t *)opaque = scheduled;
    TOCK_EXPECT(true, now - scheduled < 100);
}

static long tenths(const struct timeval *from, const struct timeval *to)
{
    return (to->tv_sec - from->tv_sec) * 10 + (to->tv_usec - from->tv_usec) / 100000;
}

int main(void)
{
    libtock_alarm_ticks_t alarm;
    uint32_t start, scheduled = 0;
    struct timeval first, last, before, after;
    TOCK_EXPECT(0, gettimeofday(&first, NULL));
    TOCK_EXPECT(true, libtock_nonvolatile_storage_exists() && libtocksync_nonvolatile_storage_exists());
    TOCK_EXPECT(true, libtocksync_rng_exists());
    libtock_alarm_command_read(&start);
    TOCK_EXPECT(RETURNCODE_SUCCESS, libtock_alarm_at(start, 2000, come, &scheduled, &alarm));
    while (scheduled == 0) {
        yield();
    }
    TOCK_EXPECT(2000, (int)(scheduled - start));
    TOCK_EXPECT(RETURNCODE_SUCCESS, libtock_alarm_gettimeasticks(&before, NULL));
    libtocksync_alarm_delay_ms(3500);
    TOCK_EXPECT(RETURNCODE_SUCCESS, libtock_alarm_gettimeasticks(&after, NULL));
    TOCK_EXPECT(0, gettimeofday(&last, NULL));
    printf("%ld %ld\n", tenths(&before, &after), tenths(&first, &last));
    TOCK_EXPECT(3, 4);
    return 0;
}
"""

# Functions of POSIX, one of them the application's own.
POSIX = r"""
#include <errno.h>
#include <fcntl.h>
#include <stdio.h>
#include <stdlib.h>
#include <string.h>
#include <sys/stat.h>
#include <sys/times.h>
#include <time.h>
#include <unistd.h>

int unlink(const char *path)
{
    return path[0] == 'o' ? 0 : -1;
}

static void tell(const char *what, long came)
{
    printf("%s %ld %s\n", what, came, came < 0 ? strerror(errno) : "");
    errno = 0;
}

int main(int count, char **words)
{
    struct stat status;
    struct tms spent;
    char line[20];
    printf("%d '%s' %d\n", count, words[0], words[1] == NULL);
    tell("open", open("none", O_RDONLY));
    tell("fopen", fopen("none", "r") == NULL);
    tell("close", close(1) + close(7));
    tell("lseek", lseek(1, 0, SEEK_SET));
    tell("isatty", isatty(0) + isatty(3));
    tell("fstat", fstat(2, &status) == 0 && S_ISCHR(status.st_mode));
    tell("stat", stat("none", &status));
    tell("rename", rename("one", "other"));
    tell("remove", remove("own"));
    tell("getenv", getenv("HOME") != NULL);
    tell("write", write(1, "text\n", 5));
    tell("read", read(0, line, sizeof line));
    write(2, line, 5);
    tell("read", read(0, line, 2));
    tell("time", time(NULL) >= 5 && clock() > CLOCKS_PER_SEC * 5 && times(&spent) > CLOCKS_PER_SEC * 5);
    return 0;
}
"""
POSIX_WRITES = """\
1 '' 1
open -1 No such file or directory
fopen 1 
close -1 Bad file number
lseek -1 Illegal seek
isatty 1 
fstat 1 
stat -1 No such file or directory
rename -1 No such file or directory
remove 0 
getenv 0 
text
write 5 
read 5 
pear
read 2 
time 1 
"""


def text_of(program, folder, *words, script="empty.script"):
    """What the application of a folder writes as it is built so; what the build says where it fails."""
    end = make(folder, *words)
    image = os.path.join(folder, "own", "own.bin")
    return end.stderr if end.returncode else ran(program, image, script=os.path.join(SCRIPTS, script))


def words(program, has_picolibc):
    """The words after make for stack, heap and compiler, by libtock-c's names too."""
    with tempfile.TemporaryDirectory() as folder:
        write(folder, "own/main.c", WORDS)
        fixed = [(["FIXED=1"] + given, answer) for given, answer in ANSWERS_FIXED if has_picolibc]
        for given, answer in ANSWERS + fixed:
            text = text_of(program, folder, *given)
            end = "==\nslot 0 own faulted store " if answer is None else answer + "==\nslot 0 own terminated 0 "
            if not text.startswith(end):
                return "%s: %r" % (given, text)
    return None


def hints(program):
    """Where the whole library is missing the build says how to have it, and says no such thing otherwise."""
    with tempfile.TemporaryDirectory() as folder:
        for source, is_hinted in HINTED:
            write(folder, "own/main.c", source)
            end = make(folder)
            if not end.returncode or (HINT in end.stderr) != is_hinted:
                return "%r: %s" % (source, end.stderr)
    return None


def names(program):
    """libtock-c's names that ask for more than the drivers' own calls."""
    with tempfile.TemporaryDirectory() as folder:
        write(folder, "own/main.c", NAMES)
        write(folder, "soon.script", SOON)
        text = text_of(program, folder, script=os.path.join(folder, "soon.script"))
    told = r"3[56] (5[5-9]|6[0-5])\n\S*/own/main.c:\d+: expected 3, got 4\n==\nslot 0 own terminated 1 "
    return None if re.match(told, text) else repr(text)


def posix(program):
    """Functions of POSIX know the console and the clock, and no files; an application's own are taken."""
    with tempfile.TemporaryDirectory() as folder:
        write(folder, "own/main.c", POSIX)
        text = text_of(program, folder, "FIXED=1", script="lines.script")
    return None if text.startswith(POSIX_WRITES + "==\nslot 0 own terminated 0 ") else repr(text)


ADDS = """
#include <add.h>
#include <times.h>
int main(void) { return times(add(1), 7); }
"""


def with_files(program):
    """WITH takes files and folders of C from elsewhere, with their headers; what is not there is told."""
    with tempfile.TemporaryDirectory() as folder:
        write(folder, "own/main.c", ADDS)
        write(folder, "adds/add.h", "int add(int);\n")
        write(folder, "adds/main.c", "int add(int number) { int unused; return number + 1; }\n")
        write(folder, "times/times.h", "int times(int, int);\n")
        write(folder, "times/times.c", "int times(int one, int other) { return one * other; }\n")
        write(folder, "times/main.c", "int main(void) { return 1; }\n")
        write(folder, "empty/read.me", "")
        adds, times = os.path.join(folder, "adds"), os.path.join(folder, "times", "times.c")
        end = make(folder, "WITH=%s %s" % (adds, times))
        text = end.stderr or ran(program, os.path.join(folder, "own", "own.bin"))
        if not text.startswith("==\nslot 0 own terminated 14 "):
            return text
        for path, said in (("none", "there is no such file or folder"), ("empty", "there are no C files")):
            end = make(folder, "WITH=" + os.path.join(folder, path))
            if not end.returncode or said not in end.stderr:
                return "%s: %s" % (path, end.stderr)
    return None


# Libraries of Debian's sources: where their C files lie, words after make, and an application that has them pack a text
# and unpack it again. zlib's gz functions want files, of which there are none.
LZ4 = r"""
#include <stdio.h>
#include <string.h>
#include <lz4.h>

int main(void)
{
    static char text[2000], packed[2100], unpacked[2000];
    for (int i = 0; i < 2000; i++) {
        text[i] = "pack and unpack "[i % 16];
    }
    int size = LZ4_compress_default(text, packed, sizeof text, sizeof packed);
    int whole = LZ4_decompress_safe(packed, unpacked, size, sizeof unpacked);
    printf("%d %d %d\n", size > 0 && size < 200, whole, memcmp(text, unpacked, sizeof text));
    return 0;
}
"""
ZLIB = r"""
#include <stdio.h>
#include <string.h>
#include <zlib.h>

int main(void)
{
    static char text[2000], packed[2100], unpacked[2000];
    for (int i = 0; i < 2000; i++) {
        text[i] = "pack and unpack "[i % 16];
    }
    z_stream stream = {.next_in = (void *)text, .avail_in = 2000, .next_out = (void *)packed, .avail_out = 2100};
    int code = deflateInit2(&stream, 9, Z_DEFLATED, 9, 1, Z_DEFAULT_STRATEGY) | (deflate(&stream, Z_FINISH) - 1);
    int size = stream.total_out;
    deflateEnd(&stream);
    stream = (z_stream){.next_in = (void *)packed, .avail_in = size, .next_out = (void *)unpacked, .avail_out = 2000};
    code |= inflateInit2(&stream, 9) | (inflate(&stream, Z_FINISH) - 1);
    printf("%d %d %d\n", size > 0 && size < 200, code ? code : (int)stream.total_out, memcmp(text, unpacked, 2000));
    printf("%d\n", gzopen("none", "rb") == NULL);
    return 0;
}
"""
LIBRARIES = [("lz4", "lib", ["STACK=24576"], LZ4, "1 2000 0\n"), ("zlib", "", ["HEAP=32768"], ZLIB, "1 2000 0\n1\n")]

# What Lua writes for examples/scripts/lua.script.
LUA_WRITES = """\
Lua 5.4.%s
> Lua 5.4	42	1.4142135623731
> > >> > > fox,quick,the	6
> >> > 55
> nil	none: No such file or directory	2
> stdin:1: no
stack traceback:
	[C]: in function 'error'
	stdin:1: in main chunk
	[C]: in ?
> ==
slot 0 lua terminated 3 """


def sources_of(name):
    """Where a package's sources were unpacked; nothing where they are not there."""
    places = [os.path.join(EXAMPLES, "out", name + "-[0-9]*", ""), os.path.join("/usr/src", name + "-[0-9]*", "")]
    return next((found for place in places for found in sorted(glob.glob(place))), "")


def library(program, name, below, given, source, answer):
    """A library of Debian's sources links without a line of one's own, and works."""
    with tempfile.TemporaryDirectory() as folder:
        write(folder, "own/main.c", source)
        text = text_of(program, folder, "FIXED=1", "WITH=" + os.path.join(sources_of(name), below), *given)
    return None if text.startswith(answer + "==\nslot 0 own terminated 0 ") else repr(text)


def lua(program):
    """Lua's prompt is built of Debian's sources, and answers what a person types."""
    with tempfile.TemporaryDirectory() as folder:
        end = run(["make", "-C", EXAMPLES, "lua", "OUT=" + folder, "LUA=" + os.path.join(sources_of("lua5.4"), "src")],
                  timeout=600)
        if end.returncode:
            return end.stderr
        words = [program, "boot", os.path.join(folder, "lua.bin"), os.path.join(SCRIPTS, "lua.script")]
        text = run(words + ["--turns", "3000000"]).stdout
    pattern = re.escape(LUA_WRITES).replace("%s", ".*")
    return None if re.match(pattern, text) else repr(text)


def no_lua():
    """Without Lua's sources the Makefile says how to come by them."""
    end = run(["make", "-C", EXAMPLES, "lua", "LUA=/none"])
    said = "there are no sources of Lua: on Debian, apt-get source lua5.4;"
    return None if end.returncode and said in end.stderr else end.stderr


# What the programs of docs/applications.md write that one has from an empty folder by a few lines, in their order, each
# with what it wants besides the compiler for RISC-V: picolibc, or Rust's compiler.
DOCUMENTED = [
    ("", "hello\n==\nslot 0 mine terminated 0 "),
    ("picolibc", "1.414\n==\nslot 0 mine terminated 0 "),
    ("rust", "button 0: Released\nbutton 0: Pressed\nbutton 1: Pressed\n==\nslot 0 mine terminated 0 ")]


def documented(program, there):
    """What docs/applications.md shows works as it stands there: six lines for each language, and an alarm that keeps
    its time."""
    page = contents(os.path.join(REPOSITORY, "docs", "applications.md")).decode()
    blocks = re.findall(r"^    mkdir mine\n(?:    .*\n)+", page, re.M)
    if len(blocks) != len(DOCUMENTED) or any(block.count("\n") > 6 for block in blocks):
        return "%d blocks: %s" % (len(blocks), blocks)
    for block, (wants, answer) in zip(blocks, DOCUMENTED):
        with tempfile.TemporaryDirectory() as folder:
            os.symlink(EXAMPLES, os.path.join(folder, "examples"))
            os.symlink(program, os.path.join(folder, "tock"))
            end = run(["sh", "-ec", block], cwd=folder, timeout=600) if wants in there else None
        if end and (answer not in end.stdout or end.stderr):
            return "%s: %s%s" % (block, end.stdout, end.stderr)
    program_shown = re.search(r"^    // LED 0 changes .*\n(?:\n|    .*\n)+", page, re.M)[0]
    with tempfile.TemporaryDirectory() as folder:
        write(folder, "own/main.c", re.sub("^    ", "", program_shown, flags=re.M))
        text = make(folder, "TICKS_PER_MS=1000").stderr or ran(program, os.path.join(folder, "own", "own.bin"))
    changes = "".join("change %d\n" % time for time in range(1, 11))
    told = re.match(changes + r"==\nslot 0 own terminated 0 .*\nleds 0000\nend done steps \d+ time (\d+)\n$", text)
    return None if told and 1000000 <= int(told[1]) < 1002000 else repr(text)


def checks(program, has_compiler, has_picolibc):
    """Each check with its name."""
    found, missing = [("lua-missing", no_lua)], []
    if has_compiler:
        found += [("words-after-make", lambda: words(program, has_picolibc)), ("hints", lambda: hints(program)),
                  ("names", lambda: names(program)), ("with-files", lambda: with_files(program))]
    there = ["", "picolibc"][:1 + has_picolibc] + ["rust"] * (rust.version() != "")
    found += [("documented", lambda: documented(program, there))] * has_compiler
    found += [("posix", lambda: posix(program))] * has_picolibc
    for name, check in [("lua5.4", lambda: lua(program))] + [
            (row[0], lambda row=row: library(program, *row)) for row in LIBRARIES]:
        is_there = has_picolibc and sources_of(name)
        (found if is_there else missing).append((name + "-from-debian", check))
    if missing:
        print("%s: not tried without picolibc and Debian's sources in examples/out" % ", ".join(dict(missing)))
    return found
