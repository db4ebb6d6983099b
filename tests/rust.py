"""Checks of applications in Rust: examples/rust with examples/Makefile. `checks` gives each with its name, for
tests/run."""

import os
import re
import shutil
import tempfile

from building import every_100_ms, ran
from cases.applications import APPLICATIONS
from cases.case import REPOSITORY
from common import EXAMPLES, SCRIPTS, contents, run, write
from flash_images import permissions_tlv

TARGET = "riscv32imc-unknown-none-elf"

# An application of two files: formatted lines, a static variable, an alarm, the heap, its places in memory, and a call
# that is refused.
MAIN = """\
#![no_main]
#![no_std]

extern crate alloc;

mod numbers;

use libtock::alarm::{Alarm, Milliseconds};
use libtock::leds::Leds;
use libtock::platform::{ErrorCode, Syscalls};
use libtock::runtime::{set_main, stack_size, TockSyscalls};
use libtock::{memory, println};

set_main! {main}
stack_size! {0x1000}

#[global_allocator]
static HEAP: libtock::heap::Heap = libtock::heap::Heap::new();

fn main() -> Result<(), ErrorCode> {
    Alarm::sleep_for(Milliseconds(10))?;
    println!("{:?} {:.1}", numbers::squares(4), 0.5);
    let (block, object, region) = (memory::block()?, memory::object()?, memory::region(1)?);
    let (heap, code) = (&raw const HEAP as u32, main as fn() -> Result<(), ErrorCode> as u32);
    let broken = unsafe { TockSyscalls::memop_sbrk(-16)? - TockSyscalls::memop_sbrk(0)? };
    println!("{} {} {}", block.contains(&heap), object.contains(&code), block.contains(&memory::grants()?));
    println!("{} {} {} {broken}", region.start - object.start, region.end - region.start, memory::region_count()?);
    Leds::on(99)
}
"""
NUMBERS = """\
pub fn squares(count: u32) -> alloc::vec::Vec<u32> {
    (0..count).map(|number| number * number).collect()
}
"""

# One that may lie anywhere, with static variables of both kinds, and with the tables of addresses that formatting
# wants; and one that has more static variables than that allows.
ANYWHERE = """\
#![no_main]
#![no_std]

use core::sync::atomic::{AtomicU32, Ordering};
use libtock::runtime::{set_main, stack_size};

set_main! {main}
stack_size! {0x200}

static FIRST: AtomicU32 = AtomicU32::new(3);
static SECOND: AtomicU32 = AtomicU32::new(0);

fn main() -> u32 {
    SECOND.store(FIRST.load(Ordering::Relaxed) * 2, Ordering::Relaxed);
    let _ = libtock::console::Console::write(b"anywhere\\n");
    SECOND.load(Ordering::Relaxed)
}
"""
WRITE = 'let _ = libtock::console::Console::write(b"anywhere\\n");'
FORMATTED = ANYWHERE.replace(WRITE, 'libtock::println!("any{:?}", "where");')
LARGE = ANYWHERE.replace(WRITE, "core::hint::black_box(&MORE);") + """
static MORE: [AtomicU32; 600] = [const { AtomicU32::new(0) }; 600];
"""


# An alarm every 100 ms that prints a line each time, and how many ms it is since the first was set; then a delay.
EVERY_100_MS = """\
#![no_main]
#![no_std]

use core::cell::Cell;
use libtock::alarm::{Alarm, Milliseconds, OnAlarm, Timer};
use libtock::platform::{share, ErrorCode, Syscalls};
use libtock::println;
use libtock::runtime::{set_main, stack_size, TockSyscalls};

set_main! {main}
stack_size! {0x400}

fn main() -> Result<(), ErrorCode> {
    let (times, start) = (Cell::new(0), Alarm::get_milliseconds()?);
    let tell = |_, _| {
        times.set(times.get() + 1);
        println!("{} at {}", times.get(), Alarm::get_milliseconds().unwrap() - start);
    };
    share::scope::<OnAlarm<_>, _, _>(|handle| {
        Timer::new(&tell, handle).every(Milliseconds(100))?;
        while times.get() < 40 {
            TockSyscalls::yield_wait();
        }
        Ok::<(), ErrorCode>(())
    })?;
    let start = Alarm::get_ticks()?;
    Alarm::sleep_for(Milliseconds(5000))?;
    println!("{} s", (Alarm::get_ticks()? - start) / Alarm::get_frequency()?.0);
    Ok(())
}
"""

# An application with a scope, of which one line is left out; what is lent there as it should be; and lines that the
# compiler refuses, with its error.
SCOPE = """\
#![no_main]
#![no_std]
#![allow(unused)]

use core::cell::Cell;
use libtock::alarm::{Alarm, Milliseconds, OnAlarm, Ticks, Timer};
use libtock::buttons::{ButtonListener, Buttons};
use libtock::platform::{share, AllowRo, AllowRw, AllowUserspaceRead, DefaultConfig as Plain, ErrorCode, Shown};
use libtock::platform::{Subscribe, Syscalls};
use libtock::runtime::{set_main, stack_size, TockSyscalls as Tock};

set_main! {main}
stack_size! {0x200}

type Lent<'share, F> = (AllowRw<'share, Tock, 1, 1>, AllowRo<'share, Tock, 1, 1>, Subscribe<'share, Tock, 0, 0>,
    AllowUserspaceRead<'share, Tock, 0, 0>, OnAlarm<'share, F>);

fn main() -> Result<(), ErrorCode> {
    let (mut bytes, text, word) = ([0; 4], [0; 4], Shown::new(0));
    let (flag, escaped) = (Cell::new(false), Cell::new(None::<share::Handle<AllowRo<Tock, 1, 1>>>));
    let listener = ButtonListener(|_, _| ());
    let note = |_: Ticks, _: Ticks| flag.set(true);
    let _: Result<(), ErrorCode> = share::scope::<Lent<_>, _, _>(|handle| {
        let (rw, ro, upcall, shown, alarm) = handle.split();
        LINE
        Ok(())
    });
    bytes[0] = 1;
    Ok(())
}
"""
LENT = ("Tock::allow_rw::<Plain, 1, 1>(rw, &mut bytes)?; Tock::allow_ro::<Plain, 1, 1>(ro, &text)?;"
        " Tock::subscribe::<_, _, Plain, 0, 0>(upcall, &flag)?; Alarm::show_clock(&word, shown)?;"
        " Timer::new(&note, alarm).once(Milliseconds(1))?;")
# What is taken back where the scope ends: a class of calls, a driver, a number.
BACK = [(3, 1, 1), (4, 1, 1), (1, 0, 0), (7, 0, 0)]
NO_TIMER = " let _ = Timer::new(&note, alarm);"
REFUSED = [
    # A buffer, a flag, a word or a function ends before the scope does.
    ("let mut own = [0; 4]; Tock::allow_rw::<Plain, 1, 1>(rw, &mut own)?;" + NO_TIMER, "E0597"),
    ("let own = [0; 4]; Tock::allow_ro::<Plain, 1, 1>(ro, &own)?;" + NO_TIMER, "E0597"),
    ("let own = Cell::new(false); Tock::subscribe::<_, _, Plain, 0, 0>(upcall, &own)?;" + NO_TIMER, "E0597"),
    ("let own = Shown::new(0); Alarm::show_clock(&own, shown)?;" + NO_TIMER, "E0597"),
    ("let own = |_, _| (); let _ = Timer::new(&own, alarm);", "E0597"),
    # A buffer that is lent is written, or read while the kernel may write it.
    ("Tock::allow_ro::<Plain, 1, 1>(ro, &bytes)?; bytes[0] = 1;" + NO_TIMER, "E0506"),
    ("Tock::allow_rw::<Plain, 1, 1>(rw, &mut bytes)?; let read = bytes[0];" + NO_TIMER, "E0503"),
    # A handle lends twice, or outlives its scope, or is for another number or another kind.
    ("Tock::allow_ro::<Plain, 1, 1>(ro, &text)?; Tock::allow_ro::<Plain, 1, 1>(ro, &text)?;" + NO_TIMER, "E0382"),
    ("escaped.set(Some(ro));" + NO_TIMER, "E0521"),
    ("Tock::allow_ro::<Plain, 1, 2>(ro, &text)?;" + NO_TIMER, "E0308"),
    ("Tock::allow_rw::<Plain, 1, 1>(ro, &mut bytes)?;" + NO_TIMER, "E0308"),
    # A function is for another driver; a list is lent from without a scope.
    ("Tock::subscribe::<_, _, Plain, 0, 0>(upcall, &listener)?;" + NO_TIMER, "E0277"),
    ("let list = AllowRo::<Tock, 1, 1>::default(); let own = share::Handle { list: &list };"
     " Tock::allow_ro::<Plain, 1, 1>(own, &text)?;" + NO_TIMER, "E0451"),
]


# A compiler of a version, with a folder of its own.
COMPILER = """#!/bin/sh
[ "$1" = -V ] && echo "rustc %s" || echo "%s"
"""
MISSING = [("none", "", "", "there is no none: "), ("rustc", "1.84.1", "/none", "rustc is older than 1.85: "),
           ("rustc", "1.85.0", "/none", "rustc has no sources of its library at /none/lib/rustlib/src/rust/library: ")]


def make(folder, *words):
    """Builds the application of a folder, and Rust's own library where that is not there yet."""
    return run(["make", "-C", EXAMPLES, "APP=" + os.path.join(folder, "own"), *words], timeout=600)


def version():
    """That of the compiler which examples/ takes; nothing where there is none, or something is missing."""
    told = re.match(r"rustc ([\d.]+)", run(["make", "-s", "-C", EXAMPLES, "rust-version", "RUST=1"]).stdout)
    return told[1] if told else ""


def missing_tools():
    """Where there is no compiler, an old one, or none with the sources of its library, the Makefile says so."""
    with tempfile.TemporaryDirectory() as folder:
        write(folder, "own/main.rs", MAIN)
        for name, number, place, said in MISSING:
            compiler = os.path.join(folder, name) if number else name
            if number:
                write(folder, name, COMPILER % (number, place), 0o755)
            end = make(folder, "RUSTC=" + compiler)
            if not end.returncode or said + "on Debian 13, apt-get install rustc rust-src" not in end.stderr:
                return "%s: %s" % (said, end.stderr)
    return None


def application(program):
    """Any application is built: of several files, with core::fmt and alloc, with permissions and another stack; a stack
    that is too small is found out."""
    with tempfile.TemporaryDirectory() as folder:
        write(folder, "own/main.rs", MAIN)
        write(folder, "own/numbers.rs", NUMBERS)
        image = os.path.join(folder, "own", "own.bin")
        write(folder, "own/regions", "0:64 64:32\n")
        said = "[0, 1, 4, 9] 0.5\ntrue true true\n64 32 2 16\n==\nslot 0 own terminated 6 "
        for words, permissions, text in (([], "", said), (["STACK=8192"], "", said),
                                         ([], "0:1 0:2 0:5 0:6 1:1", said.replace("terminated 6", "terminated 11")),
                                         (["STACK=64"], "", "==\nslot 0 own faulted store 7ffff")):
            write(folder, "own/permissions", permissions)
            end = make(folder, *words)
            if end.returncode or not ran(program, image).startswith(text):
                return "%s: %s%s" % (words, end.stderr, ran(program, image))
        write(folder, "own/more.c", "int more;\n")
        end = make(folder)
    said = "it has main.rs and C files, and an application is in one language"
    return None if end.returncode and said in end.stderr else "both languages: " + end.stderr


def documented(program):
    """The application that docs/rust.md shows changes the LED three times, and tells each."""
    page = contents(os.path.join(REPOSITORY, "docs", "rust.md")).decode()
    shown = re.search(r"^    #!\[no_main\]\n(?:\n|    .*\n)+", page, re.M)[0]
    with tempfile.TemporaryDirectory() as folder:
        write(folder, "own/main.rs", re.sub("^    ", "", shown, flags=re.M))
        text = make(folder).stderr or ran(program, os.path.join(folder, "own", "own.bin"))
    told = r"change 1\nchange 2\nchange 3\n==\nslot 0 own terminated 0 .*\nleds 1000\n"
    return None if re.match(told, text) else repr(text)


def anywhere(program):
    """With FIXED= an application may lie anywhere, at the first place and behind another; one with too many static
    variables is refused."""
    with tempfile.TemporaryDirectory() as folder:
        image = os.path.join(folder, "own", "own.bin")
        for source, said in ((ANYWHERE, "anywhere"), (FORMATTED, 'any"where"')):
            write(folder, "own/main.rs", source)
            end = make(folder, "FIXED=", "STACK=1024")
            text = end.stderr or ran(program, image, image)
            if not re.match(r"(%s\n){2}==\n(slot [01] own terminated 6 .*\n){2}leds" % said, text):
                return repr(text)
        write(folder, "own/main.rs", LARGE)
        end = make(folder, "FIXED=")
    said = "static variables may have 2,000 bytes in all"
    return None if end.returncode and said in end.stderr else "not refused: " + end.stderr


def scopes(program):
    """What share::scope lends is taken back, and what may not be lent does not compile."""
    with tempfile.TemporaryDirectory() as folder:
        write(folder, "own/main.rs", SCOPE.replace("LINE", LENT))
        end = make(folder)
        image, script = os.path.join(folder, "own", "own.bin"), os.path.join(SCRIPTS, "empty.script")
        text = end.stderr or run([program, "trace", image, script, "--turns", "1000"]).stdout
        back = re.findall(r"call ([1347]) (\S+) (\S+) 00000000 00000000 = 00000082", text)
        if [(int(words[0]), int(words[1]), int(words[2])) for words in back] != BACK:
            return "taken back: %s in %s" % (back, text)
        for line, error in REFUSED:
            write(folder, "own/main.rs", SCOPE.replace("LINE", line))
            end = make(folder)
            if not end.returncode or set(re.findall(r"^error\[(\w+)\]", end.stderr, re.M)) != {error}:
                return "%s: %s" % (line, end.stderr)
    return None


def alarms(program):
    """Alarms that are set, cancelled and waited for inside the functions of others come as tests/alarms.rs says."""
    with tempfile.TemporaryDirectory() as folder:
        write(folder, "own/main.rs", contents(os.path.join(REPOSITORY, "tests", "alarms.rs")).decode())
        end = make(folder)
        text = end.stderr or ran(program, os.path.join(folder, "own", "own.bin"))
    return None if text.startswith("1a2bc3d4ab\n==\nslot 0 own terminated 0 ") else repr(text)


def milliseconds(program):
    """With TICKS_PER_MS=1000 an alarm every 100 ms keeps its time though it prints."""
    with tempfile.TemporaryDirectory() as folder:
        write(folder, "own/main.rs", EVERY_100_MS)
        end = make(folder, "TICKS_PER_MS=1000")
        text = end.stderr or ran(program, os.path.join(folder, "own", "own.bin"))
    return None if text.startswith(every_100_ms(40) + "5 s\n==\nslot 0 own terminated 0 ") else repr(text)


def cargo(folder, program, *words, **more):
    """What cargo makes of a project, without a network, as it runs by the program."""
    return run(["cargo", *words], cwd=folder, timeout=600, env={**os.environ, "TOCK_PROGRAM": program, **more})


def by_cargo(program):
    """The project in examples/rust has cargo build what make does."""
    cases = {name: case for name, case in ((case.name, case) for case in APPLICATIONS) if name.startswith("rust-")}
    with tempfile.TemporaryDirectory() as folder:
        end = cargo(os.path.join(EXAMPLES, "rust"), program, "build", "--release", "--target-dir", folder)
        if end.returncode:
            return end.stderr
        for name, case in cases.items():
            image, script = (os.path.join(EXAMPLES, "..", word) for word in case.words[1:3])
            built = os.path.join(folder, TARGET, "release", os.path.basename(image))
            text = run([program, "boot", built, script, "--turns", "100000"]).stdout.replace("at ../apps/", "at ")
            if not case.is_met_by(0, text.encode()):
                return "%s: %r" % (name, text)
    return None


def project(program):
    """`make cargo` writes a project for an application of one's own: cargo builds it, runs it, and answers what
    rust-analyzer asks; words after make are variables there."""
    with tempfile.TemporaryDirectory() as folder:
        own = os.path.join(folder, "own")
        write(folder, "own/main.rs", EVERY_100_MS)
        write(folder, "own/permissions", "0:1 0:2 0:3 0:5 0:6 1:1\n")
        end = make(folder, "cargo")
        if end.returncode:
            return end.stderr
        end = cargo(own, program, "run", TICKS_PER_MS="1000")
        if not end.stdout.startswith(every_100_ms(40) + "5 s\n==\nslot 0 own terminated 0 "):
            return "cargo run: %s%s" % (end.stdout, end.stderr)
        end = cargo(own, program, "run", TICKS_PER_MS="1000", STACK="64")
        if "slot 0 own faulted store 7ffff" not in end.stdout:
            return "with a small stack: %s%s" % (end.stdout, end.stderr)
        image = os.path.join(own, "out", TARGET, "debug", "own.bin")
        if permissions_tlv((0, 0, 0b1101110), (1, 0, 2)) not in contents(image):
            return "the image has no permissions"
        for words in (["metadata", "--format-version", "1"],
                      ["check", "--workspace", "--all-targets", "--message-format=json"]):
            end = cargo(own, program, *words)
            if end.returncode or '"own' not in end.stdout or '"level":"' in end.stdout:
                return "%s: %s%s" % (words, end.stdout, end.stderr)
        end = make(folder, "cargo")
        if not end.returncode or "own/Cargo.toml: it is there already" not in end.stderr:
            return end.stderr
    end = run(["make", "-C", EXAMPLES, "cargo"])
    said = "cargo: APP=path names the folder of an application in Rust"
    return None if end.returncode and said in end.stderr else end.stderr


def analyzer():
    """The first rust-analyzer on PATH that starts: rustup has one that does not, without its component."""
    paths = [shutil.which("rust-analyzer", path=folder) for folder in os.get_exec_path()]
    return next((path for path in paths if path and run([path, "--version"]).returncode == 0), None)


def analyzed(_program):
    """rust-analyzer knows the names and types of a project, where the compiler that has sources is the first on PATH:
    it tells what is wrong, and of names and types nothing else."""
    compiler = run(["make", "-s", "-C", EXAMPLES, "rust-places", "RUST=1"]).stdout.split()[0]
    environment = dict(os.environ, PATH=os.path.dirname(compiler) + os.pathsep + os.environ["PATH"])
    with tempfile.TemporaryDirectory() as folder:
        write(folder, "own/main.rs", EVERY_100_MS)
        make(folder, "cargo")
        for line, expected in (("", []), ("let _: &str = libtock::leds::Leds::count();", ["E0308"])):
            write(folder, "own/main.rs", EVERY_100_MS.replace("ErrorCode> {\n", "ErrorCode> {\n" + line, 1))
            words = [analyzer(), "diagnostics", os.path.join(folder, "own")]
            told = run(words, timeout=600, env=environment).stdout
            if re.findall(r'Error RustcHardError\("(\w+)"', told) != expected or "scan complete" not in told:
                return "%r: %s" % (line, told)
    return None


def checks(program, has_compiler):
    """Each check with its name."""
    with_compiler = [("rust-application", application), ("rust-documented", documented), ("rust-anywhere", anywhere),
                     ("rust-scopes", scopes), ("rust-alarms-in-alarms", alarms), ("rust-milliseconds", milliseconds)]
    with_cargo = [("rust-by-cargo", by_cargo), ("rust-project", project)]
    is_there = has_compiler and version() != ""
    has_cargo = is_there and shutil.which("cargo") is not None
    kinds = [(is_there, with_compiler), (has_cargo, with_cargo),
             (has_cargo and analyzer() is not None, [("rust-analyzed", analyzed)])]
    missing = [name for is_tried, listed in kinds if not is_tried for name, _ in listed]
    if missing:
        print("%s: not tried without rustc and its sources, cargo, rust-analyzer, and the compiler for RISC-V"
              % ", ".join(missing))
    found = [("rust-missing-tools", missing_tools)]
    tried = [one for is_tried, listed in kinds if is_tried for one in listed]
    return found + [(name, lambda check=check: check(program)) for name, check in tried]
