"""The first run of ./tock, and those after a change, with an `rt` that stands in for the kit's: that what the program
needs is proved as it stands and no more, and that no program ever runs that other sources or another prover made.
`checks` gives each check with its name, for tests/run."""

import os
import re
import shutil
import signal
import subprocess
import tempfile
import time

from common import TOCK, write
from cases.case import REPOSITORY

# Refuses a crate that has the word `wrong`, keeps what it passed, as the kit's does, and makes a program that tells of
# which sources it was made. It notes what it does.
RT = '''#!/usr/bin/env python3
import hashlib, os, pathlib, sys, time

def note(line):
    with open(os.environ["LOG"], "a") as log:
        print(line, file=log)

def texts(name):
    files = sorted(it for it in pathlib.Path("crates", name).rglob("*") if it.suffix in (".rt", ".antt"))
    return {str(it): it.read_text() for it in files}

def passes(name, below, kept):
    sums[name] = hashlib.sha256(repr((texts(name), [sums[it] for it in below if it in sums])).encode()).hexdigest()
    if (kept / sums[name]).exists():
        print("rt: %s is kept: an earlier run on this machine proved the same" % name, flush=True)
        return True
    time.sleep(float(os.environ.get("SLEEP", "0")))
    print("== %s" % name)
    wrong = [path for path, text in texts(name).items() if "wrong" in text]
    for path in wrong:
        print("%s:1:1: error: a wrong body" % path.split("/", 2)[2])
    print("fn %s::one: proved\\nrt: %s %s" % (name, name, "NOT PROVED" if wrong else "proved"), flush=True)
    if not wrong:
        note(name)
        (kept / sums[name]).touch()
    return not wrong

if sys.argv[1] == "version":
    print("a prover, version @VERSION@")
    sys.exit()
note("begins")
kept, sums = pathlib.Path("@KIT@", "kept"), {}
kept.mkdir(exist_ok=True)
lines = [line.partition(":") for line in open("crates.txt")]
passed = [passes(name, below.split(), kept) for name, _, below in lines]
out = pathlib.Path("crates/tock/out")
if all(passed):
    out.mkdir()
    said = " ".join(text.strip() for name in sums for path, text in texts(name).items() if path.endswith(".rt"))
    (out / "tock").write_text('#!/bin/sh\\necho "made of %s for $@"\\n' % said)
    (out / "tock").chmod(0o755)
note("ends")
is_whole = all(passed) and not os.environ.get("UNLINKED")
print("%d passed, %d failed" % (is_whole, not is_whole))
sys.exit(not is_whole)
'''
CRATES = """# the crates
base:
one: base
other: base hex   # and a library of the kit
samples: base

middle: one other
beside: middle
tock: middle
"""
NAMES = ("base", "one", "other", "samples", "middle", "beside", "tock")
USES = {"one": "base", "other": "base", "middle": "one other", "tock": "middle"}
NEEDED = ["base", "one", "other", "middle", "tock"]
ABOUT = r"(less than a minute|about a minute|about \d+ minutes)"
TOLD = (r"tock: proving the 5 crates that the program needs, and building it, once; this takes %s\n"
        r"tock: proved 1 of 5 crates; %s left\ntock: proved 5 of 5 crates; less than a minute left\n" % (ABOUT, ABOUT))


class Repository:
    """A small one, in a folder, with ./tock and its tools."""

    def __init__(self, folder):
        self.top, self.log = os.path.join(folder, "top"), os.path.join(folder, "log")
        self.environment = {name: text for name, text in os.environ.items() if not name.startswith("TOCK_")}
        self.environment.update(LOG=self.log, PATH=os.path.join(folder, "bin") + os.pathsep + os.environ["PATH"])
        for name in NAMES:
            self.writes(name, name, "main.rt" if name == "tock" else "lib.rt")
            write(self.top, os.path.join("crates", name, "specs", "Lib.antt"), USES.get(name, "") + "\n")
            write(self.top, os.path.join("crates", name, "must-fail", "wrong.edit"), "wrong\n")
        write(self.top, "crates.txt", CRATES)
        write(self.top, "HANDLES", "Handles allowed: none.\n")
        shutil.copy(TOCK, self.top)
        for tool in ("proving", "told", "debugger", "picture"):
            shutil.copytree(os.path.join(REPOSITORY, "tools", tool), os.path.join(self.top, "tools", tool))
        self.prover(1)

    def writes(self, name, text, file="lib.rt"):
        write(self.top, os.path.join("crates", name, "src", file), text + "\n")

    def prover(self, version):
        kit = os.path.dirname(self.top)
        write(os.path.join(kit, "bin"), "rt", RT.replace("@VERSION@", str(version)).replace("@KIT@", kit), 0o755)

    def begins(self, tock="tock", words=("soak", "1"), **more):
        """./tock, running. An interrupt stops it, also where these tests run in the background of a shell that has
        interrupts ignored."""
        return subprocess.Popen([os.path.join(self.top, tock), *words], env=dict(self.environment, **more),
                                stdout=subprocess.PIPE, stderr=subprocess.PIPE, text=True, start_new_session=True,
                                preexec_fn=lambda: signal.signal(signal.SIGINT, signal.SIG_DFL))

    def ends(self, run):
        """How it ended: the status, what the program said, and what was told."""
        out, told = run.communicate(timeout=100)
        return run.returncode, out, told

    def waits(self, line):
        """Waits until the prover noted this."""
        for _ in range(1000):
            if os.path.exists(self.log) and line in open(self.log).read():
                return
            time.sleep(0.05)

    def runs(self, **more):
        return self.ends(self.begins(**more))

    def proved(self):
        """What the prover noted since this was asked last."""
        lines = open(self.log).read().splitlines() if os.path.exists(self.log) else []
        write(os.path.dirname(self.log), "log", "")
        return lines


def once(*names):
    """What the prover notes where it proves these crates."""
    return ["begins", *names, "ends"]


def made(**texts):
    """What the program says that was made of such sources, of each crate its name where no other text is said."""
    return "made of %s for soak 1\n" % " ".join(texts.get(name, name) for name in NEEDED)


def first(repository):
    """It has proved what the program needs, once, and tells how far it is; a later run says nothing."""
    status, out, told = repository.runs()
    lines = repository.proved()
    if (status, out) != (0, made()) or not re.fullmatch(TOLD, told) or lines != once(*NEEDED):
        return "%d, %r, told %r, proved %s" % (status, out, told, lines)
    again = repository.runs(), repository.proved()
    return None if again == ((0, out, ""), []) else "a later run: %r" % (again,)


def changed(repository):
    """A source that is edited, added or deleted, another prover, and another way to have it proved, are noticed, and
    what that reaches is proved again; other times and what the program does not need are not."""
    repository.runs()
    repository.proved()
    source = os.path.join(repository.top, "crates", "base", "src", "lib.rt")
    tool = os.path.join(repository.top, "tools", "proving", "copied.py")
    basis = dict(base="basis", tock="tick")
    for what, change, texts, again in (
            ("touched", lambda: os.utime(source), {}, []),
            ("not needed", lambda: repository.writes("beside", "beside, changed"), {}, []),
            ("the program", lambda: repository.writes("tock", "tick", "main.rt"), dict(tock="tick"), once("tock")),
            ("edited", lambda: repository.writes("base", "basis"), basis, once(*NEEDED)),
            ("added", lambda: repository.writes("base", "more", "added.rt"), dict(basis, base="more basis"),
             once(*NEEDED)),
            ("deleted", lambda: os.remove(source.replace("lib", "added")), basis, once()),
            ("another prover", lambda: repository.prover(2), basis, once()),
            ("the same prover", lambda: repository.prover(2), basis, []),
            ("another tool", lambda: open(tool, "a").write("# \n"), basis, once())):
        change()
        status, out, told = repository.runs()
        lines = repository.proved()
        if (status, out, lines) != (0, made(**texts), again):
            return "%s: %d, %r, told %r, proved %s" % (what, status, out, told, lines)
    return None


def refused(repository):
    """Where something is refused, or the program is not linked, the answer is 1, with all that was said of what was
    refused, under the crates' own files; once it is mended the program is built, and what was proved is kept."""
    repository.runs()
    repository.proved()
    repository.writes("other", "wrong")
    status, out, told = repository.runs()
    if (status, out) != (1, "") or "== other\ncrates/other/src/lib.rt:1:1: error: a wrong body\n" not in told:
        return "%d, %r, told %r" % (status, out, told)
    if "== one" in told or "proved\n" in told.replace("not proved\n", ""):
        return "told what was not refused: %r" % told
    repository.writes("other", "mended")
    status, out, told = repository.runs(UNLINKED="1")
    if (status, out) != (1, ""):
        return "not linked: %d, %r, told %r" % (status, out, told)
    repository.proved()
    end = repository.runs()[:2], repository.proved()
    return None if end == ((0, made(other="mended")), once()) else "mended: %r" % (end,)


def differs(repository):
    """Nothing is proved of a copy that has a line more than its source."""
    tool = os.path.join(repository.top, "tools", "proving", "copied.py")
    with open(tool, encoding="utf-8") as file:
        text = file.read()
    copies = "            shutil.copyfile(os.path.join(self.crates.top, path), to)\n"
    write(os.path.dirname(tool), "copied.py", text.replace(
        copies, copies + "            open(to, 'a').write('more' * path.endswith('base/src/lib.rt'))\n"))
    end, lines = repository.runs(), repository.proved()
    is_right = end == (1, "", "tock: not copied as it stands: crates/base/src/lib.rt\n") and lines == []
    return None if is_right else "%r, proved %s" % (end, lines)


def edited_meanwhile(repository):
    """An edit while it builds is proved too before the program runs."""
    run = repository.begins(SLEEP="0.1")
    repository.waits("one")
    repository.writes("base", "basis")
    status, out, told = repository.ends(run)
    if (status, out) != (0, made(base="basis")) or "a source was changed while the program was built" not in told:
        return "%d, %r, told %r" % (status, out, told)
    again = repository.runs()
    return None if again == (0, out, "") else "a later run: %r" % (again,)


def two_at_once(repository):
    """Of two first runs at once one proves, and the other waits for it."""
    runs = [repository.begins(SLEEP="0.1") for _ in range(2)]
    ended = [repository.ends(run) for run in runs]
    lines = repository.proved()
    waits = [told for _, _, told in ended if "another run proves the kernel's crates here" in told]
    if [end[:2] for end in ended] != [(0, made())] * 2 or lines != once(*NEEDED) or len(waits) != 1:
        return "%r, proved %s" % (ended, lines)
    return None


def stopped(repository):
    """Where it is stopped or killed no program is there, and the next run proves what is left, and builds it."""
    for number in (signal.SIGINT, signal.SIGKILL):
        repository.writes("base", "base for %d" % number)
        run = repository.begins(SLEEP="0.3")
        repository.waits("one")
        os.killpg(run.pid, number)
        status, out, told = repository.ends(run)
        first_part = repository.proved()
        if status == 0 or out or "ends" in first_part:
            return "%d, %r, told %r, proved %s" % (status, out, told, first_part)
        end = repository.runs()[:2], repository.proved()
        if end != ((0, made(base="base for %d" % number)), once(*NEEDED[len(first_part) - 1:])):
            return "a later run: %r" % (end,)
    return None


def no_prover(repository):
    """Without a prover it says so at once; a program that is built of these sources runs all the same."""
    places = repository.environment["PATH"].split(os.pathsep)
    without = os.pathsep.join(place for place in places if not os.path.exists(os.path.join(place, "rt")))
    status, out, told = repository.runs(PATH=without)
    if (status, out) != (1, "") or not re.fullmatch(r"tock: [^\n]*, and rt is not on PATH: [^\n]*\n", told):
        return "%d, %r, told %r" % (status, out, told)
    repository.runs()
    end = repository.runs(PATH=without, TOCK_QUIET="1")
    return None if end == (0, made(), "") else "once it is built: %r" % (end,)


def help_first(repository):
    """--help tells the commands though nothing is built, and has nothing proved."""
    end = repository.ends(repository.begins(words=["--help"]))
    lines = repository.proved()
    if end[:2] != (1, "") or "tock: boot FLASH SCRIPT --turns N" not in end[2] or lines:
        return "%r, proved %s" % (end, lines)
    return None


def linked(repository):
    """./tock may be called by a symbolic link."""
    repository.runs()
    os.symlink(os.path.join(repository.top, "tock"), os.path.join(repository.top, "..", "linked"))
    end = repository.ends(repository.begins(os.path.join("..", "linked")))
    return None if end == (0, made(), "") else "%r" % (end,)


def tried(check):
    """A check in a repository of its own."""
    with tempfile.TemporaryDirectory() as folder:
        return check(Repository(folder))


def checks(program):
    """Each check with its name."""
    return [("first-run-" + check.__name__.replace("_", "-"), lambda check=check: tried(check))
            for check in (first, changed, refused, differs, edited_meanwhile, two_at_once, stopped, no_prover,
                          help_first, linked)]
