"""That each tool starts: it answers --help by its usage, does what its usage says, and refuses words that it does not
take by a line, or by its usage. `checks` gives each check with its name, for tests/run."""

import functools
import os
import re
import shutil
import signal
import subprocess
import sys
import tempfile
from dataclasses import dataclass, field

from cases import KEPT
from cases.case import REPOSITORY
from common import EXAMPLES, IMAGES, contents, run, write
from debugger.board import LOOK

TOOLCHAIN, DEBUGGER = "riscv64-unknown-elf-", "gdb-multiarch"
COMPILER = TOOLCHAIN + "gcc"

# A line of a usage, which has the tool's name from the repository's top.
USAGE = r"^(?:usage: |    )%s\b"


@dataclass
class Tool:
    """How a tool is started, in a folder with some files: words by which it does what its usage says, each with a
    pattern of what it then says, and what has to be there for them; words that it refuses; and words with which it
    misses something where nothing but Python is on PATH, each with the status and what it says. `{program}` is the
    built program."""
    does: list = field(default_factory=list)
    needs: tuple = ()
    refuses: list = field(default_factory=list)
    misses: list = field(default_factory=list)


NOTHING = [[], ["none"], ["--nonsense"]]
TESTED = Tool([(["--test"], r"")], refuses=[["none"], ["--nonsense"], ["--test", "more"]])
RUN, LOST = ["image", "script"], ["image", "script", "--slot", "0", "elf"]
BAD_RUNS = NOTHING + [["script", "script"], ["image", "none"], ["none", "script"], RUN + ["--slot", "16"],
                      RUN + ["--slot", "0", "none"], RUN + ["--slot", "0", "script"], RUN + ["--slot", "0", "cut"],
                      RUN + ["--slot", "5", "elf"]]

# Each tool. What examples/tour does is looked at in around.py, and what cargo calls in rust.py. Without words
# tools/proving/prove proves for minutes.
TOOLS = {
    "bench/run": Tool(refuses=NOTHING + [["script"], ["--count"], ["--count", "none"], ["{program}", "none"],
                                         ["{program}", "0"], ["{program}", "500000001"], ["{program}", "1", "1"]],
                      misses=[(["{program}", "1"], 1, "there is no rustc"),
                              (["--count", "{program}"], 1, "there is no valgrind")]),
    "checks/cases": TESTED,
    "checks/check": Tool([(["decimal_number", "number_up_to"], r"^fn decimal_number::number_up_to: no holes$")],
                         ("rt",),
                         NOTHING + [["decimal_number"], ["decimal_number", "--start"], ["none", "number_up_to"]],
                         [(["decimal_number", "number_up_to"], 1, "rt is not on PATH")]),
    "checks/citations": TESTED,
    "checks/crates": TESTED,
    "checks/evaluate": TESTED,
    "checks/headline": TESTED,
    "checks/release": Tool([(["--test"], r""), ([], r"^program tock: "),
                            (["lines", "lines"], r"^program tock is the same$")], ("rt", "git"),
                           [["none"], ["--nonsense"], ["--test", "more"], ["script", "script"], ["lines", "none"]],
                           [([], 1, "git: No such file or directory")]),
    "checks/tables": TESTED,
    "examples/addresses": Tool([(["tables", "object", TOOLCHAIN], r"^$"), (["words", "elf"], r"^$")], (COMPILER,),
                               NOTHING + [["tables", "none", TOOLCHAIN], ["words", "script"], ["words", "cut"]],
                               [(["tables", "table", "none-"], 1, "none-objcopy: No such file or directory")]),
    "examples/pack": Tool([(["own", "256", "program", "made"], r"^$"), (["--header", "own"], r"^40$")],
                          refuses=NOTHING + [["--header"], ["own", "256", "none", "made"]]),
    "examples/rust/link": Tool(refuses=NOTHING),
    "examples/rust/run": Tool(refuses=NOTHING + [["none", "script", "1", "1"]]),
    "examples/rust/rustc": Tool(),
    "examples/tour": Tool(refuses=[["none"], ["script"], ["--nonsense"], ["{program}", "more"]]),
    "tests/memory": Tool([(["{program}"], r"^\d passed, \d failed$")], ("cc",),
                         NOTHING + [["script"], ["{program}", "more"]], [(["{program}"], 1, "there is no cc")]),
    "tests/run": Tool([(["{program}", "exit-with-7"], r"^1 passed, 0 failed$")],
                      refuses=NOTHING + [["script"], ["{program}", "exit-with-8"]]),
    "tests/write_kept": Tool(refuses=[["none"], ["--nonsense"]]),
    "tools/campaign": Tool([(["trace"], r"^ +1 not done$"), (["--which", "not done", "trace"], r"^trace$"),
                            (["--picture", "--by", "time", "trace"], r"^</svg>$")],
                           refuses=NOTHING + [["--by", "size", "trace"], ["--which", "well", "trace"]]),
    "tools/debug": Tool([(LOST + ["--", "-nx", "-batch", "-ex", "slots"], r"^slot 0 lost running turns 0 restarts 0$")],
                        (LOOK, COMPILER, DEBUGGER), BAD_RUNS,
                        [(RUN, 1, "there is no gdb-multiarch: on Debian, apt-get install gdb-multiarch")]),
    "tools/live": Tool([(RUN + ["--plain"], r"^slot 0 lost running turns 0 restarts 0$")], (LOOK,),
                       NOTHING + [["none", "script"]]),
    "tools/proving/prove": Tool(),
    "tools/script": Tool([(["typed"], r"^at 100 input 780a$"), (["--into", "made", "typed"], r"^$")],
                         refuses=[["none"], ["--nonsense"], ["typed", "typed"], ["--into"], ["--into", "made"]]),
    "tools/timeline": Tool([(["trace"], r"^</svg>$"), (["--script", "script", "--slots", "0", "trace"], r"^</svg>$")],
                           refuses=[["none"], ["--nonsense"], ["trace", "trace"], ["--slots", "x", "trace"]]),
    "tools/where": Tool([(LOST, r"^1 denial; the run ends so:$")], (LOOK, COMPILER),
                        BAD_RUNS + [RUN + ["--turns", "-1"], RUN + ["--calls", "-1"]],
                        [(LOST, 0, "there is no riscv64-unknown-elf-addr2line")]),
}


def tools_there():
    """The files of the five folders that can be run, from the repository's top."""
    found = []
    for top in ("bench", "checks", "examples", "tests", "tools"):
        for folder, below, names in os.walk(os.path.join(REPOSITORY, top)):
            below[:] = [name for name in below if name != "out"]
            paths = [os.path.join(folder, name) for name in names]
            found += [os.path.relpath(path, REPOSITORY) for path in paths if os.access(path, os.X_OK)]
    return sorted(found)


def listed():
    """Each tool is looked at here."""
    there, known = tools_there(), sorted(TOOLS)
    return None if there == known else "there are %s, and looked at are %s" % (there, known)


@functools.cache
def compiled():
    """The files of a program that a compiler makes, by their names: linked, cut off, and not linked yet; and one with a
    table of texts."""
    if not shutil.which(COMPILER):
        return {}
    with tempfile.TemporaryDirectory() as folder:
        linked, object_file = (os.path.join(folder, "lost" + end) for end in (".elf", ".o"))
        run(["make", "-s", "-C", EXAMPLES, "OUT=" + folder, linked])
        write(folder, "table.c", 'const char *const names[] = {"a", "b"};\n')
        run([COMPILER, "-march=rv32imc", "-mabi=ilp32", "-c", "table.c"], cwd=folder)
        return {"elf": contents(linked), "cut": contents(linked)[:1000], "object": contents(object_file),
                "table": contents(os.path.join(folder, "table.o"))}


def write_files(program, folder):
    """Writes the files that words name: an image, its script and the trace of its run; those of its program; the bytes
    of a program, a line that a person typed, and lines of a release."""
    files = {"image": contents(os.path.join(IMAGES, "lost.bin")), "script": b"", "program": b"a program!",
             "typed": b"100 type x\n", "lines": b"commit: 1\nprogram tock: 2\n", **compiled()}
    for name, content in files.items():
        with open(os.path.join(folder, name), "wb") as file:
            file.write(content)
    write(folder, "trace", run([program, "trace", "image", "script", "--turns", "1000"], cwd=folder).stdout)


def started(path, words, folder, program, **environment):
    """How a tool ended that was started in a folder with these words, and nothing on its standard input. On a machine
    with much to do the prover may take minutes."""
    words = [word.replace("{program}", program) for word in words]
    return subprocess.run([os.path.join(REPOSITORY, path), *words], cwd=folder, env=dict(os.environ, **environment),
                          stdin=subprocess.DEVNULL, capture_output=True, text=True, timeout=1000)


def told(path, words, end):
    """What a tool answered to which words."""
    return "%s %s: %d, %r, %r" % (path, " ".join(words), end.returncode, end.stdout[-500:], end.stderr[-500:])


def helps(path, folder, program):
    """--help and -h are answered by the usage, on standard output, with status 0."""
    for word in ("--help", "-h"):
        end = started(path, [word], folder, program)
        if (end.returncode, end.stderr) != (0, "") or not re.search(USAGE % path, end.stdout, re.M):
            return told(path, [word], end)
    return None


def does(path, folder, program):
    """The words of the usage are answered by what it says, with status 0. Of a program that is built with an allocator
    of its own tests/memory tells faults."""
    usage = started(path, ["--help"], folder, program).stdout
    for words, said in TOOLS[path].does:
        end = started(path, words, folder, program)
        own = words[:words.index("--")] if "--" in words else words
        is_known = all(word in usage for word in own if word.startswith("--"))
        is_well = end.returncode == 0 or path == "tests/memory" and end.returncode == 1
        if not is_known or not is_well or not re.search(said, end.stdout + end.stderr, re.M):
            return told(path, words, end)
    return None


def is_refusal(path, said):
    """Whether a tool said one line, or its usage."""
    return "Traceback" not in said and (said.count("\n") == 1 or re.search(USAGE % path, said, re.M) is not None)


def refuses(path, folder, program):
    """Words that it does not take are answered by one line or by the usage, with another status than 0. Standard output
    has nothing, or of tests/run what cannot be tried here."""
    for words in TOOLS[path].refuses:
        end = started(path, words, folder, program)
        written = [line for line in end.stdout.splitlines() if " not tried" not in line]
        if not end.returncode or written or not is_refusal(path, end.stderr):
            return told(path, words, end)
    return None


def misses(path, folder, program):
    """That something is not there which it needs is told in one line."""
    os.mkdir(os.path.join(folder, "bin"))
    os.symlink(sys.executable, os.path.join(folder, "bin", "python3"))
    for words, status, said in TOOLS[path].misses:
        end = started(path, words, folder, program, PATH=os.path.join(folder, "bin"))
        if end.returncode != status or said not in end.stderr or end.stderr.count("\n") != 1:
            return told(path, words, end)
    return None


def starts(path, program, looks):
    """What is wrong with a tool, or None."""
    with tempfile.TemporaryDirectory() as folder:
        write_files(program, folder)
        return next((wrong for wrong in (look(path, folder, program) for look in looks) if wrong), None)


def kept(program):
    """tests/write_kept writes the images that are kept, where tests and tools stand."""
    with tempfile.TemporaryDirectory() as folder:
        for name in ("tests", "tools"):
            shutil.copytree(os.path.join(REPOSITORY, name), os.path.join(folder, name))
        for path in KEPT:
            os.makedirs(os.path.join(folder, os.path.dirname(path)), exist_ok=True)
        end = run([os.path.join(folder, "tests", "write_kept")])
        written = {path for path, image in KEPT.items() if contents(os.path.join(folder, path)) == image}
    return None if not end.returncode and written == set(KEPT) else "wrote %s: %s" % (written, end.stderr)


def look_not_built(program):
    """Where tock_look is not built, or is no program, the tools that ask it say so, and how it is built."""
    with tempfile.TemporaryDirectory() as folder:
        write_files(program, folder)
        shutil.copytree(os.path.join(REPOSITORY, "tools"), os.path.join(folder, "tools"))
        crate = os.path.join(folder, "crates", "tock_look")
        for look, said in (("", "tock_look is not built; this proves and builds it: cd %s && rt run" % crate),
                           ("script", "TOCK_LOOK: script: it is no program that can be run")):
            for name, words in (("where", RUN), ("debug", RUN), ("live", RUN + ["--plain"])):
                end = run([os.path.join(folder, "tools", name), *words], cwd=folder,
                          env=dict(os.environ, TOCK_LOOK=look))
                if (end.returncode, end.stdout, end.stderr) != (1, "", "%s: %s\n" % (name, said)):
                    return told(name, words, end)
    return None


# A line of bench/run where valgrind is not on PATH, for a load that the interpreter runs too, and for one of calls.
NUMBER = r" +\d+\.\d+"
LOAD = re.compile(r"\w[\w, ]{23}" + NUMBER * 4 + r" +(\d+) +- +-\n")
CALLING = re.compile(r"\w[\w, ]{23}" + NUMBER + r" +- +-" + NUMBER + r" +(\d+) +- +-\n")


def bench(program):
    """bench/run tells of one load after the other. However short the runs are, the memory is that of a program that
    runs: half a MiB at least."""
    with tempfile.TemporaryDirectory() as folder:
        for name, tool in (("python3", sys.executable), ("rustc", shutil.which("rustc")), ("cc", shutil.which("cc"))):
            os.symlink(tool, os.path.join(folder, name))
        environment = dict(os.environ, PATH=folder, TMPDIR=folder)
        with subprocess.Popen([os.path.join(REPOSITORY, "bench", "run"), program, "10"], env=environment,
                              stdout=subprocess.PIPE, text=True, start_new_session=True) as tool:
            lines = [tool.stdout.readline() for _ in range(8)]
            os.killpg(tool.pid, signal.SIGKILL)
    heads, loads = lines[0].split(), [LOAD.fullmatch(line) for line in lines[1:6]]
    loads += [CALLING.fullmatch(line) for line in lines[6:]]
    if heads[-2:] != ["instructions", "plain's"] or not all(loads) or min(int(load[1]) for load in loads) < 512:
        return "told %r" % lines
    return None


def checks(program):
    """Each check with its name."""
    found = [("starts-listed", listed), ("starts-kept", lambda: kept(program)),
             ("starts-look-not-built", lambda: look_not_built(program))]
    for path, tool in TOOLS.items():
        lacking = [os.path.basename(name) for name in tool.needs if not shutil.which(name)]
        looks = [helps, refuses] if lacking else [helps, does, refuses, misses]
        found.append(("starts-" + path, lambda path=path, looks=looks: starts(path, program, looks)))
        if lacking:
            print("starts-%s: what it does is not tried without %s" % (path, " and ".join(lacking)))
    if shutil.which("rustc") and shutil.which("cc"):
        found.append(("starts-bench", lambda: bench(program)))
    else:
        print("starts-bench: not tried without rustc and cc")
    return found
