"""Checks of tools/timeline. `checks` gives each with its name, for tests/run."""

import os
import re
import subprocess
import tempfile

from common import EXAMPLES, contents, run, write
from cases.case import REPOSITORY

TOOL = os.path.join(REPOSITORY, "tools", "timeline")

# The pictures of docs/, each of a run by its image and script.
PICTURES = [("timeline.svg", "together", "hi"), ("windows.svg", "three", "windows")]

# Lines of a trace of every kind, and what must stand in their picture.
EACH_KIND = [
    ("@1 0 call 7 00000000 00000000 80000000 00000004 = 00000082 00000000 00000000 00000004", "allow-readable alarm"),
    ("@2 0 call 0 00000002 00000001 00000002 00000000", "wait for console 2"),
    ("@3 0 call 2 00000003 00000001 00000000 00000000 = 00000080 00000001 00000000 00000000", "button: enable"),
    ("@4 0 act stop", "operator: stop"),
    ("@5 0 call 2 00000002 00000001 00000009 00000000 = 00000000 00000006 00000009 00000000 range",
     "LED: on refused: range"),
    ("@6 0 denied store 80000400 no-region", "denied: store 80000400 no-region"),
    ("@7 0 out 68690a", "\u201chi\u21b5\u201d"),
    ("@8 0 call 6 00000001 00000000 00000000 00000000", "restart"),
    ("@9 0 call 6 00000002 00000000 00000000 00000000 = 00000000 0000000a 00000000 00000000 no-operation",
     "exit of number 2 refused: no-operation"),
]
REPORT = "==\nslot 0 - running turns 9 restarts 0\nslot 1 one %s turns 9 restarts 0\nend turns steps 200 time 100\n"
SET = "@%d %d call 2 00000002 00000001 00000000 00000000 = 00000080 00000001 00000000 00000000\n"
WAIT, EXIT, DENIED = "@%d 1 call 0 00000001 0 0 0\n", "@%d 1 call 6 00000000 0 0 0\n", "@%d 1 denied fetch 0 illegal\n"


def drawn(text, *words):
    """The picture of a trace, or what was said in its place."""
    end = run([TOOL, *words], input=text)
    return end.stdout or end.stderr


def bars(picture, width):
    """From which time to which the lines of a width are drawn, in a picture of 100 ticks."""
    lines = re.findall(r'<line x1="([0-9.]+)" y1="([0-9.]+)" x2="([0-9.]+)" y2="[0-9.]+" stroke="#8a8f98" '
                       r'stroke-width="%d"/>' % width, picture)
    lowest = max(float(y) for _, y, _ in lines)
    return [(round((float(start) - 110) / 9), round((float(stop) - 110) / 9)) for start, y, stop in lines
            if float(y) == lowest]


def of_documents(program):
    """The pictures of docs/ are those of their runs."""
    for name, image, script in PICTURES:
        words = ["images/%s.bin" % image, "scripts/%s.script" % script]
        trace = run([program, "trace", *words, "--turns", "1000"], cwd=EXAMPLES)
        end = run([TOOL, "--script", words[1]], input=trace.stdout, cwd=EXAMPLES)
        if (end.stdout, end.stderr) != (contents(os.path.join(REPOSITORY, "docs", name)).decode(), ""):
            return "%s is another picture, or: %s" % (name, end.stderr)
    return None


def each_kind(program):
    """Each line of a trace has a mark and a name, and so has what comes in by the script."""
    picture = drawn("\n".join(line for line, _ in EACH_KIND) + "\n" + REPORT % "running")
    missing = [line for line, text in EACH_KIND if line not in picture or ">%s</text>" % text not in picture]
    if missing:
        return "not drawn: %s" % missing
    script = os.path.join(EXAMPLES, "scripts", "press.script")
    given = [line.split()[2:] for line in open(script) if line.startswith("at ")]
    picture = drawn(SET % (1, 1) + REPORT % "running", "--script", script, "--to", "1000000")
    if not given or [words for words in given if ">%s %s</text>" % tuple(words) not in picture]:
        return "not drawn: %s" % given
    return None


def parts(program):
    """From one time to another, and of some slots alone."""
    text = "".join(SET % (time, slot) for time in (10, 50, 90) for slot in (0, 1)) + REPORT % "running"
    for words, times, slots in (([], (10, 50, 90), (0, 1)), (["--from", "50"], (50, 90), (0, 1)),
                                (["--from", "20", "--to", "60"], (50,), (0, 1)),
                                (["--slots", "1"], (10, 50, 90), (1,))):
        picture = drawn(text, *words)
        marks = re.findall(r"<title>@(\d+) (\d) ", picture)
        if sorted(marks) != sorted((str(time), str(slot)) for time in times for slot in slots):
            return "%s: %s" % (words, marks)
        if [int(slot) for slot in re.findall(r">slot (\d) ", picture)] != list(slots):
            return "%s: other lanes" % words
    return None


def names(program):
    """Of calls that stand close together as many have a name as eight rows have room for, and each has a mark: of 20
    that are 9 pixels apart, 6 of which stand below a name, first eight have one and then six none; of all within a
    name's width, eight have one."""
    text = "".join(SET % (time, 1) for time in range(40, 60)) + SET % (99, 1) + REPORT % "running"
    for words, expected in (([], 15), (["--to", "1000"], 8)):
        picture = drawn(text, *words)
        marks, written = picture.count("<title>"), picture.count(">LED: on</text>")
        if (marks, written) != (21, expected):
            return "%s: %d marks, %d names" % (words, marks, written)
    return None


def where_it_can_run(program):
    """The line is thick where the process can run, thin where it lives and cannot, and not there where it has ended."""
    script = os.path.join(EXAMPLES, "scripts", "windows.script")
    for lines, state, words, thick, thin in (
            (WAIT % 20 + SET % (60, 1), "running", [], [(0, 20), (60, 100)], [(0, 100)]),
            (EXIT % 30, "terminated 0", [], [(0, 30)], [(0, 30)]),
            (DENIED % 30, "faulted fetch 0 illegal", [], [(0, 30)], [(0, 30)]),
            (DENIED % 30 + SET % (50, 1), "running", [], [(0, 100)], [(0, 100)]),
            ("@20 1 act stop\n@40 1 act list\n@70 1 act start\n", "running", [], [(0, 20), (70, 100)], [(0, 100)]),
            ("@20 1 act terminate\n@70 1 act restart\n", "running", [], [(0, 20), (70, 100)], [(0, 20), (70, 100)]),
            (SET % (4, 1), "running", ["--script", script], [(3, 6), (51, 54), (99, 100)], [(0, 100)])):
        picture = drawn(lines + REPORT % state, *words)
        if (bars(picture, 5), bars(picture, 1)) != (thick, thin):
            return "%r: thick %s, thin %s" % (lines, bars(picture, 5), bars(picture, 1))
    return None


def many_windows(program):
    """The windows of each slot are shaded where it has at most 500 of them; with more they are not told apart."""
    with tempfile.TemporaryDirectory() as folder:
        write(folder, "script", "partition 1")
        for windows, shaded, thick in ((500, 500, 500), (501, 0, 1)):
            end = "time %d\n" % (16 * windows)
            picture = drawn(SET % (0, 0) + SET % (1, 1) + (REPORT % "running").replace("time 100\n", end), "--script",
                            os.path.join(folder, "script"))
            found = picture.count('fill="#e3eefb"'), picture.count('stroke-width="5"')
            if found != (2 * shaded, 2 * thick):
                return "%d windows: %d are shaded, and %d lines are thick" % (windows, *found)
    return None


def no_traces(program):
    """What is no trace, or no script, is refused with a line, and so is a file that is not there."""
    images = ["images/%s.bin" % name for name in ("greet", "blink", "crunch")]
    boots = [run([program, "boot", image, "scripts/empty.script", "--turns", "1000"], cwd=EXAMPLES).stdout
             for image in images]
    readme, given = os.path.join(REPOSITORY, "README.md"), ["--script", "/dev/stdin", "/dev/null"]
    for words, text, said in (([], boots[0], "it has the line 'hello from C'"), ([], "", "it has no line of a slot"),
                              ([], boots[1], "it has no call, output, denial or act"),
                              ([], boots[2], "it has no call, output, denial or act"),
                              (["--script", readme], SET % (1, 0), "README.md: this is no script: it has the line "),
                              (given, "at 5 input 4x", "this is no script: it has the line 'at 5 input 4x'"),
                              (given, "partition x", "this is no script: it has the line 'partition x'"),
                              ([], SET % (1, 0) + "@2 0 call 9 0 0 0 0\n", "it has the line '@2 0 call 9 0 0 0 0'"),
                              ([], SET % (1, 0) + "==\nsomething\n", "it has the line 'something'"),
                              (["none"], "", "none: No such file or directory"),
                              (["--script", "none"], "", "none: No such file or directory"),
                              (["--slots", "3"], SET % (1, 0), "it has no line of a slot that is asked for"),
                              (["--from", "5", "--to", "5"], SET % (1, 0), "nothing lies from 5 to 5")):
        end = run([TOOL] + words, input=text)
        if end.returncode != 1 or said not in end.stderr or end.stderr.count("\n") != 1 or end.stdout:
            return "%s: %d, %r" % (words, end.returncode, end.stderr)
    return None


def closed_pipe(program):
    """Where nobody reads the picture nothing is said."""
    text = "".join(SET % (time, 1) for time in range(5000)).encode()
    with subprocess.Popen([TOOL], stdin=subprocess.PIPE, stdout=subprocess.PIPE, stderr=subprocess.PIPE) as tool:
        tool.stdout.close()
        tool.stdin.write(text)
        tool.stdin.close()
        said = tool.stderr.read()
    return None if said == b"" else "said %r" % said


def checks(program):
    """Each check with its name."""
    return [("timeline-" + check.__name__.replace("_", "-"), lambda check=check: check(program))
            for check in (of_documents, each_kind, parts, names, where_it_can_run, many_windows, no_traces,
                          closed_pipe)]
