"""Checks of many runs side by side: scripts that are made at once, tools/campaign, and, where GNU parallel is there,
the lines of the manual. `checks` gives each with its name, for tests/run."""

import os
import re
import shutil
import subprocess
import sys
import tempfile
import time

from common import EXAMPLES, TOCK, contents, run, write
from cases.case import REPOSITORY
from cases.programs import EXIT_7, FAULTS, NAPS, SPINS

SCRIPT_TOOL, TOOL = (os.path.join(REPOSITORY, "tools", name) for name in ("script", "campaign"))
PICTURE = os.path.join(REPOSITORY, "docs", "campaign.svg")
# How many scripts are made at once, in how many seconds at most.
SCRIPTS, SECONDS = 200, 2


def blocks():
    """The indented blocks of the manual's part on campaigns."""
    manual = contents(os.path.join(REPOSITORY, "docs", "manual.md")).decode()
    part = re.search(r"^## Campaigns\n(.*?)^## ", manual, re.M | re.S)[1]
    return [block.replace("\n    ", "\n")[4:] for block in re.findall(r"(?:^    .*\n)+", part, re.M)]


def shell(folder, program, lines):
    """The output of lines of shell in a folder with ./tock, tools/ and examples/."""
    environment = dict(os.environ, TOCK_PROGRAM=program, HOME=folder)
    return subprocess.run(["bash", "-e", "-c", lines], cwd=folder, env=environment, capture_output=True, text=True,
                          timeout=200)


def logged(folder, name):
    """The numbers of the runs in a log, and how many did not answer 0."""
    with open(os.path.join(folder, name)) as log:
        rows = [line.rstrip("\n").split("\t") for line in list(log)[1:]]
    return sorted(int(row[0]) for row in rows), sum(row[6] != "0" for row in rows)


def linked(folder):
    """A folder in which the manual's lines can be typed."""
    for path in (TOCK, EXAMPLES, os.path.join(REPOSITORY, "tools")):
        os.symlink(path, os.path.join(folder, os.path.basename(path)))


def scripts_in_the_manual(program):
    """The runs over scripts end as the manual says, and their picture is the one that it shows; each run has what it
    wrote in a folder of its own. An interrupted log is gone on with."""
    makes, runs, counts = blocks()[:3]
    with tempfile.TemporaryDirectory() as folder:
        linked(folder)
        made = shell(folder, program, makes)
        # The first runs, as where it was interrupted, and then all that are missing; parallel answers how many failed.
        runs = runs.replace(">/dev/null", ">/dev/null || true")
        shell(folder, program, runs.replace("scripts/*.script", "$(ls scripts/*.script | head -50)"))
        end = shell(folder, program, runs.replace("--bar", "--bar --resume"))
        numbers, refused = logged(folder, "answers.log")
        kept = sorted(os.listdir(os.path.join(folder, "answers", "7")))
        picture = run([TOOL, "--picture", "answers"], cwd=folder)
    if made.returncode or made.stderr or (end.stdout, len(numbers), refused) != (counts, SCRIPTS, 4):
        return "%s, %d runs, %d refused: %s" % (made.stderr, len(numbers), refused, end.stdout + end.stderr)
    if kept != ["seq", "stderr", "stdout"]:
        return "of a run is kept %s" % kept
    return None if picture.stdout == contents(PICTURE).decode() else "another picture than docs/campaign.svg"


def others_in_the_manual(program):
    """All images run, and the generated ones end as the manual says."""
    runs, counts, said = blocks()[3:]
    with tempfile.TemporaryDirectory() as folder:
        linked(folder)
        end = shell(folder, program, "export TOCK_QUIET=1\n" + runs)
        number = len([name for name in os.listdir(os.path.join(EXAMPLES, "images")) if name.endswith(".bin")])
        if end.returncode or logged(folder, "images.log") != (list(range(1, number + 1)), 0):
            return "the images: %d, %s" % (end.returncode, end.stderr[-200:])
        if logged(folder, "soaks.log") != (list(range(1, 101)), 0):
            return "the generated ones: %s" % end.stderr[-200:]
        end = shell(folder, program, counts)
    return None if end.stdout == said else "they ended otherwise: %s" % end.stdout


def typed(folder, number):
    """Writes so many files of lines, and gives their names."""
    names = ["typed/%d.txt" % at for at in range(number)]
    for at, name in enumerate(names):
        write(folder, name, "buttons 2\n%d type number %d\n+10 tap 1\n" % (at, at))
    return names


def many_scripts(program):
    """Many scripts are made at once, each as it is made alone, within two seconds."""
    with tempfile.TemporaryDirectory() as folder:
        names = typed(folder, SCRIPTS)
        start = time.monotonic()
        end = run([SCRIPT_TOOL, "--into", "made"] + names, cwd=folder)
        seconds = time.monotonic() - start
        made = sorted(os.listdir(os.path.join(folder, "made")))
        if (end.returncode, end.stdout + end.stderr, len(made)) != (0, "", SCRIPTS) or seconds > SECONDS:
            return "%d scripts in %.1f seconds: %s" % (len(made), seconds, end.stderr)
        for at in (0, 7, SCRIPTS - 1):
            alone = run([SCRIPT_TOOL, names[at]], cwd=folder).stdout
            if contents(os.path.join(folder, "made", "%d.script" % at)).decode() != alone or not alone:
                return "%d.script is another one than that which is made alone" % at
    return None


def wrong_scripts(program):
    """Where a line is wrong its file is told, and no script is made; nor is one where it would be written over."""
    with tempfile.TemporaryDirectory() as folder:
        names = typed(folder, 7)
        write(folder, "typed/5.txt", "leds 1\n5 tipe x\n")
        for words, said in ((names, "tools/script: typed/5.txt: line 2: this is neither type"),
                            (names[:1] * 2, "typed/0.txt: new/0.script would be written over"),
                            (["none"], "none: No such file or directory")):
            end = run([SCRIPT_TOOL, "--into", "new"] + words, cwd=folder)
            if end.returncode != 1 or said not in end.stderr or os.path.exists(os.path.join(folder, "new")):
                return "%s: %d, %r" % (words[:3], end.returncode, end.stderr)
    return None


def imported(program):
    """A program makes scripts by what it imports; what it is told of a wrong line has its number."""
    lines = ("import sys; sys.path.insert(0, %r)\nfrom typed import Wrong, script_of\n"
             "print(script_of(['5 press 1', 'buttons 2']), end='')\ntry:\n    script_of(['leds 1', '5 pres 1'])\n"
             "except Wrong as wrong:\n    print(str(wrong).split(':')[0])" % os.path.join(REPOSITORY, "tools", "told"))
    end = run([sys.executable, "-c", lines])
    return None if end.stdout == "buttons 2\nat 5 press 1\nline 2\n" else "made %r, %r" % (end.stdout, end.stderr)


# A run of each outcome: an image, a script, how many steps; and the outcome. The last prints a report that is none.
REPORT = b"==\nslot 0 - faulted fetch 00000000 illegal turns 1 restarts 0\nleds -\nend done steps 1 time 1\n"
RUNS = [(EXIT_7, "", 10, "code not 0"), (EXIT_7, "leds x", 10, "no report"), (b"", "", 10, "nothing ran"),
        (FAULTS + SPINS, "", 10, "faulted"), (SPINS + NAPS, "", 10, "not done"), (NAPS + NAPS, "", 10, "waits"),
        (NAPS, "", 0, "not done"), (NAPS + FAULTS + EXIT_7, "", 100, "faulted"), (NAPS + EXIT_7, "", 100, "code not 0"),
        (SPINS, "at 3 do terminate spins", 100, "ended with 0"),
        (EXIT_7, "at 1 do stop -", 100, "waits")]


def kept_runs(program, folder):
    """Makes the runs above, each with its text in a folder of its own; their outcomes by these folders."""
    for number, (image, script, turns, outcome) in enumerate(RUNS):
        with open(os.path.join(folder, "image"), "wb") as file:
            file.write(image)
        write(folder, "script", script)
        text = run([program, "boot", "image", "script", "--turns", str(turns)], cwd=folder).stdout
        write(folder, "kept/run-%d/stdout" % number, text)
        write(folder, "kept/run-%d/stderr" % number, "nothing")
    return {"run-%d" % number: outcome for number, (_, _, _, outcome) in enumerate(RUNS)}


def counted(program):
    """A run is counted by how it ended, whatever its text says before the report; the picture has each in its column,
    by number and by time."""
    with tempfile.TemporaryDirectory() as folder:
        outcomes = kept_runs(program, folder)
        with open(os.path.join(folder, "faked"), "wb") as file:
            file.write(REPORT + contents(os.path.join(folder, "kept", "run-9", "stdout")))
        table = run([TOOL, "kept", "faked"], cwd=folder).stdout
        named = run([TOOL, "--which", "waits", "kept"], cwd=folder).stdout.split()
        pictures = [run([TOOL, "--picture", "--by", by, "kept"], cwd=folder).stdout for by in ("number", "time")]
    expected = list(outcomes.values()) + ["ended with 0"]
    found = {name: int(count) for count, name in re.findall(r"^ +(\d+) (.*)$", table, re.M)}
    if any(found[name] != expected.count(name) for name in set(found) - {"runs"}) or found["runs"] != len(expected):
        return "counted %s" % table
    if named != sorted(name for name, outcome in outcomes.items() if outcome == "waits"):
        return "named %s" % named
    shown = {name: outcome for outcome, names in re.findall(r"<title>\d+ ([^:]+): ([^<]*)</title>", pictures[0])
             for name in names.split()}
    if shown != outcomes:
        return "drawn %s" % shown
    drawn = [len(names.split()) for names in re.findall(r"<title>\d+ [^:]+: ([^<]*)</title>", pictures[1])]
    return None if sum(drawn) == len(RUNS) - 1 else "by time %s are drawn" % drawn


def no_campaigns(program):
    """Where there is no run, or none that has a time, that is said."""
    with tempfile.TemporaryDirectory() as folder:
        write(folder, "text", "script 1 words\n")
        os.mkdir(os.path.join(folder, "nothing"))
        for words, said in ((["none"], "none: No such file or directory"), (["nothing"], "no run is kept in nothing"),
                            (["--picture", "--by", "time", "text"], "no run has a report, so none has a time")):
            end = run([TOOL] + words, cwd=folder)
            if (end.returncode, end.stdout, end.stderr) != (1, "", "campaign: %s\n" % said):
                return "%s: %d, %r" % (words, end.returncode, end.stderr)
    return None


def checks(program):
    """Each check with its name."""
    found = [("campaign-" + check.__name__.replace("_", "-"), lambda check=check: check(program))
             for check in (many_scripts, wrong_scripts, imported, counted, no_campaigns)]
    if shutil.which("parallel"):
        return found + [("campaigns", lambda: scripts_in_the_manual(program)),
                        ("campaigns-of-others", lambda: others_in_the_manual(program))]
    print("campaigns: not tried without GNU parallel")
    return found
