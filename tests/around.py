"""Checks of what stands around the program: examples/tour, and tock_look, the program beside it; and those that compare
two runs of the program. `checks` gives each with its name, for tests/run."""

import os
import re
import shlex
import tempfile

from cases.case import REPOSITORY
from cases.programs import BREAKPOINT, ECHO, EXIT_7, SPINS, WAKES, draws, prints, storage_reads
from common import EXAMPLES, IMAGES, SCRIPTS, contents, run
from flash_images import A0, A1, app, exits, li, lw, mv, padding, S1

LOOK = os.path.join("crates", "tock_look", "out", "tock_look")


def tour(program):
    """Each run of the tour comes to its text, and each image of an application in C is in it."""
    end = run([os.path.join(EXAMPLES, "tour"), program])
    left_out = [name for name in os.listdir(IMAGES) if "examples/images/" + name not in end.stdout]
    if end.returncode or end.stderr:
        return end.stdout[-500:] + end.stderr
    return None if sorted(left_out) == ["exit7.bin", "three.bin"] else "not in the tour: %s" % left_out


def lines_of(program, folder, image, script, slot, turns=100000):
    """What a trace of an image under a script tells of a slot, but for the last lines of the report, by its times; the
    line of the report; and when the run ended."""
    for name, content in (("image", image), ("script", script)):
        with open(os.path.join(folder, name), "wb") as file:
            file.write(content)
    text = run([program, "trace", "image", "script", "--turns", str(turns)], cwd=folder).stdout
    told = [(int(time), line) for time, line in re.findall(r"^@(\d+) %d (.*)$" % slot, text, re.M)]
    report = re.findall(r"^slot %d .*$" % slot, text, re.M)
    return told, report, int(text.split()[-1])


def partitioned_pair(program):
    """In its partition an application does the same at the same times beside two that differ, one of which spins,
    prints, has alarms come, faults and starts again; and without partitions it does not."""
    def images(*names):
        return [contents(os.path.join(IMAGES, name + ".bin")) for name in names]

    script = contents(os.path.join(SCRIPTS, "partition.script"))
    without = re.sub(rb"(?m)^partition .*$", b"", script)
    page = contents(os.path.join(REPOSITORY, "docs", "applications.md")).decode()
    lines = int(re.search(r"tells of both the same (\d+) lines of slot 1", page)[1])
    with tempfile.TemporaryDirectory() as folder:
        for slot, pair in ((1, images("beside_quiet", "beside_hostile")), (0, images("victim", "spied"))):
            one, other = [lines_of(program, folder, image, script, slot)[:2] for image in pair]
            if one != other or len(one[0]) != lines or len(one[1]) != 1:
                return "slot %d differs, or has not %d lines: %r" % (slot, lines, other)
            one, other = [lines_of(program, folder, image, without, slot)[0] for image in pair]
            if one == other:
                return "without partitions slot %d does not differ" % slot
    return None


def hostile(program):
    """The neighbour that is hostile sets an alarm for the next tick before each line that it prints, three in each of
    three lives."""
    script = contents(os.path.join(SCRIPTS, "partition.script"))
    with tempfile.TemporaryDirectory() as folder:
        told = lines_of(program, folder, contents(os.path.join(IMAGES, "beside_hostile.bin")), script, 0)[0]
    done = re.findall(r"^(out|call 2 00000000 00000005 00000001|denied)", "\n".join(line for _, line in told), re.M)
    return None if done == (["call 2 00000000 00000005 00000001", "out"] * 3 + ["denied"]) * 3 else "it did %s" % done


# What each slot has of its own: windows, input, random words, faults of storage, and a serial line that is slow.
ALL_LANES = b"""partition 7
uart 3
policy restart
storage 16
storage-fault 1
storage-fault 3
random 11223344 55667788
at 20 input 6869
at 300 input 21
"""


def partition_neighbours(program):
    """Whatever stands in the slots below and above, what a slot does up to the end of both runs is the same, at the
    same times."""
    kinds = [EXIT_7, BREAKPOINT, ECHO, WAKES, prints(b"p" * 70), draws(6, 8, lw(A1, S1)), app(exits(1)),
             storage_reads([(0, 4)] * 3, mv(A1, A0))]
    objects = [kind + padding(512 - len(kind)) for kind in kinds + [SPINS]]
    with tempfile.TemporaryDirectory() as folder:
        for place, middle in enumerate(objects[:len(kinds)]):
            runs = [lines_of(program, folder, other + middle + other, ALL_LANES, 1, 1500) for other in objects]
            for index, (told, _, end) in enumerate(runs):
                both = min(end, runs[0][2])
                if not told or until(told, both) != until(runs[0][0], both):
                    return "program %d beside program %d: %r" % (place, index, told)
    return None


def until(told, end):
    """The lines before a time."""
    return [line for line in told if line[0] < end]


# Words that are no commands of tock_look, behind those of two files; and files that a run refuses.
NO_COMMANDS = [["at 16"], ["boot", "steps 0 4294967296"], ["at  0"], ["memory 0 x 1"], ["state", ""],
               ["steps 0 100,1,2"], ["trace 0 100,1,2"], ["turns 0 1 100,1,2"]]
BAD_FILES = [["none", "none"], ["images/greet.bin", "none"], ["images/greet.bin", "images/greet.bin"]]


def looking(program):
    """tock_look writes what its page shows; its trace and its state at the end are those of the program; words that are
    no commands have the usage line, and bad files are refused as the program refuses them."""
    look = os.path.join(REPOSITORY, LOOK)
    page = contents(os.path.join(REPOSITORY, "docs", "looking.md")).decode()
    blocks = [block.replace("\n    ", "\n")[4:] for block in re.findall(r"(?:^    .*\n)+", page, re.M)]
    shown = [(block, after) for block, after in zip(blocks, blocks[1:]) if block.startswith(LOOK)]
    if len(shown) != 1:
        return "docs/looking.md shows %d runs" % len(shown)
    end = run(shlex.split(shown[0][0].replace("\\\n", "")), cwd=REPOSITORY)
    if (end.returncode, end.stdout, end.stderr) != (0, shown[0][1], ""):
        return "docs/looking.md shows another text than %r" % end.stdout
    files = ["images/together.bin", "scripts/operator.script"]
    trace, report = run([program, "trace"] + files + ["--turns", "1000"], cwd=EXAMPLES).stdout.split("==\n")
    end = run([look] + files + ["trace 0 50", "trace 0 1000", "state"], cwd=EXAMPLES)
    told = "".join(re.findall(r"^@.*\n", end.stdout, re.M))
    state = re.findall(r"^(?:slot|leds|end) .*\n", end.stdout, re.M)
    if (end.returncode, told, "".join(state)) != (0, trace, report):
        return "another trace or another end than that of the program: %r" % end.stdout
    for words in NO_COMMANDS:
        end = run([look] + files + words, cwd=EXAMPLES)
        if (end.returncode, end.stdout) != (2, "usage: tock_look FLASH SCRIPT COMMAND ..\n"):
            return "%s: %d, %r" % (words, end.returncode, end.stdout)
    for words in BAD_FILES:
        end = run([look] + words + ["boot"], cwd=EXAMPLES)
        other = run([program, "boot"] + words + ["--turns", "1"], cwd=EXAMPLES)
        if (end.returncode, end.stdout) != (other.returncode, other.stdout) or end.returncode == 0:
            return "%s: %d, %r" % (words, end.returncode, end.stdout)
    return None


# An exit that is refused, since there is none of number 2, and then one with the code 3; each instruction is a turn.
EXITS = app(li(A1, 5), exits(2), li(A1, 3), exits())


def looking_on():
    """tock_look stops at an exit, not at one that is refused; with `partition` its steps are those of the windows."""
    for flash, script, command, line in (
            (EXITS, b"", "until 0 100 - -", r"stop exit 00000000 00000000 00000003 .*\nat 8 8 0 8 "),
            (SPINS * 2, b"partition 5", "steps 1 7", r"stop most\nat 7 7 1 2 ")):
        with tempfile.TemporaryDirectory() as folder:
            for name, content in (("flash", flash), ("script", script)):
                with open(os.path.join(folder, name), "wb") as file:
                    file.write(content)
            end = run([os.path.join(REPOSITORY, LOOK), "flash", "script", command], cwd=folder)
        if not re.match(line, end.stdout):
            return "%s: %r" % (command, end.stdout)
    return None


def checks(program):
    """Each check with its name."""
    found = [("tour", lambda: tour(program)), ("partitioned-pair", lambda: partitioned_pair(program)),
             ("partition-neighbours", lambda: partition_neighbours(program)), ("hostile", lambda: hostile(program))]
    if os.path.exists(os.path.join(REPOSITORY, LOOK)):
        found += [("looking", lambda: looking(program)), ("looking-on", looking_on)]
    else:
        print("looking: not tried, since %s is not built" % LOOK)
    return found
