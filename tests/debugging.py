"""Checks of tools/debug and tools/where, which ask tock_look: what docs/debugging.md shows, and that going back leads
to where going on was. `checks` gives each with its name, for tests/run."""

import os
import random
import re
import shutil
import subprocess
import sys
import tempfile

from cases.case import REPOSITORY

sys.path.insert(0, os.path.join(REPOSITORY, "tools"))
from debugger import past, search
from debugger.board import MOST, Board, Refused, find_look
from debugger.conditions import CannotTell, Program, codes_in, holds
from debugger.output import WRITE, NoText, printed, words_of
from debugger.trace import happened

EXAMPLES, DEBUG = os.path.join(REPOSITORY, "examples"), os.path.join(REPOSITORY, "tools", "debug")
EMPTY = os.path.join(EXAMPLES, "scripts", "empty.script")
GDB = os.environ.get("GDB") or "gdb-multiarch"

# Runs whose turns are gone through in both directions: an image, a script, a slot.
RUNS = [("crash", "threshold", 0), ("together", "operator", 2), ("spied", "empty", 1), ("lanes", "lanes", 2),
        ("press", "press", 0), ("beside_hostile", "partition", 1)]
TURNS, PLACES = 400, 25
# In how many steps it looks for what was last, and from how many on two boards do: the debugger's own, and such that
# these runs have all of them.
WINDOWS = [(past.WINDOWS, search.LEAST), ((10, 50), 20)]

# Commands of tock_look, and why the board stopped at each that made steps.
COMMANDS = ["until 0 1000 - -", "until 0 1000 - -", "until 0 1000 - 536870972", "boot", "until 0 1000 2,2147485904,3 -",
            "until 0 3,4294967295,4294967295 - -", "until 2 1000,1,1 - -", "until 0 1000 2,2147485904,3 -", "boot",
            "last 0 200 - 536870972", "until 0 1000 - -", "until 0 1000 - -", "until 0 1000 - -", "state", "boot",
            "last 0 200 2,2147485904,3 -", "last 0 10 - -", "memory 2 2147485904 3", "storage 1 0 2", "boot",
            "told 0 60 1000", "to 0 300 10", "to 0 300 1000", "told 2 4294967295 1000"]
STOPS = ["stop denied 00000001 00000007 80000800", "stop exit 00000000 00000000 00000000 00000000 800000e0",
         "stop act 00000002", "stop denied 00000001 00000007 80000800", "stop most", "stop range",
         "stop changed 800008d0", "last 152", "stop address 00000000", "stop act 00000002", "stop act 00000002",
         "stop done", "last 85", "stop changed 800008d0", "none", "stop time", "stop most", "stop time", "stop done"]


# What answer keeps after so many steps for each of its two drivers, the one entered last first: an upcall of the alarm,
# which is armed at time 396 for 5000 ticks; an upcall of the console, its buffer, and a read of 15 bytes that waits.
ALARM = [0, 48, 0x200001f8, 0, 0, 0, 1, 396, 5000, 0, 0, 0]
CONSOLE = [1, 96, 0, 0, 0, 0, 0x20000074, 0x2000007a, 0, 0, 0, 0, 0, 0, 0x80000408, 15, 0, 0, 0, 1, 15, 0, 0, 0]
GRANTED = (450, [ALARM, CONSOLE])
# After how many steps grants are compared with the memory in which they lie.
LOOKS = (0, 30, 90, 150, 400)

# What happened in these steps of together with the script operator: of one time first what was done, and then what came
# of it.
HAPPENED = (30, 60, ["@34 slot 0: yield-wait", "@34 slot 0 is yielded",
                     "@41 slot 0 console schedules upcall 1: 0000000d 00000000 00000000",
                     "@42 slot 1: memop 3 (0x0) = success", "@44 slot 1: denied store 80000800 no-region",
                     "@44 slot 1 is faulted"])

# Texts that are printed, each with its run, and for the how many-th time; and in how many steps they are.
PRINTED = [("lost", "empty", b"open", 1), ("victim", "empty", b"secret", 3), ("alarms", "empty", b"fast", 4),
           ("answer", "number", b" is ", 1), ("logger", "threshold", b"start 3", 1), ("together", "operator", b"hi", 1),
           ("together", "operator", b"echo yielded", 1), ("beside_hostile", "partition", b"as it was", 2)]
MOST_PRINTED = 200000
# How a text may be written, and how it may not.
TEXTS = [("open", (b"open", 1)), ("open 12", (b"open", 12)), ('"a b"', (b"a b", 1)), ('"a b" 3 ', (b"a b", 3)),
         ('"\\x41\\n\\"" 2', (b'A\n"', 2)), ("\xc3\xa9", ("\u00e9".encode(), 1))]
NO_TEXTS = ["", '""', "a b", '"a', "open 0", '"a" b', '"\\xg"']

# A session in which a condition is judged, on the way on and back, and the amounts at which it holds.
JUDGED = ["break credit if amount % 8 == 3 && to->balance < 9", "continue", "continue", "continue", "reverse-continue",
          "reverse-continue", "monitor where"]
AMOUNTS = ["3", "11", "19", "11", "3"]

# Conditions of breakpoints as GDB hands them on, each with what it comes to where each register has its number but sp,
# which points to the bytes fe ff ff ff 01 00 00 00; and such as are not told.
CONDITIONS = [("220527", 5), ("220522030227", 8), ("220322050327", -2), ("220322050427", 15), ("220722fe16080527", -3),
              ("220722fe16080727", 1), ("220722020627", 3), ("220722020827", 1), ("220122040927", 16),
              ("22fe160822010a27", -1), ("22fe22010b27", 0x7f), ("22000e27", 1), ("22050e27", 0), ("220c220a0f27", 8),
              ("220c220a1027", 14), ("220c220a1127", 6), ("22001227", -1), ("220522051327", 1),
              ("22fe160822011427", 1), ("22fe160822011527", 0), ("2600021727", 0xfe), ("2600021827", 0xfffe),
              ("2600021927", 0xfffffffe), ("2600021a27", 0x1fffffffe), ("26000219162027", -2),
              ("220120000627220927", 9), ("2200200006220727", 7), ("2100052201220227", 2), ("23123427", 0x1234),
              ("241234567827", 0x12345678), ("25123456789abcdef027", 0x123456789abcdef0), ("2205280227", 10),
              ("220522062927", 5), ("22ff16082a0827", 0xff), ("220122022b0327", 1), ("22012202320127", 1),
              ("220122022203330227", 3), ("26002027", 32)]
ALWAYS, NEVER = bytes.fromhex("220127"), bytes.fromhex("220027")
NOT_TOLD = ["27", "22", "01", "2201220005", "24020000001727", "210000", "26002127", "2201160027", "220132092727"]


def run(words, **how):
    return subprocess.run(words, stdout=subprocess.PIPE, stderr=subprocess.STDOUT, universal_newlines=True, timeout=100,
                          **how)


def shown():
    """What docs/debugging.md shows of a session: GDB's commands, and all that is written."""
    with open(os.path.join(REPOSITORY, "docs", "debugging.md")) as page:
        blocks = re.findall(r"(?:^    .*\n|^\n(?=    ))+", page.read(), re.M)
    text = "\n".join(re.sub(r"^    ", "", block, flags=re.M).strip() for block in blocks
                     if block.lstrip().startswith("(gdb) "))
    return re.findall(r"^\(gdb\) (.*)", text, re.M), text


def built(program, folder, *settings):
    """The image and the program of lost, in a folder; or what went wrong."""
    image = os.path.join(folder, "lost.bin")
    end = run(["make", "-s", "-C", EXAMPLES, "IMAGES=" + folder, "OUT=" + folder, "TOCK=" + program, *settings, image])
    return end.stdout if end.returncode else None


def session(program):
    """GDB writes what docs/debugging.md shows."""
    commands, text = shown()
    with tempfile.TemporaryDirectory() as folder:
        wrong = built(program, folder)
        if wrong:
            return wrong
        with open(os.path.join(folder, "session"), "w") as file:
            file.write("set width 0\nset trace-commands on\n" + "".join(command + "\n" for command in commands))
        end = run([DEBUG, os.path.join(folder, "lost.bin"), EMPTY, "--slot", "0", os.path.join(folder, "lost.elf"),
                   "--", "-nx", "-batch", "-x", os.path.join(folder, "session")])
    written = end.stdout.replace(EXAMPLES + os.sep, "")
    written = written[written.find("+" + commands[0]):written.rfind("[Inferior 1")]
    written = re.sub(r"^\+continue \n", "", written, flags=re.M)
    written = re.sub(r"^\+", "(gdb) ", written, flags=re.M)
    return None if written.strip() == text and len(commands) > 5 else "GDB wrote another text:\n" + written


IN_RUST = ["set language rust", "seek 2*20", "seek-turn 50", "seek-time 0x3c", "set language c"]


def mistyped(program):
    """A place that is no number leaves the session where it is; a place is an expression, of Rust too where the program
    is in it; the program of another application is told."""
    with tempfile.TemporaryDirectory() as folder:
        wrong = built(program, folder)
        if wrong:
            return wrong
        elf = os.path.join(folder, "lost.elf")
        ends = [run([DEBUG, os.path.join(EXAMPLES, "images", image), EMPTY, "--slot", "0", elf, "--", "-nx", "-batch",
                     *[word for command in commands for word in ("-ex", command)]]).stdout
                for image, commands in (("lost.bin", IN_RUST + ["seek 500+0x1f4", "seek 5O", "seek -1",
                                                                "monitor where"]), ("echo.bin", []))]
    if not re.search(r'^Invalid number "5O"\.\nseek takes a number, not -1$', ends[0], re.M):
        return "a mistyped place is not told: " + ends[0]
    steps = re.findall(r"^step (\d+), ", ends[0], re.M)
    if steps[:3] + steps[-1:] != ["40", "50", "60", "1000"] or "is not the program" in ends[0]:
        return "it did not go there, or did not stay at step 1000: " + ends[0]
    told = "lost.elf is not the program of slot 0: flash has other code there"
    return None if told in ends[1] else "another program is not told: " + ends[1]


def where(program):
    """tools/where names the line of the denial, the calls before it, and the end of the run."""
    with tempfile.TemporaryDirectory() as folder:
        wrong = built(program, folder)
        if wrong:
            return wrong
        end = run([os.path.join(REPOSITORY, "tools", "where"), os.path.join(folder, "lost.bin"), EMPTY, "--slot", "0",
                   os.path.join(folder, "lost.elf")])
    lines = ["slot 0 lost: load of 00000004 denied, no-region, at step 3150, time 3147, turn 3148, life 1",
             r"  pc 2000007e \(object \+ 7e\) credit at .*/apps/lost/main.c:20", "  @118 slot 0: yield-wait",
             "1 denial; the run ends so:", "slot 0 lost faulted load 00000004 no-region turns 3148 restarts 0"]
    missing = [line for line in lines if not re.search("^%s$" % line, end.stdout, re.M)]
    return "tools/where does not tell %s: %s" % (missing, end.stdout) if missing or end.returncode else None


class Gone:
    """A run that was gone through: where a process was after each of its turns, and its whole memory."""

    def __init__(self, look, image, script, slot):
        flash = os.path.join(EXAMPLES, "images", image + ".bin")
        self.past = past.Past(look, flash, os.path.join(EXAMPLES, "scripts", script + ".script"))
        self.slot, (self.start, self.end) = slot, self.past.first.block(slot)
        self.seen = [self.here()]
        while len(self.seen) <= TURNS:
            why, _ = self.past.until(slot, MOST, (1, 1), [], [])
            if why[0] in ("done", "most"):
                break
            if self.past.place(slot).turns == len(self.seen):
                self.seen.append(self.here())

    def here(self):
        place = self.past.place(self.slot)
        return vars(place), self.past.memory(self.start, self.end - self.start)

    def is_at(self, turns):
        place, memory = self.here()
        was, kept = self.seen[turns]
        return place["x"] + [place["pc"], place["turns"]] == was["x"] + [was["pc"], was["turns"]] and memory == kept


def turn_by_turn(gone):
    """It goes back over each turn, to where it was."""
    gone.past.seek_turn(gone.slot, len(gone.seen) - 1)
    for turns in range(len(gone.seen) - 2, -1, -1):
        if not gone.past.back(gone.slot) or not gone.is_at(turns):
            return "another place after turn %d, on the way back" % turns
    return None if not gone.past.back(gone.slot) else "it goes back past the first turn"


def anywhere(gone, draws):
    """It goes to any turn, and any step, from anywhere."""
    for turns in draws.sample(range(len(gone.seen)), min(PLACES, len(gone.seen))):
        gone.past.seek_turn(gone.slot, turns)
        if not gone.is_at(turns):
            return "another place at turn %d" % turns
        gone.past.seek(gone.seen[turns][0]["steps"])
        if not gone.is_at(turns):
            return "another place at step %d" % gone.seen[turns][0]["steps"]
    return None


def at_times(gone, draws):
    """It goes to the first step after which it is a time, from anywhere, or to the last one."""
    gone.past.seek(0)
    told = [gone.past.place(gone.slot)]
    while len(told) <= TURNS:
        gone.past.seek(len(told))
        if gone.past.steps < len(told):
            break
        told.append(gone.past.place(gone.slot))
    for time in draws.sample(range(told[-1].time + 1), min(PLACES, told[-1].time + 1)):
        gone.past.seek_time(time)
        if gone.past.steps != next(place.steps for place in told if place.time >= time):
            return "at step %d for time %d" % (gone.past.steps, time)
    return None


def addresses_before(gone, draws):
    """The last place at an address is that of the last turn that began there, also where a condition holds always."""
    for turns in draws.sample(range(1, len(gone.seen)), min(PLACES, len(gone.seen) - 1)):
        address, codes = draws.choice(gone.seen)[0]["pc"], draws.choice(([], [ALWAYS], [NEVER, ALWAYS]))
        gone.past.seek(gone.seen[turns][0]["steps"])
        found = gone.past.last([], {address: codes})
        known = [n for n in range(turns) if gone.seen[n][0]["pc"] == address and gone.seen[n][0]["state"] == "running"]
        if (found is None) != (not known) or known and gone.past.place(gone.slot).turns != known[-1]:
            return "address %08x, before turn %d: %s" % (address, turns, found)
    return None


def changes_before(gone, draws):
    """The last change of a word is found before the step that made it."""
    for turns in draws.sample(range(1, len(gone.seen)), min(PLACES, len(gone.seen) - 1)):
        at = gone.start + 4 * draws.randrange((gone.end - gone.start) // 4)
        word = slice(at - gone.start, at - gone.start + 4)
        gone.past.seek(gone.seen[turns][0]["steps"])
        found = gone.past.last([gone.slot, at, 4], {})
        known = [n for n in range(1, turns + 1) if gone.seen[n][1][word] != gone.seen[n - 1][1][word]]
        before = (known[-1] - 1, known[-1]) if known else ()
        if (found is None) != (not known) or known and gone.past.place(gone.slot).turns not in before:
            return "word %08x, before turn %d: %s" % (at, turns, found)
    return None


def last_before(gone, draws):
    """What was last is found, in whatever windows it is looked for."""
    for past.WINDOWS, search.LEAST in WINDOWS:
        wrong = addresses_before(gone, draws) or changes_before(gone, draws)
        if wrong:
            return "in windows of %s steps: %s" % (past.WINDOWS, wrong)
    return None


def back_and_on(look):
    """In each run going back leads to where going on was."""
    for image, script, slot in RUNS:
        draws = random.Random(image)
        gone = Gone(look, image, script, slot)
        for wrong in (turn_by_turn(gone), anywhere(gone, draws), at_times(gone, draws), last_before(gone, draws)):
            if wrong:
                return "%s, slot %d: %s" % (image, slot, wrong)
    return None


def lines_and_words(look):
    """Commands of lines are answered as those of words are; a line that is none does not end a session."""
    files = [os.path.join(EXAMPLES, "images", "together.bin"), os.path.join(EXAMPLES, "scripts", "operator.script")]
    words = subprocess.run([look] + files + COMMANDS, stdout=subprocess.PIPE, universal_newlines=True)
    lines = subprocess.run([look] + files, input="\n".join(["until 0"] + COMMANDS), stdout=subprocess.PIPE,
                           universal_newlines=True)
    whole = words.stdout.count("= ok\n") == len(COMMANDS)
    if (lines.returncode, lines.stdout, whole) != (0, "= words\n" + words.stdout, True):
        return "%r, %r" % (lines.stdout, words.stdout)
    stops = re.findall(r"^(?:stop|last) .*|^none", words.stdout, re.M)
    return None if stops == STOPS else "stopped so: %s" % stops


def files_of(image, script):
    return [os.path.join(EXAMPLES, "images", image + ".bin"), os.path.join(EXAMPLES, "scripts", script + ".script")]


def grants_of(look):
    """The words of grants are those of a process's memory from its kernel break on, and each driver's are its own."""
    for image, script, _ in RUNS:
        board = Board(look, *files_of(image, script))
        for steps in LOOKS:
            board.seek(0, steps)
            for slot, kept in board.state().slots.items():
                at, end = kept.numbers["kernel-break"][0], kept.numbers["block"][1]
                told = b"".join(word.to_bytes(4, "little") for grant in kept.grants for word in grant)
                if told != board.memory(slot, at, end - at):
                    return "%s, slot %d after %d steps: %s" % (image, slot, steps, kept.grants)
        board.end()
    board = Board(look, *files_of("answer", "number"))
    board.seek(0, GRANTED[0])
    grants = board.state().slots[0].grants
    return None if grants == GRANTED[1] else "answer keeps %s" % grants


def causes_first(look):
    """Of what happens at one time causes are told before what came of them."""
    first, last, lines = HAPPENED
    told = [line for _, line in happened(Board(look, *files_of("together", "operator")), first, last)]
    return None if told == lines else "told: %s" % told


def outs(lines, slot):
    """What lines of a trace tell that a process printed."""
    words = [line.split() for line in lines]
    return b"".join(bytes.fromhex(word[3]) for word in words if word[1:3] == [str(slot), "out"])


def places_of(text, part):
    """Where a part stands in a text."""
    return [at for at in range(len(text)) if text.startswith(part, at)]


def handed_over(look):
    """Where a text is printed is before the call by which its first byte is handed to the console, or before the
    operator's act; not printed so often, it is not found."""
    for image, script, text, times in PRINTED:
        board = Board(look, *files_of(image, script))
        steps, slot = printed(board, text, times, MOST_PRINTED)
        _, before = board.moved(board.ask("trace", 0, steps))
        _, now = board.moved(board.ask("trace", 0, 1))
        _, after = board.moved(board.ask("trace", 0, MOST_PRINTED))
        is_there = WRITE.match(now[0]) or now[0].split()[2:] == ["act", "list"]
        own = [number for number, line in enumerate(after) if line.split()[1] == str(slot) and WRITE.match(line)]
        came, comes = outs(before, slot), outs(now + after[:own[0] if own else None], slot)
        begins = places_of(came + comes + outs(after[own[0]:] if own else [], slot), text)[times - 1]
        if not is_there or not len(came) <= begins < len(came + comes) or now[0].split()[1] != str(slot):
            return "%s: %r stands at %d, and is found after %d steps, before %s" % (image, text, begins, steps, now)
        if printed(board, text, 1000, MOST_PRINTED):
            return "%s: %r is found a thousand times" % (image, text)
        board.end()
    return None


def texts():
    """A text is a word, or stands in quotes with escapes as in C; a number may follow."""
    wrong = ["%s: %s" % (words, words_of(words)) for words, said in TEXTS if words_of(words) != said]
    for words in NO_TEXTS:
        try:
            wrong.append("%s: %s" % (words, words_of(words)))
        except NoText:
            pass
    return "; ".join(wrong) or None


def judged(program):
    """Conditions that are judged here stop a run where GDB, which judges them itself, has it stop."""
    with tempfile.TemporaryDirectory() as folder:
        wrong = built(program, folder)
        if wrong:
            return wrong
        texts = [run([DEBUG, os.path.join(folder, "lost.bin"), EMPTY, "--slot", "0", os.path.join(folder, "lost.elf"),
                      "--", "-nx", "-batch", "-ex", "set breakpoint condition-evaluation " + where,
                      *[word for command in JUDGED for word in ("-ex", command)]]).stdout
                 for where in ("host", "target")]
    amounts = re.findall(r"^Breakpoint 1, credit .*amount=amount@entry=(\d+)", texts[1], re.M)
    return None if texts[0] == texts[1] and amounts == AMOUNTS else "GDB: %s\nhere: %s" % tuple(texts)


def gdb_says(folder, commands):
    """What GDB says to commands, on the run of lost."""
    return run([DEBUG, os.path.join(folder, "lost.bin"), EMPTY, "--slot", "0", os.path.join(folder, "lost.elf"), "--",
                "-nx", "-batch", *[word for command in commands for word in ("-ex", command)]]).stdout


def sought(program):
    """`seek-output` goes to where a text is printed, and stays where it is not; what is no text is told."""
    with tempfile.TemporaryDirectory() as folder:
        wrong = built(program, folder)
        if wrong:
            return wrong
        said = gdb_says(folder, ["seek 3000", "seek-output open", "backtrace", "seek-output nowhere", "monitor where",
                                 'seek-output "o\\160en" 2', 'seek-output "\\xg"', "seek-output", "continue"])
    places = re.findall(r"^step (\d+), ", said, re.M)
    lines = ["this is not printed in the first 100000000 steps",
             "this is not printed 2 times in the first 100000000 steps",
             r"seek-output TEXT \[N\]: a text with blanks stands in quotes",
             r"#\d+  main \(\) at .*/apps/lost/main.c:52", "open",
             "slot 0: load of 00000004 is denied: no-region .*"]
    missing = [line for line in lines if not re.search("^%s$" % line, said, re.M)]
    is_there = len(places) == 6 and len(set(places[1:])) == 1 and 0 < int(places[1]) < 3000
    return None if is_there and not missing and "at once" not in said else "%s is missing: %s" % (missing, said)


def locals_there(program):
    """Built with OPT=-Og an application has its locals: a condition on one holds where it should, on the way on and
    back."""
    with tempfile.TemporaryDirectory() as folder:
        wrong = built(program, folder, "OPT=-Og")
        if wrong:
            return wrong
        said = gdb_says(folder, ["break main.c:37 if i == 3 && length == 12", "continue", "print i", "stepi",
                                 "reverse-continue", "print bank.note[i]"])
    stops = re.findall(r"^Breakpoint 1, clear_note \(length=12\)", said, re.M)
    return None if len(stops) == 2 and "\n$1 = 3\n" in said and "\n$2 = 0 '\\000'" in said else "GDB: " + said


def no_reads(program):
    """`rwatch` and `awatch` are refused, and the run goes on behind them; so it does where another way to ask for them
    was taken, once that is deleted, which is said."""
    with tempfile.TemporaryDirectory() as folder:
        wrong = built(program, folder)
        if wrong:
            return wrong
        texts = [gdb_says(folder, commands + ["continue"]) for commands in (
            ["rwatch bank", "awatch bank"],
            ['interpreter-exec mi "-break-watch -r bank"', "continue", "delete"])]
    said = [r"^rwatch is not there: no read is looked for.*\nawatch is not there: no read is looked for",
            r"^debug: no read is looked for: delete this watchpoint"]
    wrong = [text for text, line in zip(texts, said)
             if not re.search(line, text, re.M) or "received signal SIGSEGV" not in text]
    return "GDB: %s" % wrong[0] if wrong else None


def other_kinds(look):
    """An ELF file in place of an image, and an image in that of a script, are told by tools/debug and tools/where."""
    with tempfile.TemporaryDirectory() as folder:
        elf, image = os.path.join(folder, "mine.elf"), os.path.join(EXAMPLES, "images", "greet.bin")
        with open(elf, "wb") as file:
            file.write(b"\x7fELF" + bytes(60))
        for words, said in (
                ([elf, EMPTY], elf + ": it is an ELF file: take mine.bin, the image that is made of it"),
                ([EMPTY, image], image + ": it is a flash image, and no script: FLASH comes first, and then SCRIPT")):
            for tool in ("debug", "where"):
                told = run([os.path.join(REPOSITORY, "tools", tool), *words]).stdout
                if told != "%s: %s\n" % (tool, said):
                    return told
    return None


def conditions():
    """Each operation of a condition comes to what GDB's manual says; one that is not told is taken to hold."""
    registers, bytes_there = [0, 1, 0x80000000] + list(range(3, 33)), b"\xfe\xff\xff\xff\1\0\0\0"

    def memory(at, count):
        return bytes_there[at - 0x80000000:][:count] if at >= 0x80000000 else b""
    wrong = [text for text, value in CONDITIONS
             if Program(bytes.fromhex(text), registers, memory).value() != value % 2 ** 64]
    for text in NOT_TOLD:
        try:
            wrong.append("%s is %d" % (text, Program(bytes.fromhex(text), registers, memory).value()))
        except CannotTell:
            wrong += [] if holds([bytes.fromhex(text)], registers, memory) else ["%s does not hold" % text]
    if codes_in("X3,220027X2,2701;cmds:0,X1,27") != [b"\x22\0\x27", b"\x27\1"] or codes_in(""):
        wrong.append("the conditions in a packet are not found")
    return "conditions: %s" % wrong if wrong else None


def checks(program, has_compiler):
    """Each check with its name."""
    try:
        look = find_look()
    except Refused as refused:
        print("debugging: not tried: %s" % refused)
        return []
    found = [("back-and-on", lambda: back_and_on(look)), ("lines-and-words", lambda: lines_and_words(look)),
             ("grants", lambda: grants_of(look)), ("causes-first", lambda: causes_first(look)),
             ("conditions", conditions), ("handed-over", lambda: handed_over(look)), ("texts", texts),
             ("other-kinds", lambda: other_kinds(look))]
    if has_compiler:
        found.append(("where", lambda: where(program)))
    if has_compiler and shutil.which(GDB):
        found += [("debugging-session", lambda: session(program)), ("mistyped-places", lambda: mistyped(program)),
                  ("judged-conditions", lambda: judged(program)), ("seek-output", lambda: sought(program)),
                  ("locals", lambda: locals_there(program)),
                  ("no-reads", lambda: no_reads(program))]
    else:
        print("debugging-session, mistyped-places, judged-conditions, seek-output, locals, no-reads: not tried without "
              "the compiler and %s" % GDB)
    return found
