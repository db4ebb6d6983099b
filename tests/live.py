"""Checks of tools/live, which asks tock_look: that the script of a session gives that session again, byte for byte, on
the program, also after going back, and is saved at each event; what is shown, and what it costs. `checks` gives each
with its name, for tests/run; terminals.py has those on a terminal."""

import os
import random
import re
import subprocess
import sys
import tempfile
import time

import terminals
from cases.case import REPOSITORY
from common import EXAMPLES, contents, run, write

sys.path.insert(0, os.path.join(REPOSITORY, "tools"))
from debugger.board import Board, Refused, find_look
from session.cells import Cells, cut, parts_of, picture_of, width_of
from session.console import Console
from session.kept import FARTHEST, MOST_STEPS, PLACES, KeptBoards
from session.plain import Plain
from session.recorded import Event, Recorded
from session.sitting import DEEDS, Sitting
from session.view import View

TOOL = os.path.join(REPOSITORY, "tools", "live")
IMAGE = os.path.join(EXAMPLES, "images", "%s.bin")
# Images on which sessions are made by chance, each with a script: settings, and what comes in besides.
SESSIONS = [("echo", ""), ("press", "buttons 2\n"), ("lights", ""), ("together", "at 50 input 68690a\n"),
            ("three", "partition 3\nat 40 input 41\n"), ("buttons", "buttons 3\nuart 7\nat 900 press 1\n"),
            ("beside_hostile", "policy threshold 2\nbuttons 1\n"), ("words", "uart 0\n"),
            ("clock", "start 4294967000\n"), ("logger", "slice 7\n# a comment\nat 300 do list logger\n")]
COMMANDS = 40
# How many steps one by one `times_as_told` looks at, and how many times.
STEPS, TIMES = 3000, 30
# After how many steps boards are kept in a session of few steps, about the present and all over.
NEAR, FAR = 40, 640
# How far a session goes of which the costs are looked at, and the seconds that an event and going back take at most, on
# a machine that does little else.
DEEP, EVENT_SECONDS, BACK_SECONDS = 30000000, 0.1, 1.5


def sitting_at(folder, image, script):
    write(folder, "given", script)
    sitting = Sitting(find_look(), IMAGE % image, os.path.join(folder, "given"), os.path.join(folder, "saved"))
    sitting.present.kept.nearest, sitting.present.kept.farthest = NEAR, FAR
    return sitting


def chance_command(chance, sitting):
    """A command, with what the board has."""
    name = chance.choice([slot.report.split()[2] for slot in sitting.present.state().slots.values()])
    kinds = ["run %d" % chance.choice((1, 2, 10, 90, 700, 5000))] * 4 + ["step", "step %d" % chance.randrange(60)]
    kinds += ["back %d" % chance.choice((1, 30, 1000)), "to %d" % chance.randrange(6000), "undo", "later keep",
              "later drop", "type %s" % ("x" * chance.choice((0, 3, 70))), "send \\x00\\n",
              "tap %d" % chance.randrange(3)]
    kinds += ["to %d" % (event.time + chance.randrange(2)) for event in sitting.recorded.events[-1:]]
    kinds += ["press 0", "release 0"] + ["%s %s" % (verb, name) for verb in (
        "list", "stop", "start", "start", "restart", "terminate")]
    return chance.choice(kinds)


def differs(program, sitting):
    """How the program runs the script as it was saved last, where that is not how the session went; or the script,
    where that is not saved."""
    if Recorded(contents(sitting.out).decode("latin-1")).text() != sitting.recorded.text():
        return "not saved: %r" % sitting.recorded.text()
    end = subprocess.run([program, "boot", sitting.image, sitting.out, "--turns", str(sitting.present.steps)],
                         capture_output=True, timeout=60)
    told = sitting.printed() + b"==\n" + ("\n".join(sitting.present.state().report) + "\n").encode()
    return None if end.stdout == told else "%r in place of %r" % (end.stdout, told)


def strayed(sitting):
    """Where the session is not where a board of its script comes to in that time."""
    board = Board(find_look(), sitting.image, sitting.out)
    board.ask("to", 0, sitting.present.now, MOST_STEPS)
    told, own = board.ask("state"), sitting.present.board.ask("state")
    board.end()
    return None if told == own else "at %d: %r in place of %r" % (sitting.present.now, own, told)


def session_by_chance(program, chance, sitting):
    """What differs at some place of a session, and the commands up to there."""
    made = []
    sitting.save(sitting.out)
    for _ in range(COMMANDS):
        made.append(chance_command(chance, sitting))
        now = sitting.present.now
        try:
            sitting.do(made[-1])
            if sitting.present.time > sitting.present.now:
                return "after %r: it is at %d, past the present" % (made, sitting.present.time)
            wrong = strayed(sitting) if sitting.present.now < now else None
            if wrong:
                return "after %r: %s" % (made, wrong)
            # As on a screen.
            sitting.present.go_to(sitting.present.now + chance.choice((0, 0, 400)))
        except Refused:
            made.pop()
        wrong = differs(program, sitting) if chance.random() < 0.3 else None
        if wrong:
            return "after %r: %s" % (made, wrong)
    wrong = differs(program, sitting)
    return "after %r: %s" % (made, wrong) if wrong else None


def by_chance(program):
    """Sessions of commands by chance: at each point the script, which is saved, gives that session on the program; and
    back a session is where a board of its script comes to in that time."""
    chance = random.Random(11)
    for image, script in SESSIONS:
        with tempfile.TemporaryDirectory() as folder:
            sitting = sitting_at(folder, image, script)
            wrong = session_by_chance(program, chance, sitting)
            sitting.close()
        if wrong:
            return "%s %s" % (image, wrong)
    return None


def times_of(image, script):
    """The times before and after each of the first steps of a run."""
    board = Board(find_look(), IMAGE % image, script)
    times = [0]
    for answer in board.ask_all(["steps 0 1"] * STEPS):
        board.moved(answer)
        times += [board.told.time] if board.steps == len(times) else []
    board.end()
    return times


def misplaced(sitting, times):
    """Where the present is not what it is to be, by the times of the steps."""
    chance = random.Random(5)
    for now in sorted(chance.randrange(min(times[-1], 30000)) for _ in range(TIMES)):
        sitting.do("to %d" % now)
        steps = next(n for n, time in enumerate(times[1:] + [times[-1] + 1]) if times[n] >= now or time > now)
        if (sitting.present.steps, sitting.present.now) != (steps, now):
            return "at %d: %d steps in place of %d" % (now, sitting.present.steps, steps)
    return None


def places(program):
    """At each time exactly those steps are made that begin before it and end at it or before."""
    for image, script in SESSIONS:
        with tempfile.TemporaryDirectory() as folder:
            sitting = sitting_at(folder, image, script)
            wrong = misplaced(sitting, times_of(image, os.path.join(folder, "given")))
            sitting.close()
        if wrong:
            return "%s %s" % (image, wrong)
    return None


def changed_by_event(folder, sitting):
    """Whether an event in the present changes the steps that were made."""
    here = sitting.present
    write(folder, "longer", sitting.recorded.text(sitting.recorded.with_events(
        [Event(here.next, ["at %d input 7a\n" % here.next], here.now)], True)))
    board = Board(find_look(), sitting.image, os.path.join(folder, "longer"))
    board.seek(0, here.steps)
    told, own = board.ask("state"), here.board.ask("state")
    board.end()
    return [line for line in told if line[:4] != "end "] != [line for line in own if line[:4] != "end "]


def events_at_each_step(program):
    """An event in the present changes none of the steps that were made, after each step and after some ticks."""
    for image, script in SESSIONS[:6]:
        with tempfile.TemporaryDirectory() as folder:
            sitting, wrong = sitting_at(folder, image, script), None
            for at in range(200):
                if at % 4 < 3:
                    sitting.present.step(1)
                else:
                    sitting.present.go_to(sitting.present.now + 5)
                if changed_by_event(folder, sitting):
                    wrong = "%s after %d steps, at %d" % (image, sitting.present.steps, sitting.present.now)
                    break
            sitting.close()
        if wrong:
            return wrong
    return None


# Images of which one makes turns all the time, and others wait, each with a script; and what is done before one goes
# back. With windows a board that has nothing left to do has passes as soon as an event is to come.
BUTTONS, WINDOWS = "buttons 1\n", "partition 3\nat 40 input 41\n"
BACK_IN = [("crunch", BUTTONS), ("press", BUTTONS), ("lights", BUTTONS), ("together", BUTTONS),
           ("beside_hostile", BUTTONS), ("three", WINDOWS)]
BEFORE_BACK = {BUTTONS: ["tap 0", "run 100", "send a", "run 30", "tap 0", "run 170", "type b", "run 300"],
               WINDOWS: ["run 700", "send a", "to 650"]}


def back_at_events(program):
    """Back before an event, at its time, or behind it a session is where a board of its script comes to in that time,
    though the board that it goes on from was kept before the event was made; and then it goes on with each event."""
    for image, script in BACK_IN:
        with tempfile.TemporaryDirectory() as folder:
            sitting, wrong = sitting_at(folder, image, script), None
            try:
                for line in BEFORE_BACK[script]:
                    sitting.do(line)
                wrong = strayed(sitting)
                times = {event.time + ticks for event in sitting.recorded.events for ticks in (0, 1, 2)}
                for now in sorted(times, reverse=True):
                    sitting.do("to %d" % now)
                    wrong = wrong or strayed(sitting)
                sitting.do("run 900")
                sitting.save(sitting.out)
                wrong = wrong or differs(program, sitting)
            finally:
                sitting.close()
        if wrong:
            return "%s %s" % (image, wrong)
    return None


class Counted:
    """The commands that the board of a session gets, and how many steps it makes by them."""

    def __init__(self, board):
        self.board, self.asks, self.commands, self.steps = board, board.ask, [], 0
        board.ask = self.ask

    def ask(self, *words):
        answer = self.asks(*words)
        self.commands.append(words[0])
        if words[0] == "to":
            self.steps += int(answer[-1].split()[1]) - self.board.steps
        return answer

    def of(self, does):
        """What a deed takes: commands, steps, and seconds."""
        self.commands, self.steps, began = [], 0, time.monotonic()
        does()
        return self.commands, self.steps, time.monotonic() - began


def costs(program):
    """An event is one command to the board, however many steps it made; going back makes few of them again, and an
    event there none, though it drops another one; on from there it makes those since again. Where nothing else is done
    all this is done at once."""
    with tempfile.TemporaryDirectory() as folder:
        write(folder, "given", "")
        sitting = Sitting(find_look(), IMAGE % "crunch", os.path.join(folder, "given"), None)
        try:
            sitting.do("to %d" % DEEP)
            if sitting.present.steps < DEEP // 2:
                return "makes %d steps alone" % sitting.present.steps
            counted = Counted(sitting.present.board)
            commands, steps, event_took = counted.of(lambda: sitting.do("type x"))
            if (commands, steps) != (["add"], 0):
                return "an event: %s, %d steps" % (commands, steps)
            for ticks in (1, 1000, 1000000, DEEP // 3, DEEP // 3):
                commands, steps, took = counted.of(lambda: sitting.do("back %d" % ticks))
                if commands[0] != "return" or steps > FARTHEST or is_quiet() and took > BACK_SECONDS:
                    return "back by %d: %s, %d steps, %.3f s" % (ticks, commands, steps, took)
                commands, steps, _ = counted.of(lambda: sitting.do("type x"))
                if steps or len(sitting.recorded.events) > 1:
                    return "an event back by %d: %s, %d steps" % (ticks, commands, steps)
            sitting.do("back %d" % (DEEP // 4))
            first = sitting.present.steps
            sitting.do("run %d" % (DEEP // 5))
            commands, steps, _ = counted.of(lambda: sitting.do("type x"))
            if steps > sitting.present.steps - first:
                return "an event back and on: %d steps, from %d on" % (steps, first)
            return "an event took %.3f s" % event_took if is_quiet() and event_took > EVENT_SECONDS else None
        finally:
            sitting.close()


def is_quiet():
    """Whether the machine does little else, so that times tell something."""
    return os.getloadavg()[0] < os.cpu_count() / 2


LARGE_IMAGE = 1 << 20


class AnyBoard:
    """A board of so many steps that is kept anywhere."""

    def __init__(self):
        self.steps, self.told, self.places = 0, None, set()

    def keep(self, place):
        self.places.add(place)


def kept_boards(program):
    """There are places for the boards that are kept, up to a billion steps and also after going back; the next one is
    never far, and near about the present. Of a large image fewer are kept."""
    chance, board = random.Random(3), AnyBoard()
    kept = KeptBoards(board)
    end = 1000000000
    ways = [(0, end)] + [(at, min(end, at + chance.randrange(3 * FARTHEST))) for at in
                         (chance.randrange(end) for _ in range(40))]
    for begin, stop in ways:
        begin = max((steps for steps in kept.found if steps <= begin), default=0)
        for board.steps in range(begin, stop + 1, kept.nearest):
            kept.keep([])
        found = sorted(kept.found)
        gaps = [after - before for before, after in zip(found, found[1:])]
        if max(gaps) > FARTHEST or stop - max(steps for steps in found if steps <= stop) > kept.nearest:
            return "after %d steps: %s" % (stop, found)
    if KeptBoards(board, LARGE_IMAGE).farthest <= FARTHEST:
        return "keeps as many boards of a large image"
    return None if max(board.places) < PLACES else "takes place %d" % max(board.places)


MANY = "buttons 2\n" + "".join("at %d input 41\n" % (9000 + n) for n in range(4094))
# A script, what is done, of which the last is refused, and what is said of that.
BREAK_RULES = [
    ("partition 3\n", ["run 9", "press 0"], "line 2 of the script is refused: unknown-word: after `partition` (line 1) "
     "there is no line of buttons or of an operator"),
    ("buttons 1\n", ["to 4294967250", "tap 0"], "line 3 of the script is refused: out-of-range: a time is 0 to "
     "4294967295 ticks, and here it is 4294967350"),
    ("buttons 1\n", ["run 30", "send a", "run 70", "send b", "back 70", "press 1"], "line 3 of the script is refused: "
     "out-of-range: there is no button 1: by line 1 the buttons are 0 to 0"),
    ("buttons 1\n", ["tap 0", "run 150", "send a", "to 1", "run 149", "back 50", "press 1"], "line 4 of the script is "
     "refused: out-of-range: there is no button 1: by line 1 the buttons are 0 to 0"),
    ("buttons 1\n", ["run 100", "send a", "back 70", "run 60", "press 1"], "line 2 of the script is refused: "
     "out-of-range: there is no button 1: by line 1 the buttons are 0 to 0"),
    (MANY, ["run 30", "send a", "run 70", "send b", "back 20", "tap 0"], "line 4098 of the script is refused: "
     "too-many: there are at most 4096 lines `at`"),
    ("# %s\n" % ("x" * 262000), ["send a", "type " + "x" * 64], "the script would be too long: it has at most 262144 "
     "bytes")]


def rules(program):
    """Where an event breaks a rule of the script, that is told in words, and nothing changes; also where the second of
    two events is refused, or others were dropped for it, before which the board was where it had been kept."""
    for script, (*lines, last), said in BREAK_RULES:
        with tempfile.TemporaryDirectory() as folder:
            sitting = sitting_at(folder, "press", script)
            try:
                for line in lines:
                    sitting.do(line)
                before, told = sitting.text(), sitting.present.board.ask("state")
                try:
                    return "does %r: %s" % (last, sitting.do(last))
                except Refused as refused:
                    found = str(refused)
                if (found, sitting.text(), sitting.present.board.ask("state")) != (said, before, told):
                    return "after %r: says %s, and is at %s" % (last, found, sitting.text().partition("\n")[0])
                sitting.save(sitting.out)
                wrong = differs(program, sitting)
            finally:
                sitting.close()
        if wrong:
            return wrong
    return None


def later(program):
    """A new event drops what was done later than it, where that is not to stay, but nothing of the script that was
    given and no release of a tap; and undo brings it back."""
    def events():
        return [" ".join(event.words[1:]) for event in sitting.recorded.events]

    with tempfile.TemporaryDirectory() as folder:
        # A comment of which the bytes of a letter end no line.
        sitting = sitting_at(folder, "press", "buttons 2\n# given, Å as well\nat 500 press 1\n")
        try:
            for line in ("tap 0", "run 50", "send a", "run 200", "press 1"):
                sitting.do(line)
            whole = ["0 press 0", "50 input 61", "100 release 0", "250 press 1", "500 press 1"]
            sitting.do("back 170")
            if events() != whole or sitting.do("send b") != ["at 80 input 62", "dropped 1 later line"]:
                return "has %s" % events()
            if events() != whole[:2] + ["80 input 62", "100 release 0", "500 press 1"]:
                return "has %s" % events()
            sitting.do("undo")
            sitting.do("later keep")
            if events() != whole or sitting.do("send b") != ["at 80 input 62"] or len(events()) != 6:
                return "has %s" % events()
            for _ in range(4):
                sitting.do("undo")
            # Also what was done at the start, where one went back to that meanwhile.
            for line in ("press 0", "run 90", "to 0", "undo"):
                sitting.do(line)
            return None if (events(), sitting.present.now) == (["500 press 1"], 0) else "at last has %s" % events()
        finally:
            sitting.close()


def plain(words, text):
    """How --plain ends that reads a text."""
    return run([TOOL, "--plain"] + words, cwd=REPOSITORY, input=text, env=dict(os.environ, TOCK_LOOK=find_look()))


def of_document(program):
    """The document shows a session with each command in it, and what it writes; and a picture, which is the one that a
    session saves."""
    page = contents(os.path.join(REPOSITORY, "docs", "live.md")).decode()
    blocks = [block.replace("\n    ", "\n")[4:] for block in re.findall(r"(?:^    .*\n)+", page, re.M)]
    shown = [(block, after) for block, after in zip(blocks, blocks[1:]) if re.match("tools/live .* --plain\n", block)]
    if len(shown) != 1:
        return "it shows %d sessions" % len(shown)
    lines = shown[0][1].splitlines(keepends=True)
    typed = "".join(line[2:] for line in lines if line.startswith("> "))
    words = [word for word in shown[0][0].split()[1:] if word != "--plain"]
    end = plain(words, typed)
    text = "".join(line for line in lines if not line.startswith("> "))
    said = end.stderr.startswith("live: the script was not saved; it is\n")
    return None if end.stdout == text and said else "wrote %r" % (end.stdout + end.stderr)


# What a person does for the picture of docs/.
PICTURED = """run 3s
press 0
type hello, board
run 1s
list echo
stop echo
press 3
run 300
type who reads this?
run 1
"""


def of_picture(program):
    """The picture of docs/, and the script of that image in examples/, are those of a session."""
    with tempfile.TemporaryDirectory() as folder:
        picture, script = os.path.join(folder, "live.svg"), os.path.join(folder, "desk.script")
        end = plain(["examples/images/desk.bin", "--out", script], PICTURED + "picture %s\n" % picture)
        for made, kept in ((picture, "docs/live.svg"), (script, "examples/scripts/desk.script")):
            if contents(made) != contents(os.path.join(REPOSITORY, kept)):
                return "%s is another one; the session: %s" % (kept, end.stdout + end.stderr)
    return None


# What is said of lines that are no commands, or that the board does not take.
REFUSED = [("jump 3", "this is no command, or not its words: jump; `help` tells which there are"),
           ("run", "this is no command, or not its words: run; `help` tells which there are"),
           ("run x", "this is no number of ticks, ms or s: x"), ("step x", "this is no number of steps: x"),
           ("press", "press wants the number of a button"), ("send", "there is no text"),
           ("press 2", "line 4 of the script is refused: out-of-range: there is no button 2: by line 1 the buttons are "
            "0 to 1"), ("undo", "nothing was done yet"), ("later on", "later takes drop or keep, not on"),
           ("save", "there is no --out, so save needs the name of a file"),
           ("save none/file", "none/file: No such file or directory"),
           ("picture none/file", "none/file: No such file or directory"),
           ("debug", "there is no --out, so there is no file of the script to debug with"),
           ("debug x", "this is no slot: x"), ("debug 1", "slot 1 has no process"),
           ("go", "go is for a terminal; run goes on by so many ticks"),
           ("list a b", "list wants the name of a process"),
           ("list \u00e9", "a name has 1 to 32 bytes of visible ASCII")]


def refused(program):
    """What cannot be done is told with a line, and nothing changes; so are files that cannot be read."""
    with tempfile.TemporaryDirectory() as folder:
        script = os.path.join(folder, "given")
        write(folder, "given", "buttons 2\n# a comment\nat 3 input 41\n")
        end = plain([IMAGE % "press", script], "run 9\n" + "".join(line + "\n" for line, _ in REFUSED) + "script\n")
        told = [line[2:] for line in end.stdout.splitlines() if line.startswith("? ")]
        if told != [text for _, text in REFUSED] or "\nat 3 input 41\nnow 9 steps 10\n==\n" not in end.stdout:
            return "told %r" % end.stdout
        write(folder, "bad", "buttons 17\n")
        for words, said in (([IMAGE % "none"], "file .* fault"), ([IMAGE % "press", "none"], "none: No such file.*"),
                            ([IMAGE % "press", os.path.join(folder, "bad")],
                             "line 1 of the script is refused: out-of-range: .*")):
            end = plain(words, "")
            if end.returncode != 1 or not re.fullmatch("live: %s\n" % said, end.stderr) or end.stdout:
                return "%s: %d, %r" % (words, end.returncode, end.stderr)
    return None


def helped(program):
    """With --plain `help` tells of each command."""
    with tempfile.TemporaryDirectory() as folder:
        sitting = sitting_at(folder, "press", "")
        try:
            View(sitting, "press.bin")
            Plain(sitting, 1, {})
            text = "\n".join(sitting.do("help"))
            untold = [name for name in [*sitting.commands, *DEEDS]
                      if name != "help" and not re.search(r"^(\S.*, )?%s\b" % name, text, re.M)]
        finally:
            sitting.close()
    return "help tells nothing of %s" % untold if untold else None


def on_any_screen(program):
    """What is shown fits on a screen of any size, with the slots, and letters that are wide or none; and the console is
    where it was scrolled to."""
    with tempfile.TemporaryDirectory() as folder:
        sitting = sitting_at(folder, "together", "buttons 16\n")
        try:
            view = View(sitting, "together.bin")
            for line in ("run 100", "type 你好, wörld e\u0301", "run 1s"):
                sitting.do(line)
            for height in (1, 2, 5, 9, 24):
                for width in (1, 3, 17, 80):
                    for view.prompt, view.help in (("type", False), (None, False), (None, True)):
                        rows = view.cells(height, width).rows
                        if len(rows) != height or any(column + width_of(text) > width for row in rows
                                                      for column, text, _ in row):
                            return "%d x %d: %s" % (height, width, rows)
            text = "\n".join(view.cells(24, 80).text())
            view.help = False
            text = "\n".join(view.cells(24, 80).text())
            if "你好, wörld e\u0301" not in text or "2 echo" not in text:
                return "shows %s" % text
            return cut_at_columns() or scrolled()
        finally:
            sitting.close()


def cut_at_columns():
    """Texts are cut by columns: a wide letter takes two, an accent none."""
    if (cut("a你b", 2), parts_of("你好e\u0301x", 3)) != (("a", "你b"), ["你", "好e\u0301", "x"]):
        return "cuts %s, %s" % (cut("a你b", 2), parts_of("你好e\u0301x", 3))
    cells = Cells(1, 4)
    cells.put(0, 0, "<&>zz")
    return None if ">&lt;&amp;&gt;z</text>" in picture_of(cells) else picture_of(cells)


def scrolled():
    """The console follows what comes, or stays where it was scrolled to; a letter that comes in two parts is one, and
    what has no shape is told as its number."""
    console, events = Console(), []
    lines = ["@%d 0 out %s" % (time, ("line %d\n" % time).encode().hex()) for time in range(9)]
    console.take_in(lines, events, 9)
    console.scroll(4, 3)
    lines += ["@9 0 out c3", "@9 0 out a41b", "@9 1 out 0a410d0a"]
    console.take_in(lines, events, 9)
    seen, below = [text for _, text in console.rows(20, 3)], console.below()
    console.scroll(-9, 3)
    last = [text for _, text in console.rows(20, 3)]
    wanted = (["line 2", "line 3", "line 4"], 6, ["line 8", "ä\\x1b", "A"])
    return None if (seen, below, last) == wanted else "shows %s" % ((seen, below, last),)


def checks(program):
    """Each check with its name."""
    try:
        find_look()
    except Refused as error:
        print("live: not tried: %s" % error)
        return []
    found = (by_chance, places, events_at_each_step, back_at_events, later, rules, kept_boards, costs, of_document,
             of_picture, refused, helped, on_any_screen)
    return [("live-" + check.__name__.replace("_", "-"), lambda check=check: check(program))
            for check in found + terminals.CHECKS]
