"""What ./tock tells on standard error, and that its output and its answer are the program's. `checks` gives each check
with its name, for tests/run."""

import os
import re
import shutil
import subprocess
import sys
import tempfile

from common import EXAMPLES, TOCK, contents, run, write
from cases import CASES
from cases.case import DIRECTORY, REPOSITORY
from cases.programs import CODE_7, EXIT_7, PRINTS, SPINS, THREE
from flash_images import (A0, A1, BUTTON, FLASH, LED, NO_DRIVER, RAM, S0, SP, SUBSCRIBE, ZERO, addi, app, command,
                          exits, fixed_addresses_tlv, hands, jal, memop, mv, sw, yields)

sys.path[:0] = [os.path.join(REPOSITORY, "tools"), os.path.join(REPOSITORY, "tools", "told")]
import commands
import scripts
from debugger.board import Refused, find_look
from program import MOST_LINES

NO_ROOM = "no-room: RAM has no room for its memory; `ram` in the script sets how much there is"
NO_SHARE = ("no-room: its slot's share of RAM, a sixteenth, has no room for its memory; `ram` in the script sets how "
            "much there is")
AFTER_PARTITION = "unknown-word: after `partition` (line 1) there is no line of buttons or of an operator"
NOTHING = "nothing ran: no application of flash has a slot\n"
BLANK = "no process has this name; the names are blink"

# What is told of the runs of these cases.
TOLD = [
    ("exit-with-7", ""),
    ("soak-of-no-turn", ""),
    ("pack-twice", ""),
    ("disable", ""),
    ("too-few-words", "boot FLASH SCRIPT --turns N: there is no SCRIPT"),
    ("list-with-another-word", "`script` is a word too many: list FLASH"),
    ("trace-with-another-flag", "`--turn`: here `--turns` is expected"),
    ("soak-of-a-file", "`flash`: NUMBER has 1 to 10 decimal digits, and no sign"),
    ("soak-of-33-bits", "`4294967296`: NUMBER is at most 4294967295"),
    ("another-command", "`unpack` is no command; is it `pack`?; ./tock --help tells which there are"),
    ("pack-of-no-file", "pack FILE ..: there is no FILE"),
    ("pack-of-65-files", "pack takes at most 64 files, and here are 65"),
    ("word-that-is-not-utf-8", r"`\xff` is no command; ./tock --help tells which there are"),
    ("file-that-is-not-utf-8", r"`flash\xff`: it is not UTF-8"),
    ("no-flash-file", "flash: No such file or directory"),
    ("no-script-file", "script: No such file or directory"),
    ("flash-is-a-directory", "flash: Is a directory"),
    ("list-of-no-file", "flash: No such file or directory"),
    ("edit-of-no-file", "flash: No such file or directory"),
    ("pack-fault-before-a-refusal", "none: No such file or directory"),
    ("pack-too-long-a-file", "script: it has 1048577 bytes, and a flash image has at most 1048576"),
    ("flash-too-long", "flash: it has 1048577 bytes, and a flash image has at most 1048576"),
    ("script-too-long", "script: it has 262145 bytes, and a script has at most 262144"),
    ("boot-past-a-bad-checksum",
     "flash: the object at 0 was not run: bad-checksum: its header's checksum is wrong"),
    ("list-past-a-bad-checksum", "flash: the object at 0 is not run: bad-checksum: its header's checksum is wrong"),
    ("flash-start-of-another-place", "flash: the object at 0 is not run: wrong-flash: it is linked for the address "
     "0x20000030 of flash, and stands at 0x2000002c"),
    ("seventeen-applications", "flash: the object at 1024 was not run: no-slot: all sixteen slots are taken"),
    ("sixteen-windows", "flash: the object at 1024 was not run: no-slot: all sixteen slots are taken"),
    ("five-applications-in-4096-bytes", "flash: the object at 256 was not run: " + NO_ROOM),
    ("shares-of-nothing",
     NOTHING + "\n".join("flash: the object at %d was not run: %s" % (at, NO_SHARE) for at in (0, 64))),
    ("fixed-ram-start-that-is-no-multiple-of-8", NOTHING + "flash: the object at 0 was not run: fixed-taken: the RAM "
     "start for which it is linked, 0x80000404, is no multiple of 8"),
    ("fixed-ram-start-below-ram", NOTHING + "flash: the object at 0 was not run: fixed-taken: the RAM start for which "
     "it is linked, 0x7ffffff8, lies below RAM"),
    ("fixed-ram-start-below-the-last-end", "flash: the object at 128 was not run: fixed-taken: the RAM start for which "
     "it is linked, 0x80000400, lies below the end of the block before it"),
    ("fixed-ram-start-of-no-share", "flash: the object at 64 was not run: fixed-taken: the address of RAM for which it "
     "is linked is not where its slot's share starts"),
    ("bytes-after-the-last-object", "flash: the 4 bytes from 64 on are no object: a header has 16 at least"),
    ("list-of-16-bytes",
     "flash: the 16 bytes from 0 on are no object: an object of 64 bytes begins here, and 16 are left"),
    ("total-size-that-is-no-multiple",
     "flash: the 64 bytes from 0 on are no object: its header says 62 bytes, and an object has 16 at least, in fours"),
    ("flash-at-the-limit",
     NOTHING + "flash: the 1048576 bytes from 0 on are no object: a header begins with version 2, and here is 0"),
    ("empty-flash", NOTHING + "flash: the image is empty"),
    ("pack-a-bad-object", "flash: the object at 0 is bad: bad-checksum: its header's checksum is wrong"),
    ("pack-without-the-rest", """
flash: the 20 bytes from 64 on are no object: a header begins with version 2, and here is 0
script: the 4 bytes from 112 on are no object: a header has 16 at least"""),
    ("pack-nothing", """
flash: the 9 bytes from 0 on are no object: a header has 16 at least
flash: it has no object, so nothing of it is in the image"""),
    ("no-object-at-4", "flash: no object whose header can be read begins at 4; such begin at 0, 96"),
    ("bad-object-edited", "flash: no object whose header can be read begins at 0; such begin at no place"),
    ("name-with-a-blank", "a name has 1 to 32 bytes of visible ASCII, and no blank"),
    ("rename-without-a-name", "flash: the object at 0 has no name"),
    ("rename-to-three-bytes",
     "flash: the name of the object at 0 takes 2 words of 4 bytes, and `cam` takes 1"),
    ("pack-65-objects", "flash: with its objects there are 65, and an image has at most 64"),
    ("pack-refused-before-a-fault", "flash: with its objects there are 66, and an image has at most 64"),
    ("pack-past-the-limit", "script: with its objects there are 1048592 bytes, and an image has at most 1048576"),
    ("act-on-nobody", "script line 1: at 1 do terminate blank: " + BLANK),
    ("act-on-the-lowest-slot",
     "script line 1: at 1 do terminate blink: slot 0 was running, and is terminated; slot 1 has the name too"),
    ("trace-of-acts", """
script line 1: at 1 do list blink: slot 0 is running
script line 2: at 2 do stop blink: slot 0 was running, and is stopped
script line 3: at 3 do start blank: %s
script line 4: at 4 do start blink: slot 0 was stopped, and is running
script line 5: at 9 do restart blink: slot 0 was terminated, and begins anew""" % BLANK),
    ("act-stop-of-one-that-ended", """
script line 1: at 9 do stop blink: slot 0 is terminated, so nothing changed
script line 2: at 9 do terminate blink: slot 0 is terminated, so nothing changed
script line 3: at 9 do start blink: slot 0 is terminated, so nothing changed"""),
]

# Why the line of the script is refused, in these cases.
REFUSED = [
    ("script-of-a-word-in-capitals", "unknown-word: `Ram` is none of %s; is it `ram`?" % ", ".join(scripts.LINES)),
    ("unknown-event", "unknown-word: `output` is none of input, press, release, do"),
    ("script-with-an-act-of-another-verb",
     "unknown-word: `kill` is none of list, stop, start, terminate, restart"),
    ("script-with-filter-of-another-name", "unknown-word: `closed` is none of open, strict"),
    ("script-with-an-act-after-partition", AFTER_PARTITION),
    ("script-with-buttons-after-partition", AFTER_PARTITION),
    ("script-with-a-press-of-nothing", "words: it has too few words, or too many: at T press B"),
    ("script-with-a-comment-after-words",
     "words: it has too few words, or too many: ram N; a comment has a line of its own"),
    ("script-with-eleven-digits",
     "bad-number: `00000004096` is no number: a number has 1 to 10 decimal digits"),
    ("script-with-seven-hex-digits", "bad-hex: `1234567` has 7 hex digits; a random word has eight"),
    ("input-that-is-no-hex", "bad-hex: `0g`: `g` is no hex digit"),
    ("ram-that-is-no-multiple",
     "out-of-range: `ram` is 4096 to 262144 bytes, a multiple of 1024, and here it is 5000"),
    ("script-with-time-of-33-bits", "out-of-range: a time is 0 to 4294967295 ticks, and here it is 4294967296"),
    ("script-with-a-button-of-none",
     "out-of-range: there is no button 0: a line `buttons N` above says how many there are"),
    ("script-with-a-button-beyond-the-last", "out-of-range: there is no button 2: by line 1 the buttons are 0 to 1"),
    ("script-with-a-name-of-33-bytes", "out-of-range: a name has 1 to 32 bytes of visible ASCII"),
    ("ram-twice", "repeated: `ram` was set before, in line 1"),
    ("script-with-setting-after-an-event", "order: settings come before the first `at`, which is line 1"),
    ("script-with-a-press-before-the-last-event", "order: its time, 4, is before that of line 2, 5"),
    ("script-with-fault-that-does-not-rise", "order: the numbers of faults rise, and line 1 has 2"),
    ("script-with-input-of-65-bytes", "too-many: it has 65 bytes, and a line has at most 64"),
]


def ended(program, words, folder, **more):
    """How ./tock ended with these words, in a folder with the files; without tock_look, unless that is named."""
    environment = {name: text for name, text in os.environ.items() if not name.startswith("TOCK_")}
    environment["TOCK_LOOK"] = os.devnull
    return subprocess.run([TOCK] + words, cwd=folder, env=dict(environment, TOCK_PROGRAM=program, **more),
                          capture_output=True, timeout=60)


def told_of(program, case, text):
    """./tock ends as the program does, and tells this; and nothing where it is to be quiet."""
    lines = "".join("tock: %s\n" % line for line in text.split("\n") if line)
    for quiet, expected in (("", lines), ("1", "")):
        with tempfile.TemporaryDirectory() as folder:
            case.write_files(folder)
            end = ended(program, case.words, folder, TOCK_QUIET=quiet)
        if (end.returncode, end.stdout) != (case.status, case.output()):
            return "answered %d with %r" % (end.returncode, end.stdout)
        if end.stderr.decode() != expected:
            return "told %r" % end.stderr.decode()
    return None


def refusal_of(program, case, reason):
    """The line for which a script is refused is told, and why."""
    with tempfile.TemporaryDirectory() as folder:
        case.write_files(folder)
        end = ended(program, case.words, folder)
    number, rule = end.stdout.decode().split()[1:]
    line = case.script.split(b"\n")[int(number) - 1].rstrip(b"\r").decode()
    expected = "tock: script line %s: %s\ntock: script line %s: %s\n" % (number, line, number, reason)
    if (end.returncode, end.stderr.decode()) != (5, expected) or not reason.startswith(rule + ": "):
        return "%d, told %r" % (end.returncode, end.stderr.decode())
    return None


def each_refusal(program):
    """Whatever is refused, ./tock says something of it, and nothing of itself."""
    for case in CASES:
        if case.status in (2, 3, 4, 5, 8) and DIRECTORY not in (case.flash, case.script):
            with tempfile.TemporaryDirectory() as folder:
                case.write_files(folder)
                end = ended(program, case.words, folder)
            if (end.returncode, end.stdout) != (case.status, case.output()) or \
                    not re.fullmatch(r"(tock: [^\n]*\n){1,2}", end.stderr.decode()):
                return "%s: told %r" % (case.name, end.stderr.decode())
    return None


def settings(program):
    """The least and the most that is told of each setting are the program's."""
    lines = {"policy": "policy threshold %d", "at": "at %d input 00"}
    with tempfile.TemporaryDirectory() as folder:
        write(folder, "flash", "")
        for name, (_, least, most, _) in scripts.RANGES.items():
            for number in (least - 1, least, most, most + 1):
                write(folder, "script", lines.get(name, name + " %d") % max(number, 0))
                said = run([program, "boot", "flash", "script", "--turns", "0"], cwd=folder).stdout
                if (said == "script 1 out-of-range\n") != (number in (least - 1, most + 1) and number >= 0):
                    return "%s %d: %r" % (name, number, said)
    return None


def counts(program):
    """The most that there may be of lines and words is told where one more is there, and no sooner."""
    lines = {"storage-fault": "storage-fault %d", "random": "random %08x", "at": "at %d input 00"}
    with tempfile.TemporaryDirectory() as folder:
        write(folder, "flash", "")
        for name, said in scripts.MOST.items():
            most = int(said.split()[0])
            for number, status in ((most, 0), (most + 1, 5)):
                write(folder, "script", "".join(lines[name] % (at + 1) + "\n" for at in range(number)))
                end = ended(program, ["boot", "flash", "script", "--turns", "0"], folder)
                told = "tock: script line %d: too-many: there are at most %s\n" % (number, said)
                if end.returncode != status or status and not end.stderr.decode().endswith(told):
                    return "%d of %s: told %r" % (number, name, end.stderr.decode())
    return None


def help_page(program):
    """The usage line has the words of each command, and --help and -h a line for each besides."""
    with tempfile.TemporaryDirectory() as folder:
        usage = run([program]).stdout
        forms = ["%s %s" % (name, words) for name, (words, _) in commands.COMMANDS.items()]
        if usage != "usage: tock " + " | ".join(forms) + "\n":
            return "the usage line has other commands: " + usage
        for word in ("--help", "-h"):
            end = ended(program, [word], folder)
            told = end.stderr.decode().splitlines()
            missing = [form for form in forms if not any(line.startswith("tock: " + form + "  ") for line in told)]
            if (end.returncode, end.stdout.decode()) != (2, usage) or missing:
                return "%s: %d, %r" % (word, end.returncode, told)
        end = ended(program, [], folder)
    expected = b"tock: there is no command; ./tock --help tells which there are\n"
    return None if (end.returncode, end.stderr) == (2, expected) else "told %r" % end.stderr


def no_program():
    """Where TOCK_PROGRAM names nothing that can be run the answer is 1."""
    with tempfile.TemporaryDirectory() as folder:
        write(folder, "text", "no program")
        for name, said in (("none", "none: No such file or directory"), (".", ".: it is no program that can be run"),
                           ("text", "text: it is no program that can be run")):
            end = ended(name, ["soak", "1"], folder)
            if (end.returncode, end.stdout, end.stderr.decode()) != (1, b"", "tock: TOCK_PROGRAM: %s\n" % said):
                return "%d, told %r" % (end.returncode, end.stderr)
    return None


def failed_output(program):
    """That the output failed is told."""
    with open("/dev/full", "wb") as full:
        end = subprocess.run([TOCK, "list", os.path.join(EXAMPLES, "images", "greet.bin")], stdout=full,
                             stderr=subprocess.PIPE, env=dict(os.environ, TOCK_PROGRAM=program), timeout=60)
    expected = "tock: the output failed, so its text is not whole: a full disk, or a reader that has gone\n"
    return None if (end.returncode, end.stderr.decode()) == (6, expected) else "%d, %r" % (end.returncode, end.stderr)


def late_acts(program):
    """An act that comes after the run's last step is told as one."""
    with tempfile.TemporaryDirectory() as folder:
        with open(os.path.join(folder, "flash"), "wb") as file:
            file.write(app(CODE_7, name="blink"))
        for turns, said in ((3, "slot 0; the run ended before that"), (4, "slot 0; the run ended before that"),
                            (5, "slot 0 was running, and is stopped")):
            write(folder, "script", "at 3 do list blink\nat 3 do stop blink")
            end = ended(program, ["boot", "flash", "script", "--turns", str(turns)], folder)
            if end.stderr.decode().splitlines()[-1] != "tock: script line 2: at 3 do stop blink: " + said:
                return "%d turns: told %r" % (turns, end.stderr.decode())
    return None


def pipes(program):
    """Of a file that cannot be read twice nothing is told, and the run is the program's."""
    image, script = (os.path.join(EXAMPLES, *name) for name in (("images", "together.bin"),
                                                                 ("scripts", "operator.script")))
    words = ["trace", image, "/dev/stdin", "--turns", "1000"]
    with open(script, "rb") as file:
        text = file.read()
    end = subprocess.run([TOCK] + words, input=text, capture_output=True, env=dict(os.environ, TOCK_PROGRAM=program))
    own = subprocess.run([program] + words, input=text, capture_output=True)
    if (end.returncode, end.stdout, end.stderr) != (0, own.stdout, b""):
        return "%d, told %r" % (end.returncode, end.stderr)
    return None


TYPED_LINES = ["100 type hello", "+50 press 0", "2s tap 1", "250ms stop blink", "type hello", "at 5 type hello",
               "ticks-per-ms 1000"]


def typed_lines(program):
    """Of a line for tools/script in a script it is told that it is one."""
    with tempfile.TemporaryDirectory() as folder:
        write(folder, "flash", "")
        for line in TYPED_LINES:
            write(folder, "script", "buttons 2\n%s\n" % line)
            end = ended(program, ["boot", "flash", "script", "--turns", "0"], folder)
            expected = ("tock: script line 2: %s\ntock: script line 2: unknown-word: tools/script makes a script of "
                        "such lines: tools/script FILE > SCRIPT\n" % line)
            if (end.returncode, end.stdout, end.stderr.decode()) != (5, b"script 2 unknown-word\n", expected):
                return "%s: %d, told %r" % (line, end.returncode, end.stderr.decode())
    return None


ELF = b"\x7fELF\x01\x01\x01" + bytes(57)
NO_SCRIPT = "%s: it is %s, and no script\n"
TAKE = "mine.elf: it is an ELF file: take %s, the image that is made of it\n"
EXCHANGED = "image: it is a flash image, and no script: FLASH comes first, and then SCRIPT\n"
LONG = "mine.elf: it has 1048577 bytes, and a flash image has at most 1048576\n"
# What files are told to be that stand where another kind should, by the words of ./tock, with the status.
OTHER_KINDS = [
    (["boot", "mine.elf", "script"], 0, "nothing ran: no application of mine.elf has a slot\n" + TAKE % "mine.bin"),
    (["list", "mine.elf"], 0, TAKE % "mine.bin"),
    (["boot", "image", "mine.elf"], 5, NO_SCRIPT % ("mine.elf", "an ELF file")),
    (["boot", "image", "image"], 5, NO_SCRIPT % ("image", "a flash image")),
    (["boot", "script", "image"], 5, EXCHANGED),
    (["boot", "script", "long"], 4, "long: it has 300000 bytes, and a script has at most 262144\n"
     + EXCHANGED.replace("image:", "long:")),
]


def other_kinds(program):
    """An ELF file in place of an image is told, and so are an image and a script that stand in each other's place."""
    with tempfile.TemporaryDirectory() as folder:
        for name, content in (("mine.elf", ELF), ("image", EXIT_7), ("script", b"leds 2\n"),
                              ("long", EXIT_7 + bytes(300000 - len(EXIT_7)))):
            with open(os.path.join(folder, name), "wb") as file:
                file.write(content)
        for words, status, text in OTHER_KINDS:
            words = words + ["--turns", "10"] * (words[0] == "boot")
            end = ended(program, words, folder)
            if (end.returncode, end.stderr.decode().replace("tock: ", "")) != (status, text):
                return "%s: %d, told %r" % (words, end.returncode, end.stderr.decode())
    return None


def images_of_programs(program):
    """The image that is made of an ELF file is named where it stands; also where the file is too long."""
    with tempfile.TemporaryDirectory() as folder:
        os.mkdir(os.path.join(folder, "out"))
        with open(os.path.join(folder, "out", "mine.elf"), "wb") as file:
            file.write(ELF + bytes(2 ** 20 + 1 - len(ELF)))
        for place in ("mine.bin", os.path.join("images", "mine.bin")):
            write(folder, place, "")
            end = ended(program, ["list", "out/mine.elf"], folder)
            if (end.returncode, end.stderr.decode().replace("tock: out/", "")) != (4, LONG + TAKE % place):
                return "%s: %d, told %r" % (place, end.returncode, end.stderr.decode())
            os.remove(os.path.join(folder, place))
    return None


def told_in_run(program, flash, script, turns=1000, **more):
    """What is told of a run, each line without what it begins with."""
    with tempfile.TemporaryDirectory() as folder:
        write(folder, "script", script)
        with open(os.path.join(folder, "flash"), "wb") as file:
            file.write(flash)
        end = ended(program, ["boot", "flash", "script", "--turns", str(turns)], folder, **more)
    return [line.replace("tock: ", "", 1) for line in end.stderr.decode().splitlines()]


# Turns an LED on that is not there, twice, without end, and asks each time for what no driver does.
ASKS_AGAIN = app("again", command(LED, 1, 9), command(LED, 1, 9), command(NO_DRIVER, 3), command(LED, 7),
                 command(BUTTON, 9), command(BUTTON, 1, 9), memop(99), jal(ZERO, "again"), name="asks")
REFUSALS = [
    (PRINTS, "filter strict", 1000, "slot 0 -: 3 calls refused; permission: subscribe console, allow-ro console, "
     "console write"),
    (ASKS_AGAIN, "", 39, "slot 0 asks: 7 calls refused; range: LED on (2); no-driver: driver 4 command 3; no-command: "
     "LED command 7, button command 9; other kinds: 2"),
    (ASKS_AGAIN, "", 2000000, "slot 0 asks: .* calls refused in the first 1000000 steps; .*"),
]


def refused_calls(program):
    """Calls that are refused are told by word, driver and call, so that `filter strict` is not silent; of a long run
    those of its first part."""
    for flash, script, turns, expected in REFUSALS:
        told = told_in_run(program, flash, script, turns)
        if len(told) != 1 or not re.fullmatch(expected if ".*" in expected else re.escape(expected), told[0]):
            return "told %r" % told
    return None


# Stores below its RAM, once by its stack pointer and once by another register.
DEEP = app(addi(SP, SP, -64), sw(ZERO, SP, 16), name="deep")
WILD = app(sw(ZERO, A1, -48), name="wild")
MAY_HAVE = ("slot 0 %s: the store of 7fffffd0 was denied, 48 below its RAM: if the stack has grown over its end, "
            "tools/where tells so")
GROWN = ("slot %d deep: the store of %08x was denied: the stack has grown over its end, since sp is %08x, and RAM "
         "begins at %08x")
# Enables button 0, and then never yields, or does once before a button is pressed.
ENABLES = [mv(S0, A0), *hands(SUBSCRIBE, BUTTON, 0, "edge"), command(BUTTON, 1, 0)]
DEAF = app(*ENABLES, "edge", jal(ZERO, "edge"), name="deaf")
HEARD = app(*ENABLES, yields(0), "edge", jal(ZERO, "edge"), name="heard")


def presses(number):
    """A script of so many presses and releases."""
    events = ("press", "release")
    return "buttons 1\n" + "".join("at %d %s 0\n" % (50 + time, events[time % 2]) for time in range(number))


def trouble(program):
    """Where there is no tock_look, or another program in its place, it is told of an access a little below RAM that the
    stack may have grown over its end, and of a process that never yields which upcalls it subscribed."""
    deaf = "slot 0 deaf never yields, so none of its upcalls comes: button 0"
    found = [((DEEP, ""), [MAY_HAVE % "deep"]), ((WILD, ""), [MAY_HAVE % "wild"]), ((THREE, ""), []),
             ((DEAF, presses(25)), [deaf]), ((DEAF, presses(4)), []), ((DEAF, presses(0), 10000), [deaf]),
             ((DEAF, presses(0), 2000000), [deaf.replace(",", " in the first 1000000 steps,")]),
             ((SPINS, "", 10000), []), ((HEARD, presses(25), 10000), [])]
    wrong = ["without tock_look: %r" % told for run, told in found for look in (os.devnull, shutil.which("true"))
             if told_in_run(program, *run, TOCK_LOOK=look) != told]
    return wrong[0] if wrong else None


def looked_at(program, look):
    """With tock_look it is told where the stack is, and each upcall that waits."""
    for script in ("", "policy restart"):
        for flash, expected in ((DEEP, [GROWN % (0, RAM - 48, RAM - 64, RAM)]), (WILD, []),
                                (SPINS + DEEP, [GROWN % (1, RAM + 1024 - 48, RAM + 1024 - 64, RAM + 1024)])):
            told = told_in_run(program, flash, script, TOCK_LOOK=look)
            if told != expected:
                return "of a stack: %r" % told
    for flash, number, kinds in ((DEAF, 0, []), (DEAF, 1, ["button 0"]), (DEAF, 4, ["button 0 (4)"]),
                                 (DEAF, 25, ["button 0 (20)"]), (HEARD, 25, [])):
        expected = ["slot 0 deaf never yields, and upcalls wait for it: %s" % kind for kind in kinds]
        told = told_in_run(program, flash, presses(number), TOCK_LOOK=look)
        if told != expected:
            return "of %d upcalls: %r" % (number, told)
    return None


def six_lines(program):
    """A run tells six lines at most, of each subject the first ones, and how many more there are; all where they are
    asked for."""
    flash = SPINS * 17 + app(CODE_7, elements=[fixed_addresses_tlv(flash=4)]) + ASKS_AGAIN[:100]
    script = "ram 4096\n" + "".join("at %d do list nobody\n" % time for time in range(8))
    told = told_in_run(program, flash, script)
    all_told = told_in_run(program, flash, script, TOCK_TELL="all")
    is_first = told[-1] == "%d lines more: with TOCK_TELL=all all are told" % (len(all_told) - MOST_LINES + 1)
    if len(told) != MOST_LINES or not is_first or not set(told[:-1]) <= set(all_told) or len(all_told) < 20:
        return "told %r, and in all %r" % (told, all_told)
    if sum("do list nobody" in line for line in told) != 1:
        return "nothing is told of acts: %r" % told
    few = told_in_run(program, SPINS, script.replace("ram 4096\n", "").replace("at 7 do list nobody\n", "").replace(
        "at 6 do list nobody\n", ""))
    return None if len(few) == MOST_LINES and "lines more" not in few[-1] else "of six lines: %r" % few


# Asks where its RAM begins and ends and where its object begins and ends, and exits with the address of its code.
ASKS = [mv(S0, A0), *(memop(operation) for operation in (2, 3, 4, 5)), mv(A1, S0), exits()]
# The second is linked for an address of RAM, and has protected bytes.
PLACED = [app(*ASKS, name="first", minimum_ram=1030),
          app(bytes(8), *ASKS, elements=[fixed_addresses_tlv(ram=RAM + 0x1400)], protected=8, entry=8)]


def places_told(program, folder):
    """What is told of the places in a run, by slot: each number of the lines; and what the processes say themselves."""
    end = ended(program, ["trace", "flash", "script", "--turns", "1000"], folder, TOCK_PLACES="1")
    lines = [line for line in end.stderr.decode().splitlines() if line.startswith("tock: slot ")]
    told = [[int(number, 16) for line in lines if line.startswith("tock: slot %d " % slot)
             for number in re.findall("0x([0-9a-f]{8})", line)] for slot in range(len(lines) // 3)]
    text = end.stdout.decode()
    said = [[int(number, 16) for number in re.findall(r"^@\S+ %d call 5 .* = 00000081 (\w+)" % slot, text, re.M)]
            for slot in range(len(told))]
    codes = [int(code) for code in re.findall("^slot .* terminated ([0-9]+) turns", text, re.M)]
    return told, said, codes, lines


def places(program):
    """With TOCK_PLACES=1 it is told where each process lies, as the processes themselves are told."""
    with tempfile.TemporaryDirectory() as folder:
        for script, images in (("", PLACED), ("partition 100\nram 32768", [PLACED[0], PLACED[0]])):
            with open(os.path.join(folder, "flash"), "wb") as file:
                file.write(b"".join(images))
            write(folder, "script", script)
            told, said, codes, lines = places_told(program, folder)
            if not len(told) == len(codes) == len(images):
                return "told %r" % lines
            for (start, flash, code, end, less, ram, ram_end, first), asked, own in zip(told, said, codes):
                if [ram, ram_end, start, end] != asked or not code == less == own or flash != FLASH:
                    return "told %r, and the process asked %r" % (lines, asked)
    return None


def places_in_manual(program):
    """The places that the manual shows are told of that run."""
    manual = contents(os.path.join(REPOSITORY, "docs", "manual.md")).decode()
    words = re.search(r"^    TOCK_PLACES=1 ./tock (.*)$", manual, re.M)[1].split()
    shown = re.findall(r"^    (tock: slot 1 trespass: .*)$", manual, re.M)
    told = ended(program, words, REPOSITORY, TOCK_PLACES="1").stderr.decode().splitlines()
    return None if len(shown) == 3 and set(shown) <= set(told) else "told %r" % told


def processes_in_manual(program):
    """What the manual shows of processes is told of that run."""
    manual = contents(os.path.join(REPOSITORY, "docs", "manual.md")).decode()
    words, shown = re.search(r"^    TOCK_TELL=all ./tock (.*)\n\nhas on standard error\n\n((?:    .*\n)+)", manual,
                             re.M).groups()
    told = ended(program, words.split(), REPOSITORY, TOCK_TELL="all").stderr.decode()
    return None if shown.replace("    ", "") == told else "told %r" % told


def look_there():
    """tock_look, where it is built or named."""
    try:
        return os.path.abspath(find_look())
    except Refused:
        print("told-with-tock-look: not tried, since it is not built")
        return None


def checks(program):
    """Each check with its name."""
    look = look_there()
    cases = {case.name: case for case in CASES}
    found = [("told-of-" + name, lambda case=cases[name], text=text: told_of(program, case, text))
             for name, text in TOLD]
    found += [("told-of-" + name, lambda case=cases[name], reason=reason: refusal_of(program, case, reason))
              for name, reason in REFUSED]
    found += [("told-of-" + check.__name__.replace("_", "-"), lambda check=check: check(program))
              for check in (each_refusal, settings, counts, help_page, failed_output, late_acts, pipes, typed_lines,
                            other_kinds, images_of_programs, refused_calls, trouble, six_lines, places,
                            places_in_manual, processes_in_manual)]
    found += [("told-with-tock-look", lambda: looked_at(program, look))] if look else []
    return found + [("told-of-no-program", no_program)]
