"""Numbers of runs that the documents show, which tests/run compares with the program: prose speaks of them too."""

import re


def shown(text, command):
    """What a document shows of a command, of which a part is given: the next block of a run."""
    blocks = [block for block in re.findall(r"(?:^    .*\n)+", text, re.M)]
    at = next(at for at, block in enumerate(blocks) if command in block)
    return blocks[at + 1]


def found(pattern, text):
    """The numbers of a line of a run."""
    return [int(number) for number in re.search(pattern, text, re.M).groups()]


def of_first_run(pages):
    """How many minutes the manual says that the first run takes."""
    least, most = found(r"this takes (\d+) to (\d+) minutes", pages["docs/manual.md"])
    return dict(LEAST_MINUTES=least, MOST_MINUTES=most)


def of_runs(pages, uart):
    """The runs of `greet`, and of three applications in windows."""
    report = shown(pages["docs/manual.md"], "boot examples/images/greet.bin")
    trace = shown(pages["docs/applications.md"], "trace examples/images/greet.bin")
    windows = shown(pages["docs/manual.md"], "trace examples/images/three.bin examples/scripts/windows.script")
    (turns,), (steps, time) = found(r"slot 0 greet .* turns (\d+)", report), found(r"steps (\d+) time (\d+)", report)
    (out,), (waits,) = found(r"@(\d+) 0 out", trace), found(r"@(\d+) 0 call 0", trace)
    printed = len(re.search(r"@\d+ 0 out ([0-9a-f]+)", trace)[1]) // 2
    return dict(GREET_TURNS=turns, GREET_STEPS=steps, GREET_TIME=time, GREET_PASSED=time - turns, GREET_OUT=out,
                GREET_BYTES=printed, GREET_DONE=out + printed * uart, GREET_WAITS=waits + 1,
                HELLO_LAST=found(r"@(\d+) 0 call 6", windows)[0], STRAY_LAST=found(r"@(\d+) 1 denied", windows)[0],
                WINDOWED=len(re.findall(r"^    slot ", windows, re.M)))
