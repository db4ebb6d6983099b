"""What the program answers by the definitions, which are evaluated; and which cases of them an example uses."""

import os
import re

from compiling import Compiler

# An example of more steps is not evaluated; one of more than these is not asked for each process by itself.
MOST_STEPS, MOST_ALONE = 2000, 300
COMMANDS, TASKS, REFUSALS = "tool_words/Words", "tool_tasks/Comes", "tool_words/Refusals"
GENERATOR, SCRIPTS = "image_make/Generator", "script_text/Reading"
NONE = ("None",)


def steps_of(case):
    """How many steps an example has at most."""
    found = re.search(r"^ *end \w+ steps (\d+)", case.text, re.M)
    is_run = case.status == 0 and "--turns" in case.words
    return int(found[1]) if found else int(case.words[-1]) if is_run else 0


def is_evaluated(case):
    """Whether an example has few steps, all of its numbers, and words that are texts."""
    return not case.is_open and steps_of(case) <= MOST_STEPS and all(isinstance(word, str) for word in case.words)


def files_of(case, top):
    """What the files of an example hold, by name: no bytes for one that cannot be read."""
    found = {b"flash": case.flash, b"script": case.script}
    for word in case.words:
        path = os.path.join(top, word)
        if word not in ("flash", "script") and os.path.isfile(path):
            with open(path, "rb") as file:
                found[word.encode()] = file.read()
    return found


class Answers:
    """The answers by the definitions of some sources."""

    def __init__(self, names):
        self.compiler, self.names = Compiler(names), names

    def function(self, place, name):
        """The function of a definition."""
        return self.compiler.function(self.names.sources.specs[tuple(place.split("/"))].definitions[name])

    def refusal(self, refusal):
        """The answer, and the line, of a refusal."""
        return self.function(REFUSALS, "status_of")(refusal), bytes(self.function(REFUSALS, "refusal_line")(refusal))

    def not_alone(self, task):
        """The slots of a run in which the record at its end is not that of the process by itself, as by the field
        `alone` of `IsAccountedRun`."""
        _, _, steps, world = task
        last = self.function("kernel_model/Run", "round")(steps, world)["world"]["records"]
        choices = self.function("kernel_model/Replay", "chosen")(steps, world)
        wrong = []
        for slot, record in enumerate(world["records"]):
            events = self.function("kernel_model/Replay", "history")(slot, world, choices)
            own = self.function("board_opening/Alone", "alone")(
                world["settings"], record["object"], record["process"]["object"]["address"],
                record["own"]["layout"]["start"], events)
            wrong += [slot] if own != ("Some", last[slot]) else []
        return wrong

    def soaking(self, number, turns):
        """The task of `soak`, as by `IsTask`: the run of what its generator makes, as by `AreSoakFiles`."""
        flash, script = (self.function(GENERATOR, name)(number) for name in ("soak_flash", "soak_script"))
        return self.function(TASKS, "run_under")(("Soak",), turns, flash, self.function(SCRIPTS, "reading")(script))

    def to_command(self, command, files, is_short):
        """The answer to a command: the first file for which it is refused decides, as by `DecidedBy`. In a short run
        each process is what it is by itself."""
        before = []
        for named in self.function(TASKS, "files_of")(command):
            text = files.get(bytes(named["name"]))
            if not isinstance(text, bytes):
                return self.refusal(("Fault", named["file"]))
            refused = self.function(TASKS, "refused_at")(command, before, named["file"], list(text))
            if refused != NONE:
                return self.refusal(refused[1])
            before.append(list(text))
        is_soak = command[0] == "Soaks"
        came = self.soaking(*command[1:]) if is_soak else self.function(TASKS, "comes_to")(command, before)[1]
        task = came[1]
        wrong = self.not_alone(task) if is_short and task[0] == "Running" else []
        return 0, b"slots %a are not alone" % wrong if wrong else bytes(self.function(TASKS, "task_text")(task))

    def to(self, case, top):
        """The answer to an example, and which cases of definitions it uses."""
        self.compiler.used.clear()
        command = self.function(COMMANDS, "command_of")([list(word.encode()) for word in ["tock", *case.words]])
        if command == NONE:
            return self.refusal(("Usage",)), set(self.compiler.used)
        answer = self.to_command(command[1], files_of(case, top), steps_of(case) <= MOST_ALONE)
        return answer, set(self.compiler.used)
