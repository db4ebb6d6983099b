"""Tells on standard error what a person needs to know of a run of the program that has ended.

    python3 tools/told/main.py PROGRAM STATUS WORD ..

The words are those of the command line, and the files are the same as in the run. Where they have to be read once more,
the program does it; a pipe cannot be read twice, so of such a file nothing is told.
"""

import os
import sys

sys.path.insert(1, os.path.dirname(os.path.dirname(os.path.abspath(__file__))))
import acts
import calls
import commands
import edits
import files
import images
import kinds
import looked
import places
import scripts
from program import ALL, Program, shortened, tell


def of_run(program, status, flash, script):
    """Of `boot` and `trace` where no run was made."""
    if status == 3:
        files.tell_unread(flash, script)
    elif status == 4:
        files.tell_too_long((flash, files.FLASH), (script, files.SCRIPT))
    if status in (4, 5) and files.are_kept(flash, script):
        tell(*kinds.wrong_kinds(flash, script))
        if status == 5 and not kinds.kind_of(script):
            scripts.tell_line(program, flash, script)


def of_processes(program, flash, script, turns):
    """What a run tells of its processes."""
    run = calls.Run(program, flash, script, turns)
    yield from looked.of_processes(program, run)
    yield from calls.refused_calls(run)


def subjects_of(program, flash, script, turns):
    """What is told of a run: of the image, of the processes, and of an operator's acts."""
    if not files.are_kept(flash):
        return []
    not_run, rest = images.not_run(program, flash), images.rest(program, flash)
    if not files.are_kept(script):
        return [[*not_run, *rest]]
    nothing = list(images.nothing_ran(program, flash, script))
    of_image = [*nothing, *not_run, *images.unplaced(program, flash, script), *rest]
    processes = [] if nothing else of_processes(program, flash, script, turns)
    return [of_image, processes, acts.outcomes(program, flash, script, turns)]


def of_whole_run(program, flash, script, turns):
    """Of `boot` and `trace` where the run was made."""
    subjects = subjects_of(program, flash, script, turns)
    name, _, word = ALL.partition("=")
    tell(*(line for lines in subjects for line in lines) if os.environ.get(name) == word else shortened(subjects))
    if os.environ.get("TOCK_PLACES") == "1" and files.are_kept(flash, script):
        tell(*places.of_slots(program, flash, script))


def of_images(program, status, command, names):
    """Of the commands that read flash images and no script."""
    if status == 3:
        files.tell_unread(*names)
    elif status == 4:
        files.tell_too_long(*((name, files.FLASH) for name in names))
        tell(*kinds.elf_files(filter(files.is_kept, names)))
    elif status == 0:
        for name in filter(files.is_kept, names):
            tell(*images.not_run(program, name, "is") if command == "list" else images.bad(program, name),
                 *images.rest(program, name))
            if command == "pack":
                tell(*images.empty(program, name))


def main(path, status, words):
    program, status = Program(path), int(status)
    command = words[0] if words else ""
    if status == 2:
        commands.tell_words(words)
    elif status == 6:
        tell("the output failed, so its text is not whole: a full disk, or a reader that has gone")
    elif status == 8:
        edits.tell_why(program, words)
    elif command in ("boot", "trace"):
        of_whole_run(program, words[1], words[2], words[4]) if status == 0 else of_run(program, status, *words[1:3])
    elif command == "pack":
        of_images(program, status, command, words[1:])
    elif command in ("list", "enable", "disable", "rename"):
        of_images(program, status, command, words[1:2])


main(sys.argv[1], sys.argv[2], sys.argv[3:])
