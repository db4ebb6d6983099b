"""What of a flash image is not run, and why."""

import os
from collections import namedtuple

import scripts
from files import content
from kinds import ELF, kind_of, take_image

FLASH_START, RAM_START = 0x20000000, 0x80000000
# A block begins at a multiple of so many bytes.
BLOCK_UNIT = 8
MOST_OBJECTS, LEAST_HEADER = 64, 16
NONE = 0xFFFFFFFF
# The verdicts of objects whose header cannot be read.
UNREADABLE = ("bad-sizes", "bad-checksum", "bad-tlv")

# By the verdict of the list, or the word of the report; where that means another thing with time partitions, by
# `share-` and the word.
CAUSES = {
    "disabled": "it is not enabled",
    "bad-sizes": "its header's size is no size of a header, or passes the object",
    "bad-checksum": "its header's checksum is wrong",
    "bad-tlv": "an element of its header is too short, or passes the header",
    "bad-entry": "its entry, protected bytes or binary's end do not lie in the object",
    "no-slot": "all sixteen slots are taken",
    "no-room": "RAM has no room for its memory; `ram` in the script sets how much there is",
    "share-fixed-taken": "the address of RAM for which it is linked is not where its slot's share starts",
    "share-no-room": "its slot's share of RAM, a sixteenth, has no room for its memory; "
                     "`ram` in the script sets how much there is",
}


# An object as the list tells it.
Found = namedtuple("Found", "offset size verdict name")

# What an application's header says: its size, the protected bytes after it, the least RAM, where the binary ends or
# None, and the addresses of RAM and flash for which it is linked, or None.
Header = namedtuple("Header", "size protected ram binary_end fixed_ram fixed_flash")


def word(image, offset, size=4):
    """A number of a flash image."""
    return int.from_bytes(image[offset:offset + size], "little")


def objects(program, flash):
    """The objects of a flash image."""
    lines = [line.split(" ", 4) for line in program.lines("list", flash) if line.startswith("object ")]
    return [Found(int(offset), int(size), verdict, name) for _, offset, size, verdict, name in lines]


def elements(image, offset):
    """The elements of the header of an object that is not bad, by their types; of a repeated type the first counts."""
    found, at, end = {}, offset + LEAST_HEADER, offset + word(image, offset + 2, 2)
    while at + 4 <= end:
        kind, length = word(image, at, 2), word(image, at + 2, 2)
        found.setdefault(kind, image[at + 4:at + 4 + length])
        at += 4 + (length + 3) // 4 * 4
    return found


def header(image, offset):
    """The header of an object that is an application, or linked for another address."""
    found = elements(image, offset)
    main, fixed = found.get(9, found.get(1)), found.get(5, b"\xff" * 8)
    addresses = [None if word(fixed, at) == NONE else word(fixed, at) for at in (0, 4)]
    return Header(word(image, offset + 2, 2), word(main, 4), word(main, 8), word(main, 12) if 9 in found else None,
                  *addresses)


def code_start(offset, its):
    """The address after an object's header and protected bytes."""
    return FLASH_START + offset + its.size + its.protected


def cause(flash, found):
    """Why an object is not run."""
    if found.verdict != "wrong-flash":
        return CAUSES[found.verdict]
    its = header(content(flash), found.offset)
    return "it is linked for the address 0x%08x of flash, and stands at 0x%08x" % (
        its.fixed_flash, code_start(found.offset, its))


def not_run(program, flash, was="was"):
    """Says of each object of an image that is bad, disabled or linked for another place why it was not run, or is
    not."""
    for found in objects(program, flash):
        if found.verdict not in ("app", "padding"):
            yield "%s: the object at %d %s not run: %s: %s" % (
                flash, found.offset, was, found.verdict, cause(flash, found))


def nothing_ran(program, flash, script):
    """Says so where no process had a slot; a campaign can count these two words."""
    if not any(line.startswith("slot ") for line in program.report(flash, script)):
        yield "nothing ran: no application of %s has a slot" % flash


def bad(program, flash):
    """Says of each bad object of a file of which an image was made why it is."""
    for found in objects(program, flash):
        if found.verdict.startswith("bad-"):
            yield "%s: the object at %d is bad: %s: %s" % (flash, found.offset, found.verdict, cause(flash, found))


def has_partitions(script):
    return any(words[0] == "partition" for _, words in scripts.lines_of(script))


def why_fixed_taken(image, offset):
    """Why an object has no place where it is linked for one of RAM, without time partitions."""
    start = header(image, offset).fixed_ram
    if start % BLOCK_UNIT:
        why = "is no multiple of %d" % BLOCK_UNIT
    else:
        why = "lies below %s" % ("RAM" if start < RAM_START else "the end of the block before it")
    return "the RAM start for which it is linked, 0x%08x, %s" % (start, why)


def why_unplaced(image, offset, verdict, script):
    """Why an application has no place, by the word of the report."""
    if has_partitions(script):
        return CAUSES.get("share-" + verdict) or CAUSES[verdict]
    return why_fixed_taken(image, offset) if verdict == "fixed-taken" else CAUSES[verdict]


def unplaced(program, flash, script):
    """Says of each application that has no place why it has none."""
    lines = [line.split() for line in program.report(flash, script) if line.startswith("unplaced ")]
    for _, offset, verdict in lines:
        yield "%s: the object at %s was not run: %s: %s" % (
            flash, offset, verdict, why_unplaced(content(flash), int(offset), verdict, script))


def why_no_object(image, offset, number):
    """Why the bytes from an offset on, behind so many objects, are none."""
    left, version, size = len(image) - offset, word(image, offset, 2), word(image, offset + 4)
    if number == MOST_OBJECTS:
        return "an image has at most %d" % MOST_OBJECTS
    if left < LEAST_HEADER:
        return "a header has %d at least" % LEAST_HEADER
    if version != 2:
        return "a header begins with version 2, and here is %d" % version
    if size > left:
        return "an object of %d bytes begins here, and %d are left" % (size, left)
    return "its header says %d bytes, and an object has %d at least, in fours" % (size, LEAST_HEADER)


def rest(program, flash):
    """Says which bytes of an image stand after its last object, which nothing runs, and why they are none."""
    found, size = objects(program, flash), os.path.getsize(flash)
    end = found[-1].offset + found[-1].size if found else 0
    if size == 0:
        yield "%s: the image is empty" % flash
    elif kind_of(flash) == ELF:
        yield take_image(flash)
    elif size > end:
        yield "%s: the %d bytes from %d on are no object: %s" % (
            flash, size - end, end, why_no_object(content(flash), end, len(found)))


def empty(program, flash):
    """Says of a file without objects that nothing of it is packed."""
    if os.path.getsize(flash) and not objects(program, flash):
        yield "%s: it has no object, so nothing of it is in the image" % flash
