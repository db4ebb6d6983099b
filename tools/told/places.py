"""Where the object, the code and the memory of each process lie, and how an address leads back to its program."""

import images
import scripts
from files import content

RAM_SIZE, RAM_UNIT, KERNEL_ROOM, SLOTS = 65536, 1024, 768, 16


def setting(script, name, otherwise):
    """The number of a line of a script."""
    return next((int(words[1]) for _, words in scripts.lines_of(script) if words[0] == name), otherwise)


def up(number, unit):
    """A number rounded up."""
    return (number + unit - 1) // unit * unit


def placed(program, flash, script):
    """The offsets of the objects that have a slot, and the names of these slots."""
    report = [line.split() for line in program.report(flash, script)]
    without = {int(words[1]) for words in report if words[0] == "unplaced"}
    offsets = [it.offset for it in images.objects(program, flash) if it.verdict == "app" and it.offset not in without]
    return list(zip(offsets, [words[2] for words in report if words[0] == "slot"]))


def code_of(slot, name, offset, image):
    """Where a process's object and code lie, and how an address of its code leads to its program."""
    its, start = images.header(image, offset), images.FLASH_START + offset
    code, size = images.code_start(offset, its), images.word(image, offset + 4)
    end = start + (size if its.binary_end is None else up(its.binary_end, 4))
    if its.fixed_flash is None:
        back = "ADDRESS - 0x%08x + the address for which it is linked" % code
    else:
        back = "ADDRESS, since it is linked for where it stands"
    return ["slot %d %s: object at 0x%08x (0x%08x + %d), header and protected bytes %d, code from 0x%08x to 0x%08x"
            % (slot, name, start, images.FLASH_START, offset, its.size + its.protected, code, end),
            "slot %d %s: an ADDRESS of its code is in its program's ELF file %s" % (slot, name, back)]


def placed_blocks(program, flash, script):
    """Of each slot its number and name, the offset and the header of its object, where its block begins and ends."""
    image, ram, end = content(flash), setting(script, "ram", RAM_SIZE), images.RAM_START
    share = ram // SLOTS // RAM_UNIT * RAM_UNIT
    for slot, (offset, name) in enumerate(placed(program, flash, script)):
        its = images.header(image, offset)
        free = images.RAM_START + slot * share if images.has_partitions(script) else end
        start = free if its.fixed_ram is None else its.fixed_ram
        end = start + up(its.ram + KERNEL_ROOM, RAM_UNIT)
        yield slot, name, offset, its, (start, end)


def ram_starts(program, flash, script):
    """Where the RAM of the process in each slot begins."""
    return {slot: start for slot, _, _, _, (start, _) in placed_blocks(program, flash, script)}


def of_slots(program, flash, script):
    """Says of each slot where all lies that is its process's."""
    image = content(flash)
    for slot, name, offset, its, (start, end) in placed_blocks(program, flash, script):
        yield from code_of(slot, name, offset, image)
        yield "slot %d %s: RAM from 0x%08x to 0x%08x, first break 0x%08x" % (
            slot, name, start, end, start + up(its.ram, 4))
