"""Programs as ELF files: where they are linked, where the board has them, and copies that are placed there."""

import struct
import sys

from debugger.board import FLASH, Refused

# Where examples/ links code and RAM of a program that is position independent.
LINKED_CODE, LINKED_RAM = 0x80000000, 0x00010000
# Kinds and flags of sections, and the relocation that adds an address to a word.
SYMBOLS, RELOCATIONS, WRITABLE, ALLOCATED = 2, 4, 1, 2
ABSOLUTE_WORD = 1
LOADED, SEGMENT_WRITABLE = 1, 2
MASK = 0xFFFFFFFF


class Section:
    """A section of an ELF file."""

    def __init__(self, header_at, words):
        self.header_at = header_at
        self.name_at, self.kind, self.flags, self.address, self.offset, self.size, self.link, self.info = words[:8]
        self.name = ""


class Elf:
    """What is needed of an ELF file: its entry, its sections and its symbols."""

    def __init__(self, path):
        self.path = path
        with open(path, "rb") as file:
            self.data = file.read()
        if self.data[:6] != b"\x7fELF\x01\x01":
            raise Refused(path + " is no 32-bit ELF file")
        try:
            self.read()
        except (struct.error, ValueError, IndexError):
            raise Refused(path + " is not the whole of an ELF file") from None

    def read(self):
        """Reads the headers, the sections and the symbols. Of a file that is cut off this is an error of several
        kinds."""
        self.entry, = struct.unpack_from("<I", self.data, 24)
        self.headers_at, offset = struct.unpack_from("<II", self.data, 28)
        self.header_size, self.header_count, size, count, names = struct.unpack_from("<HHHHH", self.data, 42)
        self.sections = [Section(at, struct.unpack_from("<10I", self.data, at))
                         for at in range(offset, offset + count * size, size)]
        for section in self.sections:
            section.name = self.text(self.sections[names].offset + section.name_at)
        self.table = next((it for it in self.sections if it.kind == SYMBOLS), None)
        self.symbols = {name: value for _, name, value, _ in self.all_symbols()}

    def text(self, at):
        return self.data[at:self.data.index(0, at)].decode()

    def all_symbols(self):
        """Each symbol: where its entry stands, its name, its value, and its section or None."""
        if self.table:
            for at in range(self.table.offset, self.table.offset + self.table.size, 16):
                name, value, _, _, index = struct.unpack_from("<IIIHH", self.data, at)
                section = self.sections[index] if 0 < index < len(self.sections) else None
                yield at, self.text(self.sections[self.table.link].offset + name), value, section


class Program:
    """The program of a slot: what is added to its addresses of code and of data to have those on the board."""

    def __init__(self, path, entry, block):
        self.elf = Elf(path)
        self.code = (entry - self.elf.entry) & MASK
        self.data = (block - self.linked_ram(block)) & MASK if self.code else 0

    def linked_ram(self, block):
        """Where the program is linked to have its RAM."""
        symbols = self.elf.symbols
        if "__global_pointer$" in symbols and "stack_size" in symbols:
            return symbols["__global_pointer$"] - symbols["stack_size"]
        return LINKED_RAM if self.elf.entry >= LINKED_CODE else block

    def moved_by(self, section):
        """What is added to the addresses in a section."""
        if section is None or not section.flags & ALLOCATED:
            return 0
        return self.data if section.flags & WRITABLE else self.code

    def placed(self):
        """Each section in memory, and where the board has it."""
        return [(it.name, (it.address + self.moved_by(it)) & MASK) for it in self.elf.sections
                if it.flags & ALLOCATED and it.size]

    def is_in(self, flash):
        """Whether flash has the program's code, where the board has it."""
        code = next((it for it in self.elf.sections if it.name == ".text"), None)
        at = (code.address + self.code - FLASH) & MASK if code else 0
        return bool(code) and flash[at:at + code.size] == self.elf.data[code.offset:code.offset + code.size]

    def linked(self, address):
        """The address of code for which the program is linked, of one on the board."""
        return (address - self.code) & MASK

    def relocations(self):
        """Where the file has addresses for a debugger, and what is added to each. It tells so where it was linked with
        --emit-relocs."""
        moves = [self.moved_by(section) for _, _, _, section in self.elf.all_symbols()]
        for table in self.elf.sections:
            if table.kind == RELOCATIONS and table.name.startswith(".rela.debug"):
                start = self.elf.sections[table.info].offset
                for at in range(table.offset, table.offset + table.size, 12):
                    place, info = struct.unpack_from("<II", self.elf.data, at)
                    if info & 255 == ABSOLUTE_WORD:
                        yield start + place, moves[info >> 8]

    def can_be_moved(self):
        """Whether a copy can have every address as on the board."""
        return not self.code and not self.data or next(self.relocations(), None) is not None

    def copy(self):
        """The bytes of the file with every address as on the board."""
        data = bytearray(self.elf.data)

        def move(at, by):
            word, = struct.unpack_from("<I", data, at)
            struct.pack_into("<I", data, at, (word + by) & MASK)

        move(24, self.code)
        for at, by in self.relocations():
            move(at, by)
        for at, _, _, section in self.elf.all_symbols():
            move(at + 4, self.moved_by(section))
        for section in self.elf.sections:
            move(section.header_at + 12, self.moved_by(section))
        for n in range(self.elf.header_count):
            self.move_segment(move, self.elf.headers_at + n * self.elf.header_size)
        return bytes(data)

    def move_segment(self, move, at):
        """Moves a segment that is loaded: one that is writable lies in RAM."""
        kind, _, address, _, _, _, flags = struct.unpack_from("<7I", self.elf.data, at)
        if kind == LOADED and address:
            by = self.data if flags & SEGMENT_WRITABLE else self.code
            move(at + 8, by)
            move(at + 12, by)


def programs_of(given, state, flash):
    """The programs of slots, by slots, where a state before the first step tells entries and blocks. Standard error
    tells where flash has other code."""
    programs = {}
    for slot, path in given.items():
        if slot not in state.slots:
            raise Refused("slot %d has no process" % slot)
        numbers = state.slots[slot].numbers
        programs[slot] = Program(path, numbers["pc"][0], numbers["block"][0])
        if not programs[slot].is_in(flash):
            print("%s is not the program of slot %d: flash has other code there" % (path, slot), file=sys.stderr)
    return programs
