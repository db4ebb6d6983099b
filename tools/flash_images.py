"""Flash images: a small assembler for RV32IMC, a builder of objects, and system calls as code.

Instructions are encoded by the RISC-V unprivileged manual, chapters "RV32I Base Integer Instruction Set",
"M Extension" and "C Extension", and objects by the Tock Binary Format document. So

    app(li(A4, 6), li(A0, 0), li(A1, 7), ecall, name="hello")

is the bytes of an application that exits with the completion code 7. Code is a list of parts: bytes; a text,
which is a label; and what needs to know where the labels lie. Wherever a branch or a jump has an offset, a
label may stand; `addi` and `li` take `offset(LABEL)`, which counts from the first byte of the code.
"""

import struct
from functools import partial

# Where the first byte of flash and of RAM stand.
FLASH, RAM = 0x20000000, 0x80000000

(ZERO, RA, SP, GP, TP, T0, T1, T2, S0, S1, A0, A1, A2, A3, A4, A5, A6, A7,
 S2, S3, S4, S5, S6, S7, S8, S9, S10, S11, T3, T4, T5, T6) = range(32)


# Words, parcels and labels.

def word(value):
    """Four bytes, the lowest first; a negative number in two's complement."""
    return struct.pack("<I", value & 0xFFFFFFFF)


def parcel(value):
    """Two bytes, the lower first."""
    return struct.pack("<H", value)


class Late:
    """Bytes of code that are made from their own place and the places of the labels."""

    def __init__(self, encode, size=4):
        self.encode, self.size = encode, size

    def __len__(self):
        return self.size


def offset(label):
    """A label's place in the code, for the immediate of `addi` or `li`."""
    return lambda places: places[label]


def assemble(parts):
    """The bytes of the parts, one after another."""
    places, at = {}, 0
    for part in parts:
        if isinstance(part, str):
            assert part not in places, "the label %s stands twice" % part
            places[part] = at
        else:
            at += len(part)
    code = b""
    for part in parts:
        if not isinstance(part, str):
            code += part.encode(len(code), places) if isinstance(part, Late) else part
    return code


def jumping(target, encode, size=4):
    """An instruction that jumps to a label, or by a number of bytes from itself."""
    if isinstance(target, str):
        return Late(lambda at, places: encode(places[target] - at), size)
    return encode(target)


def scattered(value, *fields):
    """A word with the bits `high` down to `low` of a number at `at`, for each (high, low, at)."""
    return sum((value >> low & (1 << high - low + 1) - 1) << at for high, low, at in fields)


def signed(value, size, step=1):
    """The number, where it fits into a signed field of that size and is a multiple of the step."""
    assert -(1 << size - 1) <= value < 1 << size - 1 and value % step == 0, "no immediate: %d" % value
    return value


def unsigned(value, size, step=1):
    """The number, where it fits into an unsigned field of that size and is a multiple of the step."""
    assert 0 <= value < 1 << size and value % step == 0, "no immediate: %d" % value
    return value


# The formats of 32 bits. The operands stand as in assembly, the register that is written first; for a load or
# a store the register that is loaded or stored, then the base and the offset.

def r_type(opcode, funct3, funct7, rd, rs1, rs2):
    return word(funct7 << 25 | rs2 << 20 | rs1 << 15 | funct3 << 12 | rd << 7 | opcode)


def i_type(opcode, funct3, rd, rs1, immediate=0):
    if callable(immediate):
        return Late(lambda _, places: i_type(opcode, funct3, rd, rs1, immediate(places)))
    return word(signed(immediate, 12) << 20 | rs1 << 15 | funct3 << 12 | rd << 7 | opcode)


def shift_type(funct3, top, rd, rs1, amount):
    return i_type(0x13, funct3, rd, rs1, top | unsigned(amount, 5))


def s_type(opcode, funct3, rs2, rs1, immediate=0):
    fields = scattered(signed(immediate, 12), (11, 5, 25), (4, 0, 7))
    return word(fields | rs2 << 20 | rs1 << 15 | funct3 << 12 | opcode)


def b_type(opcode, funct3, rs1, rs2, target):
    def encode(by):
        fields = scattered(signed(by, 13, 2), (12, 12, 31), (10, 5, 25), (4, 1, 8), (11, 11, 7))
        return word(fields | rs2 << 20 | rs1 << 15 | funct3 << 12 | opcode)
    return jumping(target, encode)


def u_type(opcode, rd, upper):
    return word(unsigned(upper, 20) << 12 | rd << 7 | opcode)


def j_type(opcode, rd, target):
    def encode(by):
        fields = scattered(signed(by, 21, 2), (20, 20, 31), (10, 1, 21), (11, 11, 20), (19, 12, 12))
        return word(fields | rd << 7 | opcode)
    return jumping(target, encode)


def family(form, opcode, functs, *rest):
    """The instructions of one format and opcode, by their funct3."""
    return [partial(form, opcode, funct3, *rest) for funct3 in functs]


lui, auipc, jal = partial(u_type, 0x37), partial(u_type, 0x17), partial(j_type, 0x6F)
[jalr] = family(i_type, 0x67, [0])
beq, bne, blt, bge, bltu, bgeu = family(b_type, 0x63, [0, 1, 4, 5, 6, 7])
lb, lh, lw, lbu, lhu = family(i_type, 0x03, [0, 1, 2, 4, 5])
sb, sh, sw = family(s_type, 0x23, [0, 1, 2])
addi, slti, sltiu, xori, ori, andi = family(i_type, 0x13, [0, 2, 3, 4, 6, 7])
slli, srli, srai = (partial(shift_type, *how) for how in [(1, 0), (5, 0), (5, 0x400)])
add, sll, slt, sltu, xor, srl, or_, and_ = family(r_type, 0x33, range(8), 0)
sub, sra = family(r_type, 0x33, [0, 5], 0x20)
mul, mulh, mulhsu, mulhu, div, divu, rem, remu = family(r_type, 0x33, range(8), 1)
fence_i, ecall = word(0x100F), word(0x73)


# Pseudoinstructions.

nop = addi(ZERO, ZERO, 0)


def mv(rd, rs1):
    return addi(rd, rs1, 0)


def li(rd, value):
    """A register gets a number of 32 bits, by one instruction or two."""
    if callable(value):
        return addi(rd, ZERO, value)
    value = (value + 2 ** 31) % 2 ** 32 - 2 ** 31
    if -2048 <= value < 2048:
        return addi(rd, ZERO, value)
    low = (value + 2048) % 4096 - 2048
    upper = lui(rd, (value - low >> 12) % 2 ** 20)
    return upper + addi(rd, rd, low) if low else upper


# Compressed instructions.

def short(register):
    """The number of a register in three bits; only x8 to x15 have one."""
    return unsigned(register - 8, 3)


def cr_type(funct4, rd, rs2):
    return parcel(funct4 << 12 | rd << 7 | rs2 << 2 | 2)


def ci_type(quadrant, funct3, rd, fields):
    return parcel(funct3 << 13 | rd << 7 | fields | quadrant)


def ci_signed(funct3, rd, immediate):
    return ci_type(1, funct3, rd, scattered(signed(immediate, 6), (5, 5, 12), (4, 0, 2)))


def cl_type(funct3, moved, base, at=0):
    """A load or a store of a word."""
    fields = scattered(unsigned(at, 7, 4), (5, 3, 10), (2, 2, 6), (6, 6, 5))
    return parcel(funct3 << 13 | fields | short(base) << 7 | short(moved) << 2)


def ca_type(funct2, rd, rs2):
    return parcel(0x8C01 | short(rd) << 7 | funct2 << 5 | short(rs2) << 2)


def cb_type(funct3, rs1, target):
    def encode(by):
        fields = scattered(signed(by, 9, 2), (8, 8, 12), (4, 3, 10), (7, 6, 5), (2, 1, 3), (5, 5, 2))
        return parcel(funct3 << 13 | fields | short(rs1) << 7 | 1)
    return jumping(target, encode, 2)


c_mv, c_add = (partial(cr_type, funct4) for funct4 in [8, 9])
c_addi, c_li = (partial(ci_signed, funct3) for funct3 in [0, 2])
c_lw, c_sw = (partial(cl_type, funct3) for funct3 in [2, 6])
c_sub, c_xor, c_or, c_and = (partial(ca_type, funct2) for funct2 in range(4))
c_beqz, c_bnez = (partial(cb_type, funct3) for funct3 in [6, 7])


def c_slli(rd, amount):
    return ci_type(2, 0, rd, scattered(unsigned(amount, 6), (5, 5, 12), (4, 0, 2)))


def c_addi16sp(by):
    fields = scattered(signed(by, 10, 16), (9, 9, 12), (4, 4, 6), (6, 6, 5), (8, 7, 3), (5, 5, 2))
    return ci_type(1, 3, SP, fields)


c_ebreak = parcel(0x9002)


# The elements of a header: a type, a length and that many bytes, filled up to a multiple of 4.

NO_FIXED_ADDRESS = 0xFFFFFFFF


def tlv(kind, body, length=None):
    """An element; with a length it claims that many bytes, whatever it has."""
    claimed = len(body) if length is None else length
    return struct.pack("<HH", kind, claimed) + body + bytes(-len(body) % 4)


def main_tlv(minimum_ram=256, entry=0, protected=0, length=None):
    return tlv(1, word(entry) + word(protected) + word(minimum_ram), length)


def writeable_flash_regions_tlv(*regions):
    """An offset from the object's start and a size for each region."""
    return tlv(2, b"".join(word(offset) + word(size) for offset, size in regions))


def package_name_tlv(name):
    return tlv(3, name.encode())


def permissions_tlv(*entries):
    """Permissions: for each entry a driver, an offset and the 64 commands from 64 times that on, bit n for the
    n-th."""
    content = struct.pack("<H", len(entries)) + b"".join(struct.pack("<IIQ", *entry) for entry in entries)
    return tlv(6, content)


def fixed_addresses_tlv(ram=NO_FIXED_ADDRESS, flash=NO_FIXED_ADDRESS):
    return tlv(5, word(ram) + word(flash))


def program_tlv(binary_end, minimum_ram=256, entry=0, protected=0, version=1):
    """As Main, with the end of the binary, counted from the object's start, and a version."""
    return tlv(9, word(entry) + word(protected) + word(minimum_ram) + word(binary_end) + word(version))


# Objects.

ENABLED = 1


def tbf(elements, body=b"", flags=ENABLED):
    """An object of version 2: the header with its checksum, and what follows it."""
    rest = b"".join(elements)
    header_size = 16 + len(rest)
    first = word(2 | header_size << 16) + word(header_size + len(body)) + word(flags)
    checksum = 0
    for (value,) in struct.iter_unpack("<I", first + rest):
        checksum ^= value
    return first + word(checksum) + rest + body


def app(*code, name=None, elements=(), flags=ENABLED, size=0, **of_main):
    """An application: Main with what is said of it, the name, the further elements and the code, with zeros
    up to a whole word and to the size that is asked for."""
    named = [] if name is None else [package_name_tlv(name)]
    header = [main_tlv(**of_main), *named, *elements]
    body = assemble(code)
    fill = max(-len(body) % 4, size - len(tbf(header, body)))
    return tbf(header, body + bytes(fill), flags)


def padding(size=16):
    """An object with the bare header of 16 bytes, which is passed over."""
    return tbf([], bytes(size - 16), flags=0)


def patched(image, at, new):
    """The image with other bytes at an offset; no checksum is made anew."""
    return image[:at] + new + image[at + len(new):]


# System calls.

# The classes that hand something to a driver, and the drivers' numbers; 4 is the number of none.
SUBSCRIBE, READ_WRITE, READ_ONLY, READABLE = 1, 3, 4, 7
ALARM, CONSOLE, LED, BUTTON, NO_DRIVER, RANDOM, STORAGE = 0, 1, 2, 3, 4, 0x40001, 0x50001


def exits(variant=0):
    """The system call exit by itself: the completion code is what a1 holds."""
    return li(A4, 6) + li(A0, variant) + ecall


def memop(operation, argument=None):
    """The system call memop; without an argument a1 stays as it is."""
    return li(A4, 5) + li(A0, operation) + (b"" if argument is None else li(A1, argument)) + ecall


def swap(kind, driver, number, first, second):
    """Subscribe (class 1) or an allow (3 for read-write, 4 for read-only, 7 for readable) of a pair."""
    pair = li(A2, first) + li(A3, second)
    return li(A4, kind) + li(A0, driver) + li(A1, number) + pair + ecall


def command(driver, number, first=0, second=0):
    """The system call command, with two arguments."""
    return li(A4, 2) + li(A0, driver) + li(A1, number) + li(A2, first) + li(A3, second) + ecall


def yields(number):
    """The system call yield; the flag's address is what a1 holds."""
    return li(A4, 0) + li(A0, number) + ecall


def waits_for(driver, number):
    """The system call yield, for the upcall of a driver and a number alone."""
    return li(A4, 0) + li(A0, 2) + li(A1, driver) + li(A2, number) + ecall


def hands(kind, driver, number, label, second=0):
    """A swap whose first word is the address of a label; s0 holds where the code begins."""
    return [li(A4, kind) + li(A0, driver) + li(A1, number), addi(A2, S0, offset(label)), li(A3, second) + ecall]


def lends(kind, driver, number, size, place=0):
    """An allow of bytes of RAM; s1 holds where the block begins."""
    return li(A4, kind) + li(A0, driver) + li(A1, number) + addi(A2, S1, place) + li(A3, size) + ecall


def counts_down(rounds):
    """One turn, and two more a round."""
    return [li(T0, rounds), "again", addi(T0, T0, -1), bne(T0, ZERO, "again")]
