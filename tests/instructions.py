"""Compares instructions, and what a process may access, with two that know them and are not ours (judges.py), where
these are there. `checks` gives each check with its name, for tests/run.

What the program makes of an instruction is asked of tock_look: sixteen processes, each with one behind code that sets
RAM and all registers, have so many turns that it is made; then registers, RAM and denials are looked at.
"""

import functools
import os
import random
import re
import subprocess
import tempfile
from dataclasses import dataclass

import judges
from debugger.board import Refused, find_look
from flash_images import FLASH, RAM, T0, T1, T2, T3, add, addi, app, assemble, bne, lui, parcel, sw, word
from judges import is_long

# The bytes of RAM that a process may access, and of its block; of its header, and of its object.
SIZE, BLOCK, HEADER, OBJECT = 512, 2048, 32, 1024
# Code begins behind so many EBREAKs, and is followed by them. The last parcel is the first half of a NOP of 32 bits in
# slots whose flash ends with a page of QEMU's, which looks at its protection registers once for fetches within one.
BEFORE, EBREAK, HALF, PAGE = 8, parcel(0x9002), parcel(0x0013), 4096
# The word that RAM has at place n: n times this.
FACTOR = 0x9E3779B1
SLOTS = 16
# How many boards one shell runs, one after another.
CHUNK = 256

# Numbers at which operations go by another case.
EDGES = [0, 1, 2 ** 32 - 1, 2 ** 31, 2 ** 31 - 1, 2, 31, 32]
# funct7 of instructions that have other fields there, of which these are as good as all.
SOME = [0, 1, 2, 3, 4, 8, 16, 31, 32, 33, 48, 63, 64, 96, 126, 127]
# Opcodes without their two lowest bits: loads, fences, operations with a number, stores, operations, the system's.
LOADS, FENCES, OP_IMM, STORES, OP, SYSTEM = 0, 3, 4, 8, 12, 28

# Codes of mcause; and QEMU's of the interrupt that ends a loop.
NO_FETCH, ILLEGAL, BREAKPOINT, NO_LOAD, NO_STORE, CALL, MISALIGNED, LOOPS = 1, 2, 3, 5, 7, 8, (4, 6), 0x80000007


@dataclass(frozen=True)
class Trial:
    """An instruction, and the name of the set of registers with which it is made."""
    code: int
    set: str


@dataclass
class Left:
    """What an instruction left: pc and x1 to x31, the code and the address of a denial, the bytes of RAM."""
    registers: list
    cause: object
    address: object
    ram: bytes


# Where a slot has its accessible flash, from and to, and its accessible RAM.

def accessible(slot):
    return FLASH + slot * OBJECT + HEADER, FLASH + (slot + 1) * OBJECT


def block(slot):
    return RAM + slot * BLOCK, RAM + slot * BLOCK + SIZE


# Sets of registers, x1 to x31, by the slot.

def near(slot):
    """Words of RAM, from which each load and store of 16 bits reaches RAM."""
    return [block(slot)[0] + 120 + 4 * (n * 7 % 32) for n in range(31)]


def edges(slot):
    """Numbers at which operations go by another case, and others."""
    drawn = random.Random(7)
    return EDGES + [drawn.getrandbits(32) for _ in range(31 - len(EDGES))]


def bounds(slot):
    """Addresses about where accessible flash and RAM begin and end, and far from them."""
    ends = accessible(slot) + block(slot)
    return [end + by for end in ends for by in (-4, -2, -1, 0, 1, 2, 4)] + [0, 2 ** 32 - 4, 2 ** 31 - 2]


SETS = {"near": near, "edges": edges, "bounds": bounds}


# What is tried.

def parcels():
    """Each parcel that is an instruction of 16 bits, with one of two sets."""
    return [Trial(n, "edges" if n * FACTOR >> 20 & 1 else "near") for n in range(2 ** 16) if not is_long(n)]


def words():
    """Of instructions of 32 bits each opcode and funct3 with each funct7 that may tell rows apart, other fields drawn;
    each operation on each two edges, and by each number below 32; those near ECALL and EBREAK."""
    drawn = random.Random(32)
    rows = [(opcode, funct3, funct7) for opcode in range(32) for funct3 in range(8)
            for funct7 in (range(128) if opcode in (OP_IMM, OP) else SOME)]
    found = [(drawn.getrandbits(32) & 0x01FF8F80) | opcode << 2 | 3 | funct3 << 12 | funct7 << 25
             for opcode, funct3, funct7 in rows]
    found = [Trial(code, name) for code in found for name in ("near", "edges")]
    operations = [(funct3, funct7, rs1) for funct3 in range(8) for funct7 in (0, 1, 32) for rs1 in range(1, 9)]
    exact = [code | funct7 << 25 | rs1 << 15 | funct3 << 12 | 20 << 7 | opcode << 2 | 3
             for funct3, funct7, rs1 in operations
             for opcode, seconds in ((OP, range(1, 9)), (OP_IMM, range(32))) for code in [n << 20 for n in seconds]]
    exact += [code ^ 1 << bit for code in (0x73, 0x100073) for bit in range(7, 32)] + [0x73, 0x100073]
    return found + [Trial(code, "edges") for code in exact]


def accesses():
    """In each slot each load and store of 32 bits, and a jump, at each of the bounds."""
    codes = [LOADS << 2 | 3 | funct3 << 12 | 5 << 7 for funct3 in (0, 1, 2, 4, 5)]
    codes += [STORES << 2 | 3 | funct3 << 12 | 5 << 20 for funct3 in (0, 1, 2)] + [0x67]
    return [Trial(code | rs1 << 15, "bounds") for rs1 in range(1, 32) for code in codes for _ in range(SLOTS)]


# The program's answers.

def whole(register, value):
    """A register gets a number, by two instructions."""
    low = (value + 2048) % 4096 - 2048
    return lui(register, (value - low >> 12) % 2 ** 20) + addi(register, register, low)


@functools.lru_cache(None)
def prepared(name, slot):
    """The code that sets RAM, and then x1 to x31."""
    start, end = block(slot)
    first = [whole(T0, start), whole(T1, end), whole(T2, 0), whole(T3, FACTOR)]
    loop = ["again", sw(T2, T0), add(T2, T2, T3), addi(T0, T0, 4), bne(T0, T1, "again")]
    return assemble(first + loop + [whole(n, value) for n, value in enumerate(SETS[name](slot), 1)])


# Its turns.
TURNS = 2 * 4 + 4 * SIZE // 4 + 2 * 31


def place(slot):
    """The address of the instruction that is tried."""
    return accessible(slot)[0] + 2 * BEFORE + len(prepared("near", slot))


@functools.lru_cache(None)
def object_before(name, slot):
    """An application of that slot up to the instruction, and what follows one of 16 bits, with its length."""
    code = EBREAK * BEFORE + prepared(name, slot)
    last = HALF if accessible(slot)[1] % PAGE == 0 else EBREAK
    rest = EBREAK * ((OBJECT - HEADER - len(code)) // 2 - 1) + last
    made = app(code, rest, minimum_ram=SIZE, entry=2 * BEFORE)
    return made[:HEADER + len(code)], made[HEADER + len(code):]


def image_of(trials):
    """An application for each slot."""
    image = b""
    for slot, trial in enumerate(trials):
        before, rest = object_before(trial.set, slot)
        code = (word if is_long(trial.code) else parcel)(trial.code)
        image += before + code + rest[len(code):]
    return image


def answers_of(text):
    """What each process has, by what tock_look wrote of the state and of RAM."""
    states = re.findall(r"^denied \d+ 0000000(\d) (\w+) (\w+)\n(?:\w.*\n)*?at (?:\d+ ){5}\w+ (.*)$", text, re.M)
    rams = re.findall(r"^memory (\w+)$", text, re.M)
    assert len(states) == len(rams), text[-2000:]
    found = []
    for (denied, *denial, values), ram in zip(states, rams):
        cause, address = [int(number, 16) if denied == "1" else None for number in denial]
        found.append(Left([int(value, 16) for value in values.split()], cause, address, bytes.fromhex(ram)))
    return found


def looked_at(folder, boards, turns):
    """What tock_look writes of some boards, each with sixteen instructions, once each process had so many turns."""
    for n, board in enumerate(boards):
        with open(os.path.join(folder, str(n)), "wb") as file:
            file.write(image_of(board))
    with open(os.path.join(folder, "script"), "w") as file:
        file.write("slice %d" % turns)
    asked = ["steps 0 %d" % (turns * SLOTS), "state"]
    asked += ["memory %d %d %d" % (slot, block(slot)[0], SIZE) for slot in range(SLOTS)]
    each = 'last=$1 look=$2 n=0; shift 2; while [ $n -lt $last ]; do "$look" $n script "$@" || exit; n=$((n + 1)); done'
    end = subprocess.run(["sh", "-c", each, "sh", str(len(boards)), find_look()] + asked, cwd=folder,
                         capture_output=True, text=True)
    assert end.returncode == 0, end
    return end.stdout


@functools.lru_cache(None)
def ours(trials, more=0):
    """What each of some instructions leaves, by the program, and so many turns more."""
    boards = [trials[first:first + SLOTS] for first in range(0, len(trials), SLOTS)]
    assert len(boards[-1]) == SLOTS
    found = []
    with tempfile.TemporaryDirectory() as folder:
        for first in range(0, len(boards), CHUNK):
            found += answers_of(looked_at(folder, boards[first:first + CHUNK], TURNS + 1 + more))
    return found


# The judges' answers beside them.

def theirs(trials):
    """What each of them leaves, by QEMU."""
    names = list(SETS)
    sets = [SETS[name](slot) for name in names for slot in range(SLOTS)]
    layouts = [accessible(slot) + block(slot) for slot in range(SLOTS)]
    return judges.done_by_qemu(sets, layouts, [
        (place(n % SLOTS), trial.code, names.index(trial.set) * SLOTS + n % SLOTS, n % SLOTS)
        for n, trial in enumerate(trials)])


@functools.lru_cache(None)
def ram_before(slot):
    return judges.numbers(FACTOR * n % 2 ** 32 for n in range(SIZE // 4))


def ram_after(slot, changes, address, value):
    """RAM, by how many of its words changed, and to what; nothing where more than one did."""
    ram, at = ram_before(slot), address - block(slot)[0]
    return None if changes > 1 else ram[:at] + word(value) + ram[at + 4:] if changes else ram


def is_same_misaligned(slot, trial, our, their):
    """A load or a store that is misaligned is denied here, and made by QEMU where it is permitted; both are right."""
    cause, value = their[32:34]
    made = cause == BREAKPOINT and their[0] > place(slot)
    denied = cause in (NO_LOAD, NO_STORE) and value == our.address
    return our.address % 4 != 0 and (made or denied) and our.ram == ram_before(slot) \
        and our.registers == [place(slot)] + SETS[trial.set](slot)


def is_same(slot, trial, our, their, more):
    """Whether both say the same of an instruction. By QEMU's trap behind it the program's next turn is denied, where it
    was made; else the trap is the instruction's own where it left pc, but for a loop."""
    if our.cause in MISALIGNED:
        return is_same_misaligned(slot, trial, our, their)
    registers, (cause, value, *changed) = list(their[:32]), their[32:]
    address = value if cause in (NO_FETCH, NO_LOAD, NO_STORE) else registers[0]
    is_denied = more or registers[0] == place(slot)
    denial = (cause, address) if is_denied and cause != LOOPS else (None, None)
    return ((our.cause, our.address), our.registers, our.ram) == (denial, registers, ram_after(slot, *changed))


def judged(trials, more=0):
    """The program and QEMU say the same of each instruction."""
    wrong = [(n % SLOTS, *of) for n, of in enumerate(zip(trials, ours(trials, more), theirs(trials)))
             if not is_same(n % SLOTS, *of, more)]
    for slot, trial, our, their in wrong[:1]:
        return "%d differ; %08x with %s in slot %d: %s %s %s, by QEMU %s" % (
            len(wrong), trial.code, trial.set, slot, our.cause, our.address, list(map(hex, our.registers)),
            list(map(hex, their)))
    return None


@functools.lru_cache(None)
def instructions():
    """Parcels and words, as many as fill boards."""
    found = parcels() + words()
    return tuple(found + [Trial(1, "near")] * (-len(found) % SLOTS))


def decoded():
    """The program denies as illegal exactly what GNU's assembler does not know. To QEMU alone are left fences, whose
    other fields decide nothing here, what is for the machine's own modes, and what begins longer instructions."""
    legal = {trial.code: left.cause != ILLEGAL for trial, left in zip(instructions(), ours(instructions()))}
    short = [code for code in legal if not is_long(code)]
    long = [code for code in legal if is_long(code) and code >> 2 & 7 != 7 and code >> 2 & 31 not in (FENCES, SYSTEM)]
    wrong = ["%x" % code for codes, extensions in ((short, "rv32imc"), (long, "rv32im"))
             for code, known in zip(codes, judges.known_by_gnu(codes, extensions)) if legal[code] != known]
    return "%d differ: %s" % (len(wrong), " ".join(wrong[:20])) if wrong else None


def checks(program):
    """Each check with its name."""
    try:
        find_look()
    except Refused as refused:
        print("instructions: not tried: %s" % refused)
        return []
    found = []
    if judges.has_assembler():
        found.append(("instructions-decoded", decoded))
    else:
        print("instructions-decoded: not tried without GNU's assembler for RISC-V")
    if judges.has_processor():
        found += [("instructions-judged", lambda: judged(instructions())),
                  ("accesses-judged", lambda: judged(tuple(accesses()), 1))]
    else:
        print("instructions-judged, accesses-judged: not tried without %s and a compiler" % judges.QEMU)
    return found
