"""Two that know instructions and are not ours: GNU's assembler, and QEMU's processor in user mode under its protection
registers, with the program user_mode.c."""

import os
import re
import shutil
import struct
import subprocess
import tempfile

from cases.case import REPOSITORY
from flash_images import word

GNU = "riscv64-unknown-elf-"
QEMU = "qemu-system-riscv32"
# RV32IMC with user mode and protection registers, and nothing more that QEMU has.
PROCESSOR = "rv32,a=false,f=false,d=false,h=false,Zifencei=false,zba=false,zbb=false,zbc=false,zbs=false"


def has_assembler():
    """Whether GNU's tools are there."""
    return all(shutil.which(GNU + name) for name in ("as", "objdump", "objcopy"))


def has_processor():
    """Whether QEMU is there, and the compiler for the program that it runs."""
    return shutil.which(QEMU) is not None and shutil.which(GNU + "gcc") is not None


def is_long(code):
    """Whether an instruction has 32 bits."""
    return code % 4 == 3


def gnu(folder, name, *words):
    """What one of GNU's tools says, in a folder; and what it writes."""
    end = subprocess.run([GNU + name, *words], cwd=folder, capture_output=True, text=True)
    return end.stderr if end.returncode else "", end.stdout


def assembled(folder, extensions, lines):
    """What GNU's assembler finds wrong with lines, which it assembles to the file `made`."""
    with open(os.path.join(folder, "lines"), "w") as file:
        file.write("".join(line + "\n" for line in lines))
    return gnu(folder, "as", "-mno-relax", "-march=" + extensions, "-o", "made", "lines")[0]


def texts_of(folder, codes):
    """The text of each instruction of `made`, as one assembles it; nothing where none is known."""
    said = gnu(folder, "objdump", "-d", "-M", "no-aliases", "made")[1]
    texts = []
    for at, text in re.findall(r"^ *(\w+):\t\w+ *\t([^#\n]*)", said, re.M):
        # A jump goes by so many bytes from itself.
        by = re.sub(r"\b(\w+) <.*>", lambda to: ".%+d" % ((int(to[1], 16) - int(at, 16) + 2 ** 31) % 2 ** 32 - 2 ** 31),
                    text)
        texts.append("" if re.match(r"\.\dbyte|(c\.)?unimp", by) else by)
    assert len(texts) == len(codes), "%d of %d" % (len(texts), len(codes))
    return texts


def known_by_gnu(codes, extensions):
    """Which instructions GNU's assembler knows: what they are disassembled to is assembled to them again."""
    empty = [".insn %d, 0x%x" % ((4, 3) if is_long(code) else (2, 1)) for code in codes]
    with tempfile.TemporaryDirectory() as folder:
        assembled(folder, extensions, [".insn %d, 0x%x" % (4 if is_long(code) else 2, code) for code in codes])
        texts = texts_of(folder, codes)
        lines = [text or none for text, none in zip(texts, empty)]
        refused = {int(number) - 1 for number in re.findall(r"^lines:(\d+): Error",
                                                            assembled(folder, extensions, lines), re.M)}
        lines = [empty[n] if n in refused else line for n, line in enumerate(lines)]
        wrong = assembled(folder, extensions, lines)
        assert not wrong, wrong[:300]
        gnu(folder, "objcopy", "-O", "binary", "-j", ".text", "made", "bytes")
        with open(os.path.join(folder, "bytes"), "rb") as file:
            made = file.read()
    found, at = [], 0
    for n, code in enumerate(codes):
        size = 4 if is_long(code) else 2
        found.append(lines[n] != empty[n] and int.from_bytes(made[at:at + size], "little") == code)
        at += size
    return found


def numbers(values):
    """Words, one after another."""
    return b"".join(word(value) for value in values)


def done_by_qemu(sets, layouts, trials):
    """What each instruction leaves: pc, x1 to x31, mcause, mtval, how many words of RAM changed, and of the last of
    these its address and what it is. A set is x1 to x31; a layout is from and up to where flash is accessible, and RAM;
    a trial is the address of an instruction, the instruction, the number of its set, and that of its layout."""
    # Layout by layout, so that the protection registers are seldom set.
    order = sorted(range(len(trials)), key=lambda n: trials[n][3])
    with tempfile.TemporaryDirectory() as folder:
        end = subprocess.run([GNU + "gcc", "-march=rv32imc_zicsr", "-mabi=ilp32", "-mcmodel=medany", "-Os",
                              "-ffreestanding", "-nostdlib", "-Wl,-Ttext=0x80000000", "-o", "program",
                              os.path.join(REPOSITORY, "tests", "user_mode.c")], cwd=folder)
        assert end.returncode == 0
        with open(os.path.join(folder, "trials"), "wb") as file:
            file.write(numbers([len(sets), len(layouts), len(trials)]))
            for row in sets + layouts + [trials[n] for n in order]:
                file.write(numbers(row))
        end = subprocess.run([QEMU, "-machine", "virt", "-cpu", PROCESSOR, "-m", "512M", "-display", "none",
                              "-bios", "none", "-icount", "0", "-semihosting-config", "enable=on,target=native",
                              "-device", "loader,cpu-num=0,file=program",
                              "-device", "loader,addr=0x81000000,force-raw=on,file=trials"],
                             cwd=folder, stdin=subprocess.DEVNULL, capture_output=True, timeout=300)
    found = list(struct.iter_unpack("<37I", end.stdout))
    assert len(found) == len(trials), "%d answers to %d: %s" % (len(found), len(trials), end.stderr)
    return [left for _, left in sorted(zip(order, found))]
