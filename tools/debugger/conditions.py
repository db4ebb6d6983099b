"""Conditions of breakpoints, as GDB hands them on: programs of a machine that has a stack of words of 64 bits (GDB's
manual, "The GDB Agent Expression Mechanism")."""

import re

BITS = 64
ALL = (1 << BITS) - 1
# How many operations a condition may take.
MOST_OPERATIONS = 10000


class CannotTell(Exception):
    """A condition that is not judged here. The place is told then, and GDB judges it."""


def signed(word, bits=BITS):
    """The number that the lowest bits of a word are, with their sign."""
    word &= (1 << bits) - 1
    return word - (1 << bits) if word >> (bits - 1) else word


def quotient(a, b):
    """The quotient of two numbers, rounded to 0."""
    if b == 0:
        raise CannotTell("a division by 0")
    return abs(a) // abs(b) * (-1 if (a < 0) != (b < 0) else 1)


def remainder(a, b):
    return a - quotient(a, b) * b


# Operations on the two topmost words, on the topmost one, and on the topmost one with a number behind the operation.
ON_TWO = {
    0x02: lambda a, b: a + b, 0x03: lambda a, b: a - b, 0x04: lambda a, b: a * b,
    0x05: lambda a, b: quotient(signed(a), signed(b)), 0x06: quotient,
    0x07: lambda a, b: remainder(signed(a), signed(b)), 0x08: remainder,
    0x09: lambda a, b: a << min(b, BITS), 0x0a: lambda a, b: signed(a) >> min(b, BITS),
    0x0b: lambda a, b: a >> min(b, BITS),
    0x0f: lambda a, b: a & b, 0x10: lambda a, b: a | b, 0x11: lambda a, b: a ^ b,
    0x13: lambda a, b: a == b, 0x14: lambda a, b: signed(a) < signed(b), 0x15: lambda a, b: a < b,
}
ON_ONE = {0x0e: lambda a: a == 0, 0x12: lambda a: ~a}
WITH_BITS = {0x16: signed, 0x2a: lambda a, bits: a & ((1 << bits) - 1)}
# How many bytes of memory an operation reads, and how many of the program the constant has that one pushes.
READS = {0x17: 1, 0x18: 2, 0x19: 4, 0x1a: 8}
CONSTANTS = {0x22: 1, 0x23: 2, 0x24: 4, 0x25: 8}
IF_GOTO, GOTO, REGISTER, END, DUPLICATE, POP, SWAP, PICK, ROTATE = 0x20, 0x21, 0x26, 0x27, 0x28, 0x29, 0x2b, 0x32, 0x33


class Program:
    """A condition, and where it is judged: registers, and a function that gives so many bytes of memory."""

    def __init__(self, code, registers, memory):
        self.code, self.registers, self.memory = code, registers, memory
        self.at, self.stack = 0, []

    def number(self, size):
        """The number that stands next in the program."""
        self.at += size
        if self.at > len(self.code):
            raise CannotTell("the condition ends early")
        return int.from_bytes(self.code[self.at - size:self.at], "big")

    def read(self, at, size):
        data = self.memory(at & 0xFFFFFFFF, size)
        if len(data) < size:
            raise CannotTell("no memory at %08x" % at)
        return int.from_bytes(data, "little")

    def bits(self):
        bits = self.number(1)
        if not 0 < bits <= BITS:
            raise CannotTell("%d bits" % bits)
        return bits

    def move(self, operation):
        """An operation that moves words on the stack."""
        stack = self.stack
        if operation == DUPLICATE:
            stack.append(stack[-1])
        elif operation == POP:
            stack.pop()
        elif operation == SWAP:
            stack[-2:] = [stack[-1], stack[-2]]
        elif operation == PICK:
            stack.append(stack[-1 - self.number(1)])
        elif operation == ROTATE:
            stack[-3:] = [stack[-1], stack[-3], stack[-2]]
        else:
            raise CannotTell("operation %02x" % operation)

    def go(self, operation):
        """An operation that goes elsewhere in the program."""
        to = self.number(2)
        if operation == GOTO or self.stack.pop():
            self.at = to

    def do(self, operation):
        stack = self.stack
        if operation in ON_TWO:
            b, a = stack.pop(), stack.pop()
            stack.append(ON_TWO[operation](a, b) & ALL)
        elif operation in CONSTANTS:
            stack.append(self.number(CONSTANTS[operation]))
        elif operation in READS:
            stack.append(self.read(stack.pop(), READS[operation]))
        elif operation == REGISTER:
            stack.append(self.registers[self.number(2)])
        elif operation in WITH_BITS:
            stack.append(WITH_BITS[operation](stack.pop(), self.bits()) & ALL)
        elif operation in ON_ONE:
            stack.append(ON_ONE[operation](stack.pop()) & ALL)
        elif operation in (IF_GOTO, GOTO):
            self.go(operation)
        else:
            self.move(operation)

    def value(self):
        """What the condition comes to."""
        try:
            for _ in range(MOST_OPERATIONS):
                operation = self.number(1)
                if operation == END:
                    return self.stack.pop()
                self.do(operation)
        except IndexError:
            raise CannotTell("no such register, or the stack is empty") from None
        raise CannotTell("more than %d operations" % MOST_OPERATIONS)


def holds(codes, registers, memory):
    """Whether one of some conditions holds, or cannot be told here."""
    try:
        return any(Program(code, registers, memory).value() != 0 for code in codes)
    except CannotTell:
        return True


def codes_in(text):
    """The conditions in what follows the place of a breakpoint in its packet."""
    codes = []
    for part in text.split(";"):
        while part.startswith("X"):
            size, _, rest = part[1:].partition(",")
            if not re.fullmatch("[0-9a-f]+", size):
                break
            codes.append(bytes.fromhex(rest[:2 * int(size, 16)]))
            part = rest[2 * int(size, 16):]
    return codes
