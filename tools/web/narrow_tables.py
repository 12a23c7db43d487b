#!/usr/bin/env python3
"""narrow_tables.py FROM TO: copies a WebAssembly module and gives its tables of functions 32-bit indices.

Binaryen lowers 64-bit memories to 32 bits, but not 64-bit tables. Here each indirect call wraps its index to 32 bits.
The indices are those of the program's functions, far fewer than 2^32, so wrapping does not change them.
"""

import sys
from pathlib import Path

I32_WRAP_I64, CALL_INDIRECT, BR_TABLE, I32_CONST, I64_CONST, END, MISC = 0xA7, 0x11, 0x0E, 0x41, 0x42, 0x0B, 0xFC
TABLE_SECTION, ELEMENT_SECTION, CODE_SECTION = 4, 9, 10
HAS_MAXIMUM, IS_64_BIT = 1, 4

# The operands of each instruction that has any, as letters: n is a number, and b, w and d are 1, 4 and 8 bytes.
ONE_NUMBER = (0x02, 0x03, 0x04, 0x0C, 0x0D, 0x10, *range(0x20, 0x27), 0x3F, 0x40, I32_CONST, I64_CONST, 0xD2)
OPERANDS = {
    **dict.fromkeys(ONE_NUMBER, "n"),
    **dict.fromkeys(range(0x28, 0x3F), "nn"),
    CALL_INDIRECT: "nn",
    0x43: "w",
    0x44: "d",
    0xD0: "b",
}
# Those of the instructions that begin with MISC, by their second number.
MISC_OPERANDS = {**dict.fromkeys(range(8), ""), 8: "nn", 9: "n", 10: "nn", 11: "n"}
WITHOUT_OPERANDS = {0x00, 0x01, 0x05, END, 0x0F, 0x1A, 0x1B, 0xD1, *range(0x45, 0xC5)}
SIZES = {"b": 1, "w": 4, "d": 8}


def read_number(code: bytes, at: int) -> tuple[int, int]:
    """The unsigned LEB128 number at a place, and the place after it. A signed one ends at the same place."""
    value = shift = 0
    while True:
        byte = code[at]
        value |= (byte & 127) << shift
        shift, at = shift + 7, at + 1
        if byte < 128:
            return value, at


def number(value: int) -> bytes:
    out = bytearray()
    while value > 127:
        out.append(value & 127 | 128)
        value >>= 7
    out.append(value)
    return bytes(out)


def end_of_instruction(code: bytes, at: int) -> int:
    opcode, at = code[at], at + 1
    if opcode == MISC:
        second, at = read_number(code, at)
        operands = MISC_OPERANDS.get(second)
    elif opcode == BR_TABLE:
        count, at = read_number(code, at)
        operands = "n" * (count + 1)
    else:
        operands = OPERANDS.get(opcode, "" if opcode in WITHOUT_OPERANDS else None)
    if operands is None:
        sys.exit(f"narrow_tables: unknown instruction {opcode:#x}")
    for operand in operands:
        at = read_number(code, at)[1] if operand == "n" else at + SIZES[operand]
    return at


def narrow_tables(section: bytes) -> bytes:
    count, at = read_number(section, 0)
    out = bytearray(number(count))
    for _ in range(count):
        out.append(section[at])
        flags, at = read_number(section, at + 1)
        out += number(flags & ~IS_64_BIT)
        for _ in range(1 + (flags & HAS_MAXIMUM)):
            limit, at = read_number(section, at)
            out += number(limit)
    return bytes(out)


def narrow_elements(section: bytes) -> bytes:
    """The list of functions of the table, whose constant first index becomes a 32-bit one."""
    count, at = read_number(section, 0)
    if count == 0:
        return section
    if count != 1 or section[at] != 0 or section[at + 1] != I64_CONST:
        sys.exit("narrow_tables: not one list of functions from a constant index on")
    return number(1) + bytes([0, I32_CONST]) + section[at + 2 :]


def narrow_function(function: bytes) -> bytes:
    groups, at = read_number(function, 0)
    for _ in range(groups):
        at = read_number(function, at)[1] + 1
    out, start = bytearray(), 0
    while at < len(function):
        if function[at] == CALL_INDIRECT:
            out += function[start:at] + bytes([I32_WRAP_I64])
            start = at
        at = end_of_instruction(function, at)
    return bytes(out) + function[start:]


def narrow_code(section: bytes) -> bytes:
    count, at = read_number(section, 0)
    out = bytearray(number(count))
    for _ in range(count):
        size, at = read_number(section, at)
        function = narrow_function(section[at : at + size])
        out += number(len(function)) + function
        at += size
    return bytes(out)


def narrow_module(module: bytes) -> bytes:
    out, at = bytearray(module[:8]), 8
    steps = {TABLE_SECTION: narrow_tables, ELEMENT_SECTION: narrow_elements, CODE_SECTION: narrow_code}
    while at < len(module):
        kind = module[at]
        size, at = read_number(module, at + 1)
        section = steps.get(kind, bytes)(module[at : at + size])
        out += bytes([kind]) + number(len(section)) + section
        at += size
    return bytes(out)


if __name__ == "__main__":
    source, target = map(Path, sys.argv[1:])
    target.write_bytes(narrow_module(source.read_bytes()))
