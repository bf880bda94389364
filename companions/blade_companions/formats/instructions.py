"""The instructions of functions, with what is behind their codes. Licence: public domain (CC0)."""
from __future__ import annotations

from typing import Iterator, NamedTuple, Tuple

from .encoding import leb, signed_leb, vector
from .operators import ACCESS_NAMES, VARIABLES
from .reading import Reader

BLOCKS = {0x02: "block", 0x03: "loop", 0x04: "if"}
UNREACHABLE, NOP, BLOCK, LOOP, IF, DROP, SELECT = 0x00, 0x01, 0x02, 0x03, 0x04, 0x1A, 0x1B
LOCAL_GET, LOCAL_SET, LOCAL_TEE, GLOBAL_GET, GLOBAL_SET = VARIABLES
EMPTY = -64  # the type of a block without results
ELSE, END, BR, BR_IF, BR_TABLE, RETURN, CALL, CALL_INDIRECT = 0x05, 0x0B, 0x0C, 0x0D, 0x0E, 0x0F, 0x10, 0x11
MEMORY_SIZE, MEMORY_GROW = 0x3F, 0x40
CONSTANTS = {0x41: "i32", 0x42: "i64"}
WIDTHS = {0x41: 32, 0x42: 64}  # of constants
SIGNED = frozenset([*BLOCKS, *CONSTANTS])
ONE = frozenset([BR, BR_IF, CALL, *VARIABLES, MEMORY_SIZE, MEMORY_GROW])
TWO = frozenset([CALL_INDIRECT, *ACCESS_NAMES])


class Instruction(NamedTuple):
    """An instruction: its place, its code, and the numbers behind it; of br_table the last one is where it
    leads by default."""

    place: int
    code: int
    numbers: Tuple[int, ...]


def read_locals(reader: Reader) -> Iterator[Tuple[int, int]]:
    """How many locals of which type a function declares, in front of its instructions."""
    for _ in range(reader.number()):
        yield reader.number(), reader.byte()


def read_instruction(reader: Reader) -> Instruction:
    """The next instruction. A code that isn't known has nothing behind it here."""
    place, code = reader.place, reader.byte()
    if code in SIGNED:
        return Instruction(place, code, (reader.signed(),))
    if code in ONE:
        return Instruction(place, code, (reader.number(),))
    if code in TWO:
        return Instruction(place, code, (reader.number(), reader.number()))
    if code == BR_TABLE:
        return Instruction(place, code, (*reader.many(reader.number), reader.number()))
    return Instruction(place, code, ())


def spelled(code: int, numbers: Tuple[int, ...]) -> bytes:
    """The bytes of an instruction. A constant may be given without a sign."""
    if code in WIDTHS:
        bits = WIDTHS[code]
        value = numbers[0] & ((1 << bits) - 1)
        return bytes([code]) + signed_leb(value - (1 << bits) if value >> (bits - 1) else value)
    if code in SIGNED:
        return bytes([code]) + signed_leb(numbers[0])
    if code == BR_TABLE:
        return bytes([code]) + vector([leb(label) for label in numbers[:-1]]) + leb(numbers[-1])
    return bytes([code]) + b"".join(map(leb, numbers))
