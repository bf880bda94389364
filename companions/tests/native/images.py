"""Writes images for tests: commands as tuples, in the spelling of FORMATS.md. Licence: public domain (CC0).

A variable is an int, and a constant is `K(value)`. Variables are numbered over the whole program, as in an
image."""
from __future__ import annotations

from typing import List, NamedTuple, Sequence, Tuple, Union

from blade_companions.formats.encoding import leb, vector

I32, I64 = 0x7F, 0x7E
SET, LOAD, STORE, TEST, JUMP, ARG, CALL, OUT, RET, TRAP = range(10)
MOVE, OUTSIDE, SELECT = 0x00, 0x01, 0x1B
PROTECTED = 8


class K(NamedTuple):
    """A constant."""

    value: int


Value = Union[int, K]  # a variable, or a constant


class Function(NamedTuple):
    """A function: types of parameters and results, how many variables it has, and its commands."""

    parameters: Sequence[int]
    results: Sequence[int]
    variables: int
    commands: List[Tuple]
    secret: bool = False  # whether its parameters are


def operand(one: Value) -> bytes:
    return b"\1" + leb(one.value) if isinstance(one, K) else b"\0" + leb(one)


def command(code: int, *fields: Value) -> bytes:
    """A command: bytes for marks, operators and accesses stand as ints in front, operands behind.

    (SET, mark, operator, variable, operand..), (LOAD, mark, load, memory, variable, offset, address),
    (STORE, store, memory, offset, address, value), (TEST, condition, yes, no), (JUMP, position),
    (ARG, mark, function, index, value), (CALL, function), (OUT, mark, index, value), (RET,), (TRAP, kind)"""
    if code == SET:
        mark, operator, variable, *operands = fields
        return bytes([code, mark, operator]) + leb(variable) + b"".join(map(operand, operands))
    if code == LOAD:
        mark, load, memory, variable, offset, address = fields
        return bytes([code, mark, load]) + leb(memory) + leb(variable) + leb(offset) + operand(address)
    if code == STORE:
        store, memory, offset, address, value = fields
        return bytes([code, store]) + leb(memory) + leb(offset) + operand(address) + operand(value)
    if code == TEST:
        return bytes([code]) + operand(fields[0]) + leb(fields[1]) + leb(fields[2])
    if code in (ARG, OUT):
        mark, *numbers, value = fields
        return bytes([code, mark]) + b"".join(map(leb, numbers)) + operand(value)
    return bytes([code]) + b"".join(map(leb, fields))


def function(one: Function) -> bytes:
    label = b"\1" if one.secret else b"\0"
    return (
        vector([bytes([kind]) + label for kind in one.parameters])
        + vector([bytes([kind]) for kind in one.results])
        + leb(one.variables)
        + leb(len(one.commands))
    )


def image(
    functions: Sequence[Function],
    memories: Sequence[Tuple[int, int]] = (),
    globals_: Sequence[Tuple[int, int]] = (),
    secret_memories: bool = False,
) -> bytes:
    """An image of public globals (type, value), memories (pages, reserve), and functions of which each is
    exported as `t/fN`."""
    label = b"\1" if secret_memories else b"\0"
    exports = [
        (lambda name: leb(len(name)) + name + leb(number))(f"t/f{number}".encode())
        for number in range(len(functions))
    ]
    return (
        b"BLIM\1"
        + vector([bytes([kind, 0]) + leb(value) for kind, value in globals_])
        + vector([leb(pages) + leb(reserve) + label + b"\0" for pages, reserve in memories])
        + vector([function(one) for one in functions])
        + vector(exports)
        + b"".join(command(*one) for defined in functions for one in defined.commands)
    )


def bounded(position: int, scratch: int, size: int, memory_access: Tuple, width: int) -> List[Tuple]:
    """An access behind its bounds test, whose first command stands at a position; the scratch variable takes
    the test."""
    offset, address = (
        (memory_access[5], memory_access[6])
        if memory_access[0] == LOAD
        else (memory_access[3], memory_access[4])
    )
    return [
        (SET, 0, OUTSIDE, scratch, address, size, K(offset + width)),
        (TEST, scratch, 3, position + 2),
        memory_access,
    ]
