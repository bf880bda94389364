"""Codes of instructions with the types of their values. Licence: public domain (CC0)."""
from __future__ import annotations

from typing import Dict, List, NamedTuple, Tuple

from ..formats import operators
from ..formats.encoding import I32, I64
from ..formats.instructions import (  # fmt: skip
    BLOCK, BR, BR_IF, BR_TABLE, CALL, CALL_INDIRECT, DROP, ELSE, EMPTY, END, GLOBAL_GET, GLOBAL_SET, IF,
    LOCAL_GET, LOCAL_SET, LOCAL_TEE, LOOP, MEMORY_GROW, MEMORY_SIZE, NOP, RETURN, SELECT, UNREACHABLE,
    Instruction)
from ..formats.operators import ACCESS_NAMES, COMPARISONS, DIVISIONS, LOADS, STORES, VARIABLES, width_of

# fmt: off
__all__ = [
    "ACCESSES", "ACCESS_NAMES", "BITS", "BLOCK", "BR", "BR_IF", "BR_TABLE", "CALL", "CALL_INDIRECT",
    "CODE_OF", "COMPARED", "CONST", "DIVISIONS", "DROP", "ELSE", "EMPTY", "END", "GLOBAL_GET",
    "GLOBAL_SET", "I32", "I32_CONST", "I64", "I64_CONST", "IF", "LOADS", "LOCAL_GET", "LOCAL_SET",
    "LOCAL_TEE", "LOOP", "MEMORY_GROW", "MEMORY_SIZE", "NOP", "OPENING", "OPERATORS", "RETURN", "SELECT",
    "STORES", "UNREACHABLE", "Access", "Instruction", "Operator", "assembled", "ins"]
# fmt: on

BITS = {I32: 32, I64: 64}
I32_CONST, I64_CONST = 0x41, 0x42
CONST = {I32: I32_CONST, I64: I64_CONST}
OPENING = frozenset([BLOCK, LOOP, IF])
COMPARED = frozenset(COMPARISONS.split())
SINGLE = ("clz", "ctz", "popcnt", "extend8_s", "extend16_s", "extend32_s")


def ins(code: int, *numbers: int) -> Instruction:
    """An instruction that stands in no file yet."""
    return Instruction(-1, code, numbers)


class Operator(NamedTuple):
    """An instruction that makes one number of others."""

    name: str
    operands: Tuple[int, ...]
    result: int

    @property
    def word(self) -> str:
        """The name without the type."""
        return self.name[4:]


def operator(name: str) -> Operator:
    kind, word = I32 if name.startswith("i32") else I64, name[4:]
    if word == "wrap_i64":
        return Operator(name, (I64,), I32)
    if word in ("extend_i32_s", "extend_i32_u"):
        return Operator(name, (I32,), I64)
    if word in SINGLE:
        return Operator(name, (kind,), kind)
    result = I32 if word == "eqz" or word in COMPARED else kind
    return Operator(name, (kind,) if word == "eqz" else (kind, kind), result)


OPERATORS: Dict[int, Operator] = {code: operator(name) for code, name in operators.OPERATORS.items()}
CODE_OF = {one.name: code for code, one in OPERATORS.items()}


class Access(NamedTuple):
    """A load or a store: the type of its value, how many bytes it moves, and whether it extends by sign."""

    type: int
    width: int
    is_signed: bool


ACCESSES = {
    code: Access(I32 if name.startswith("i32") else I64, width_of(name), name.endswith("_s"))
    for code, name in ACCESS_NAMES.items()
}

CONTROL = {
    "unreachable": UNREACHABLE,
    "nop": NOP,
    "block": BLOCK,
    "loop": LOOP,
    "if": IF,
    "else": ELSE,
    "end": END,
    "br": BR,
    "br_if": BR_IF,
    "return": RETURN,
    "call": CALL,
    "drop": DROP,
    "select": SELECT,
    "i32.const": I32_CONST,
    "i64.const": I64_CONST,
    "memory.size": MEMORY_SIZE,
    "memory.grow": MEMORY_GROW,
}
NAMES: Dict[str, int] = {
    **CODE_OF,
    **CONTROL,
    **{name: code for code, name in ACCESS_NAMES.items()},
    **{name: code for code, name in VARIABLES.items()},
}


def assembled(text: str) -> List[Instruction]:
    """Instructions as text, one behind the other with a semicolon between. A block has no result unless its
    type is given; behind an access stands its offset."""
    found = []
    for word, *rest in (one.split() for one in text.split(";") if one.strip()):
        code, numbers = NAMES[word], [int(one, 0) for one in rest]
        if code in OPENING and not numbers:
            numbers = [EMPTY]
        if code in ACCESSES:
            numbers = [0, *(numbers or [0])]
        found.append(ins(code, *numbers))
    return found
