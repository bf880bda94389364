"""Terms: numbers made of constants and variables by instructions. The algebra of known bits is written in
them once, and they become numbers (for tests), Python text (for recorded runs) or instructions (for split
modules). Licence: public domain (CC0)."""
from __future__ import annotations

from dataclasses import dataclass
from typing import Iterable, List, Mapping, Tuple, Union

from . import codes as op
from .numerics import function_of, python_of
from ..formats.instructions import Instruction


@dataclass(frozen=True)
class Const:
    value: int
    bits: int


@dataclass(frozen=True)
class Var:
    name: Union[str, int]  # in a module the index of a local
    bits: int


@dataclass(frozen=True)
class Apply:
    code: int
    operands: Tuple["Term", ...]
    bits: int


Term = Union[Const, Var, Apply]
WIDE = {32: op.I32, 64: op.I64}


def ones(bits: int) -> Const:
    return Const((1 << bits) - 1, bits)


def zero(bits: int) -> Const:
    return Const(0, bits)


def is_ones(term: Term) -> bool:
    return isinstance(term, Const) and term.value == (1 << term.bits) - 1


def is_zero(term: Term) -> bool:
    return isinstance(term, Const) and term.value == 0


def word(name: str, *operands: Term) -> Term:
    """An instruction by its name without the type, at the width of its first operand."""
    wide = 64 if operands[0].bits == 64 else 32
    return apply(op.CODE_OF[f"i{wide}.{name}"], *operands)


def apply(code: int, *operands: Term) -> Term:
    """An instruction applied to terms, folded where they are constants or the result is plain."""
    one = op.OPERATORS[code]
    narrow = operands[0].bits if operands[0].bits not in (32, 64) else 0
    compares = one.result == op.I32 and (one.word == "eqz" or one.word in op.COMPARED)
    bits = narrow if narrow else op.BITS[one.result]
    if all(isinstance(each, Const) for each in operands) and code not in op.DIVISIONS:
        value = function_of(code, narrow)(*(each.value for each in operands))  # type: ignore[union-attr]
        return Const(value, bits)
    if len(operands) == 2 and not compares:
        plain = simplified(one.word, *operands)
        if plain is not None:
            return plain
    return Apply(code, operands, bits)


def simplified(name: str, a: Term, b: Term) -> Union[Term, None]:
    """What an instruction gives where one operand leaves the other as it is, or leaves nothing of it."""
    if isinstance(a, Const) and name in ("and", "or", "xor", "add"):
        a, b = b, a
    if name == "and" and (is_zero(b) or is_ones(b)):
        return b if is_zero(b) else a
    if name == "or" and (is_zero(b) or is_ones(b)):
        return a if is_zero(b) else b
    if name in ("xor", "add", "sub", "shl", "shr_u", "shr_s", "rotl", "rotr") and is_zero(b):
        return a
    if name in ("and", "or") and a == b:
        return a
    return None


def choose(a: Term, b: Term, condition: Term) -> Term:
    """The first where the condition isn't 0, else the second."""
    if isinstance(condition, Const):
        return a if condition.value else b
    return a if a == b else Apply(op.SELECT, (a, b, condition), a.bits)


def ranges(places: Iterable[int]) -> List[Tuple[int, int]]:
    """Numbers as ranges, from the first to behind the last."""
    found: List[List[int]] = []
    for place in sorted(places):
        if found and found[-1][1] == place:
            found[-1][1] += 1
        else:
            found.append([place, place + 1])
    return [(first, end) for first, end in found]


# The three things that terms become.


def value_of(term: Term, values: Mapping[Union[str, int], int]) -> int:
    if isinstance(term, Const):
        return term.value
    if isinstance(term, Var):
        return values[term.name]
    found = [value_of(each, values) for each in term.operands]
    if term.code == op.SELECT:
        return found[0] if found[2] else found[1]
    narrow = term.operands[0].bits if term.operands[0].bits not in (32, 64) else 0
    return function_of(term.code, narrow)(*found)


def python(term: Term) -> str:
    if isinstance(term, Const):
        return hex(term.value)
    if isinstance(term, Var):
        return str(term.name)
    found = [python(each) for each in term.operands]
    if term.code == op.SELECT:
        return f"({found[0]} if {found[2]} else {found[1]})"
    return python_of(term.code, found)


def code_of(term: Term) -> List[Instruction]:
    if isinstance(term, Const):
        return [op.ins(op.CONST[WIDE[term.bits]], term.value)]
    if isinstance(term, Var):
        return [op.ins(op.LOCAL_GET, int(term.name))]
    return [ins for each in term.operands for ins in code_of(each)] + [op.ins(term.code)]
