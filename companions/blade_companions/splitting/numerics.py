"""What the numeric instructions mean, as Python text over numbers without sign: for running modules and for
folding terms. Licence: public domain (CC0)."""
from __future__ import annotations

from functools import lru_cache
from typing import Callable, Dict, Sequence

from .codes import BITS, OPERATORS

# {n} is the width, {m} the greatest number, {h} the number with the sign bit alone, {k} the mask of a shift's
# amount.
TEXTS: Dict[str, str] = {
    "clz": "({n} - {a}.bit_length())",
    "ctz": "(({a} & -{a}).bit_length() - 1 if {a} else {n})",
    "popcnt": "bin({a}).count('1')",
    "add": "({a} + {b} & {m})",
    "sub": "({a} - {b} & {m})",
    "mul": "({a} * {b} & {m})",
    "and": "({a} & {b})",
    "or": "({a} | {b})",
    "xor": "({a} ^ {b})",
    "shl": "({a} << ({b} & {k}) & {m})",
    "shr_u": "({a} >> ({b} & {k}))",
    "shr_s": "((({a} ^ {h}) - {h}) >> ({b} & {k}) & {m})",
    "rotl": "(({a} << ({b} & {k}) | {a} >> (-{b} & {k})) & {m})",
    "rotr": "(({a} >> ({b} & {k}) | {a} << (-{b} & {k})) & {m})",
    "eqz": "(+({a} == 0))",
    "eq": "(+({a} == {b}))",
    "ne": "(+({a} != {b}))",
    "lt_u": "(+({a} < {b}))",
    "gt_u": "(+({a} > {b}))",
    "le_u": "(+({a} <= {b}))",
    "ge_u": "(+({a} >= {b}))",
    "lt_s": "(+({a} ^ {h} < {b} ^ {h}))",
    "gt_s": "(+({a} ^ {h} > {b} ^ {h}))",
    "le_s": "(+({a} ^ {h} <= {b} ^ {h}))",
    "ge_s": "(+({a} ^ {h} >= {b} ^ {h}))",
    "div_u": "div_u({a}, {b})",
    "rem_u": "rem_u({a}, {b})",
    "div_s": "div_s({a}, {b}, {n})",
    "rem_s": "rem_s({a}, {b}, {n})",
    "wrap_i64": "({a} & {m})",
    "extend_i32_u": "{a}",
    "extend_i32_s": "(({a} ^ 0x80000000) - 0x80000000 & {m})",
    "extend8_s": "((({a} & 0xFF) ^ 0x80) - 0x80 & {m})",
    "extend16_s": "((({a} & 0xFFFF) ^ 0x8000) - 0x8000 & {m})",
    "extend32_s": "((({a} & 0xFFFFFFFF) ^ 0x80000000) - 0x80000000 & {m})",
}


class Trap(Exception):
    """A run that ends without a result; the argument is the kind as Blade prints it."""


def signed(value: int, bits: int) -> int:
    return value - (1 << bits) if value >> (bits - 1) else value


def div_u(a: int, b: int) -> int:
    if b == 0:
        raise Trap("integer divide by zero")
    return a // b


def rem_u(a: int, b: int) -> int:
    if b == 0:
        raise Trap("integer divide by zero")
    return a % b


def div_s(a: int, b: int, bits: int) -> int:
    if b == 0:
        raise Trap("integer divide by zero")
    one, other = signed(a, bits), signed(b, bits)
    whole = abs(one) // abs(other) * (1 if (one < 0) == (other < 0) else -1)
    if whole >> (bits - 1) == 1:
        raise Trap("integer overflow")
    return whole & ((1 << bits) - 1)


def rem_s(a: int, b: int, bits: int) -> int:
    if b == 0:
        raise Trap("integer divide by zero")
    one, other = signed(a, bits), signed(b, bits)
    rest = abs(one) % abs(other)
    return (-rest if one < 0 else rest) & ((1 << bits) - 1)


HELPERS = {"div_u": div_u, "rem_u": rem_u, "div_s": div_s, "rem_s": rem_s, "Trap": Trap}


def python_of(code: int, operands: Sequence[str], bits: int = 0) -> str:
    """An instruction applied to Python texts; `bits` is another width than the instruction's own, for the
    tests of small ones."""
    one = OPERATORS[code]
    width = (
        bits
        or BITS[
            one.operands[0] if one.word not in ("wrap_i64", "extend_i32_s", "extend_i32_u") else one.result
        ]
    )
    a, b = operands[0], operands[-1]
    return TEXTS[one.word].format(
        a=a, b=b, n=width, m=hex((1 << width) - 1), h=hex(1 << (width - 1)), k=hex(width - 1)
    )


@lru_cache(maxsize=None)
def function_of(code: int, bits: int = 0) -> Callable[..., int]:
    """An instruction as a function of numbers."""
    names = ["a", "b"][: len(OPERATORS[code].operands)]
    return eval(
        f"lambda {', '.join(names)}: {python_of(code, names, bits)}", dict(HELPERS)
    )  # a text of the table above
