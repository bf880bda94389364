"""What each operator and access is in C, and of which types. Licence: public domain (CC0).

An expression has no branch, whatever the values: quotients divide by 1 where WebAssembly traps, since the
image tests that before. `{a}` and `{b}` are the operands, `{u}` and `{s}` the unsigned and the signed type,
`{n}` the bits, `{m}` the mask of a shift."""
from __future__ import annotations

from typing import Dict, NamedTuple, Tuple

from ..formats.operators import ACCESS_NAMES, MOVE, OPERATORS, OUTSIDE, SELECT

from .reading import I32, I64

C_TYPES = {I32: "uint32_t", I64: "uint64_t"}
BITS = {I32: 32, I64: 64}

COMPARED = {"eq": "==", "ne": "!=", "lt": "<", "gt": ">", "le": "<=", "ge": ">="}
EXPRESSIONS = {
    "eqz": "{a} == 0",
    "add": "{a} + {b}",
    "sub": "{a} - {b}",
    "mul": "{a} * {b}",
    "and": "{a} & {b}",
    "or": "{a} | {b}",
    "xor": "{a} ^ {b}",
    "shl": "{a} << ({b} & {m})",
    "shr_u": "{a} >> ({b} & {m})",
    "shr_s": "({u})(({s}){a} >> ({b} & {m}))",
    "rotl": "rotl{n}({a}, {b})",
    "rotr": "rotr{n}({a}, {b})",
    "clz": "clz{n}({a})",
    "ctz": "ctz{n}({a})",
    "popcnt": "popcnt{n}({a})",
    "div_u": "div_u{n}({a}, {b})",
    "div_s": "div_s{n}({a}, {b})",
    "rem_u": "rem_u{n}({a}, {b})",
    "rem_s": "rem_s{n}({a}, {b})",
    "wrap_i64": "(uint32_t){a}",
    "extend_i32_u": "(uint64_t){a}",
    "extend_i32_s": "(uint64_t)(int64_t)(int32_t){a}",
    "extend8_s": "({u})({s})(int8_t){a}",
    "extend16_s": "({u})({s})(int16_t){a}",
    "extend32_s": "({u})({s})(int32_t){a}",
}


class Operator(NamedTuple):
    """The types of an operator's operands and of its value, and its expression."""

    operands: Tuple[int, ...]
    value: int
    expression: str


def expression_of(name: str, kind: int) -> str:
    """The expression of an operator by its name without the type in front."""
    parts = {
        "u": C_TYPES[kind],
        "s": f"int{BITS[kind]}_t",
        "n": BITS[kind],
        "m": BITS[kind] - 1,
        "a": "{a}",
        "b": "{b}",
    }
    compared, _, sign = name.partition("_")
    if compared in COMPARED:
        return "{cast}{a} {sign} {cast}{b}".format(
            cast=f"({parts['s']})" if sign == "s" else "", sign=COMPARED[compared], a="{a}", b="{b}"
        )
    return EXPRESSIONS[name].format(**parts)


def operator_of(name: str) -> Operator:
    """An integer operator by its name in WebAssembly."""
    width, _, rest = name.partition(".")
    kind = I64 if width == "i64" else I32
    is_one = rest in ("eqz", "clz", "ctz", "popcnt") or rest.startswith(("wrap", "extend"))
    taken = {"wrap_i64": I64, "extend_i32_s": I32, "extend_i32_u": I32}.get(rest, kind)
    given = I32 if rest == "eqz" or rest.partition("_")[0] in COMPARED else kind
    return Operator((taken,) if is_one else (taken, taken), given, expression_of(rest, kind))


TABLE: Dict[int, Operator] = {code: operator_of(name) for code, name in OPERATORS.items()}
REACH = (1 << 34) - 1  # `outside` takes the low 34 bits of its third operand
UNTYPED = frozenset([MOVE, SELECT])  # their values have the type of their first operand


class Access(NamedTuple):
    """The type of what a Load gives or a Store takes, its bits in memory, and whether a Load extends it by
    sign."""

    kind: int
    bits: int
    is_signed: bool


def access_of(name: str) -> Access:
    """An access by its name in WebAssembly, as i64.load16_s."""
    width, _, rest = name.partition(".")
    kind = I64 if width == "i64" else I32
    digits = "".join(letter for letter in rest if letter.isdigit())
    return Access(kind, int(digits or BITS[kind]), rest.endswith("_s"))


ACCESS_TABLE: Dict[int, Access] = {code: access_of(name) for code, name in ACCESS_NAMES.items()}


def loaded(access: Access, place: str) -> str:
    """The value at a place in memory."""
    got = f"get{access.bits}({place})"
    return (
        f"({C_TYPES[access.kind]})(int{BITS[access.kind]}_t)(int{access.bits}_t){got}"
        if access.is_signed
        else got
    )


def constant(value: int, kind: int) -> str:
    """A constant of a type."""
    return f"{value}u" if kind == I32 else f"UINT64_C({value})"


__all__ = [
    "ACCESS_TABLE",
    "BITS",
    "C_TYPES",
    "MOVE",
    "OUTSIDE",
    "REACH",
    "SELECT",
    "TABLE",
    "UNTYPED",
    "constant",
    "loaded",
]
