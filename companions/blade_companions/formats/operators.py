"""Operators and accesses of WebAssembly's integers and of images, by their codes. Licence: public domain
(CC0)."""
from __future__ import annotations

from typing import Dict

COMPARISONS = "eq ne lt_s lt_u gt_s gt_u le_s le_u ge_s ge_u"
NUMBERS = "clz ctz popcnt add sub mul div_s div_u rem_s rem_u and or xor shl shr_s shr_u rotl rotr"
ACCESSES = ("i32.load i64.load - - i32.load8_s i32.load8_u i32.load16_s i32.load16_u i64.load8_s i64.load8_u "
            "i64.load16_s i64.load16_u "
            "i64.load32_s i64.load32_u i32.store i64.store - - i32.store8 i32.store16 i64.store8 "
            "i64.store16 i64.store32")
VARIABLES = {0x20: "local.get", 0x21: "local.set", 0x22: "local.tee", 0x23: "global.get", 0x24: "global.set"}


def operators() -> Dict[int, str]:
    """The names of integer operators by their codes."""
    names = {0x45: "i32.eqz", 0x50: "i64.eqz", 0xA7: "i32.wrap_i64", 0xAC: "i64.extend_i32_s",
             0xAD: "i64.extend_i32_u", 0xC0: "i32.extend8_s", 0xC1: "i32.extend16_s", 0xC2: "i64.extend8_s",
             0xC3: "i64.extend16_s", 0xC4: "i64.extend32_s"}
    for first, listed, width in ((0x46, COMPARISONS, "i32"), (0x51, COMPARISONS, "i64"),
                                 (0x67, NUMBERS, "i32"), (0x79, NUMBERS, "i64")):
        names.update({first + at: f"{width}.{name}" for at, name in enumerate(listed.split())})
    return names


OPERATORS = operators()
ACCESS_NAMES = {0x28 + at: name for at, name in enumerate(ACCESSES.split()) if name != "-"}
LOADS, STORES = (frozenset(code for code, name in ACCESS_NAMES.items() if kind in name)
                 for kind in (".load", ".store"))
DIVISIONS = frozenset(code for code, name in OPERATORS.items() if name[4:7] in ("div", "rem"))
# Those of images alone.
MOVE, OUTSIDE, SELECT = 0x00, 0x01, 0x1B
OPERATIONS = frozenset([MOVE, OUTSIDE, SELECT, *OPERATORS])
KINDS = {MOVE: "Move", OUTSIDE: "Outside", SELECT: "Select", **OPERATORS, **ACCESS_NAMES}
SINGLE = ("eqz", "clz", "ctz", "popcnt", "wrap", "extend")


def operands_of(operator: int) -> int:
    """How many operands an operator takes."""
    if operator in (OUTSIDE, SELECT):
        return 3
    return 1 if operator == MOVE or OPERATORS[operator].split(".")[1].startswith(SINGLE) else 2


ARITIES = {operator: operands_of(operator) for operator in OPERATIONS}


def width_of(access: str) -> int:
    """How many bytes an access has."""
    digits = access.split("load")[-1].split("store")[-1].split("_")[0]
    return int(digits or access[1:3]) // 8
