#!/usr/bin/env python3
"""Tries the algebra of known bits exhaustively: for each operator, for each value and each mask of its
operands, what is said to be known has to be so. The rules are those of splitting/knowledge.py, as C; what
operators mean is written here once more. tools/checks/cc does this for numbers of 8 bits, and for `select`,
which has three operands, for numbers of 4 bits. Licence: public domain (CC0).

usage: known_bits.py BITS [NAME..]

BITS is the width: 1, 2, 4 or 8. An operator of two operands has 4,294,967,296 cases of 8 bits, which take
about half a second with AVX-512. NAME is one of the operators; without names all are tried. `select` is tried
up to 4 bits: of 8 bits it has 65,536 times as many cases."""
from __future__ import annotations

import os
import subprocess
import sys
import tempfile
from typing import Dict, List, Sequence

from harness import TOP
from blade_companions.splitting import codes as op
from blade_companions.splitting.knowledge import Known, result_of
from blade_companions.splitting.terms import Const, Term, Var

# {m} is the greatest number, {h} the sign's bit, {n} the width.
MEANING: Dict[str, str] = {
    "add": "(a + b) & {m}",
    "sub": "(a - b) & {m}",
    "mul": "(a * b) & {m}",
    "and": "a & b",
    "or": "a | b",
    "xor": "a ^ b",
    "shl": "(a << b % {n}) & {m}",
    "shr_u": "a >> b % {n}",
    "shr_s": "(u32)((i32)((a ^ {h}) - {h}) >> b % {n}) & {m}",
    "rotl": "(a << b % {n} | a >> ({n} - b % {n}) % {n} * (b % {n} != 0)) & {m}",
    "rotr": "(a >> b % {n} | a << ({n} - b % {n}) % {n}) & {m}",
    "eq": "a == b",
    "ne": "a != b",
    "lt_u": "a < b",
    "gt_u": "a > b",
    "le_u": "a <= b",
    "ge_u": "a >= b",
    "lt_s": "(a ^ {h}) < (b ^ {h})",
    "gt_s": "(a ^ {h}) > (b ^ {h})",
    "le_s": "(a ^ {h}) <= (b ^ {h})",
    "ge_s": "(a ^ {h}) >= (b ^ {h})",
    "eqz": "a == 0",
    "clz": "a ? __builtin_clz(a) - (32 - {n}) : {n}",
    "ctz": "a ? __builtin_ctz(a) : {n}",
    "popcnt": "__builtin_popcount(a)",
    "select": "c ? a : b",
}
WIDEST = {"select": 4}  # the most bits of which all cases are tried
PROGRAM = """typedef unsigned u32;
typedef int i32;
#define SIZE %(size)d
#define SECOND %(second)d
#define THIRD %(third)d
static inline u32 meant(u32 a, u32 b, u32 c) { (void)b; (void)c; return %(meant)s; }
%(helpers)s
static u32 is_wrong(u32 x, u32 v, u32 w, u32 z, u32 u) {
    u32 wrong = 0;
    for (u32 y = 0; y < SECOND; y++) {
        u32 p0 = x & v, v0 = v, p1 = y & w, v1 = w, p2 = z & u, v2 = u;
        u32 value = %(value)s, mask = %(mask)s, r = meant(x, y, z);
        wrong |= (value & ~mask) | ((r ^ value) & mask);
    }
    return wrong;
}
int main(void) {
    for (u32 u = 0; u < THIRD; u++)
        for (u32 z = 0; z < THIRD; z++)
            for (u32 v = 0; v < SIZE; v++)
                for (u32 x = 0; x < SIZE; x++)
                    for (u32 w = 0; w < SECOND; w++)
                        if (is_wrong(x, v, w, z, u)) return 1;
    return 0;
}
"""


def meaning(name: str, bits: int) -> str:
    return MEANING[name].format(n=bits, m=(1 << bits) - 1, h=1 << (bits - 1))


def text(term: Term, bits: int, helpers: List[str]) -> str:
    """A term as C."""
    if isinstance(term, Const):
        return f"{term.value}u"
    if isinstance(term, Var):
        return str(term.name)
    found = [text(one, bits, helpers) for one in term.operands]
    if term.code == op.SELECT:
        return f"({found[2]} ? {found[0]} : {found[1]})"
    name = op.OPERATORS[term.code].word
    helper = f"static inline u32 of_{name}(u32 a, u32 b) {{ (void)b; return {meaning(name, bits)}; }}"
    if helper not in helpers:
        helpers.append(helper)
    return f"of_{name}({', '.join(found if len(found) == 2 else [*found, '0'])})"


def program(name: str, bits: int) -> str:
    code = op.SELECT if name == "select" else op.CODE_OF[f"i32.{name}"]
    count = 3 if code == op.SELECT else len(op.OPERATORS[code].operands)
    known = result_of(code, [Known(Var(f"p{at}", bits), Var(f"v{at}", bits)) for at in range(count)])
    helpers: List[str] = []
    value, mask = (text(one, bits, helpers) for one in known)
    size = 1 << bits
    return PROGRAM % {
        "size": size,
        "second": size if count > 1 else 1,
        "third": size if count > 2 else 1,
        "meant": meaning(name, bits),
        "helpers": "\n".join(helpers),
        "value": value,
        "mask": mask,
    }


def width(name: str, bits: int) -> int:
    """The width, or the widest of the operator."""
    return min(bits, WIDEST.get(name, bits))


def is_right(name: str, bits: int, folder: str) -> bool:
    """Whether no case is wrong."""
    source, made = f"{folder}/{name}.c", f"{folder}/{name}"
    with open(source, "w", encoding="ascii") as file:
        file.write(program(name, bits))
    subprocess.run(["clang", "-O3", "-march=native", "-w", "-o", made, source], check=True)
    return subprocess.run([made], check=False, cwd=TOP).returncode == 0


def main(words: Sequence[str]) -> int:
    if not words or not words[0].isdigit() or int(words[0]) not in (1, 2, 4, 8):
        print(__doc__, file=sys.stderr)
        return 2
    wrong = 0
    with tempfile.TemporaryDirectory() as folder:
        for name in words[1:] or MEANING:
            bits = width(name, int(words[0]))
            holds = is_right(name, bits, folder)
            wrong += not holds
            print(f"{'right' if holds else 'WRONG'}  {name}, all cases of {bits} bits", flush=True)
    return 1 if wrong else 0


if __name__ == "__main__":
    os.umask(0o077)
    sys.exit(main(sys.argv[1:]))
