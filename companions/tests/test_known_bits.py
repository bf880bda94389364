"""The algebra of known bits: whatever the unknown bits of the operands are, the result has the bits that are
said to be known. For numbers of 2 bits all cases are tried, for 8, 32 and 64 many at random. The same rules
as instructions and as Python text give the same. Licence: public domain (CC0)."""
from __future__ import annotations

import itertools
import random
import unittest
from typing import Dict, Iterable, Sequence, Tuple

from blade_companions.formats.encoding import I32, I64, MAGIC, func_type, leb, section, vector
from blade_companions.formats.module import module_of
from blade_companions.formats.running import meaning
from blade_companions.splitting import codes as op, knowledge
from blade_companions.splitting.knowledge import Known, result_of
from blade_companions.splitting.numerics import HELPERS, function_of
from blade_companions.splitting.running import Instance
from blade_companions.splitting.terms import Var, code_of, ones, python, value_of
from blade_companions.splitting.parts import Body, parts_of, written


CHANGES_WIDTH = ("wrap_i64", "extend_i32_s", "extend_i32_u", "extend8_s", "extend16_s", "extend32_s")
RULED = [code for code in op.OPERATORS if code not in op.DIVISIONS] + [op.SELECT]
SMALL = [
    code
    for code in RULED
    if code == op.SELECT
    or (op.OPERATORS[code].word not in CHANGES_WIDTH and op.OPERATORS[code].name.startswith("i32"))
]
Case = Sequence[Tuple[int, int]]  # of each operand its value and the mask of its known bits


def widths(code: int, bits: int) -> Sequence[int]:
    if code == op.SELECT:
        return (bits, bits, 32)
    return [bits or op.BITS[kind] for kind in op.OPERATORS[code].operands]


def applied(code: int, bits: int, values: Sequence[int]) -> int:
    if code == op.SELECT:
        return values[0] if values[2] else values[1]
    return function_of(code, bits if bits not in (0, 32, 64) else 0)(*values)


def operands(widths_: Sequence[int]) -> Sequence[Known]:
    return [Known(Var(f"p{at}", width), Var(f"v{at}", width)) for at, width in enumerate(widths_)]


def given(case: Case) -> Dict[str, int]:
    return {
        f"{name}{at}": number
        for at, (value, mask) in enumerate(case)
        for name, number in (("p", value & mask), ("v", mask))
    }


def typed(types: Sequence[bytes], bodies: Sequence[Body]) -> bytes:
    """A module of functions of these types, with a memory."""
    functions = section(3, vector([leb(at) for at in range(len(types))]))
    return (
        MAGIC
        + section(1, vector(types))
        + functions
        + section(5, vector([b"\1\0\0"]))
        + section(10, written(bodies, []))
    )


class Algebra(unittest.TestCase):
    def hold(self, code: int, bits: int, cases: Iterable[Case]) -> None:
        known = result_of(code, operands(widths(code, bits)))
        for case in cases:
            names = given(case)
            value, mask = value_of(known.value, names), value_of(known.mask, names)  # type: ignore[arg-type]
            self.assertEqual(value & ~mask, 0, (code, case))
            self.assertEqual((applied(code, bits, [one for one, _ in case]) ^ value) & mask, 0, (code, case))

    def at_random(self, code: int, bits: int, count: int) -> Iterable[Case]:
        source = random.Random(code)
        for _ in range(count):
            yield [
                (self.number(source, width), source.choice([self.number(source, width), (1 << width) - 1]))
                for width in widths(code, bits)
            ]

    def number(self, source: random.Random, width: int) -> int:
        return source.choice(
            [
                source.getrandbits(width),
                source.getrandbits(width),
                0,
                1,
                (1 << width) - 1,
                1 << (width - 1),
                source.getrandbits(3),
            ]
        )

    def test_all_cases_of_2_bits(self) -> None:
        one = list(itertools.product(range(4), repeat=2))
        for code in SMALL:
            if code != op.SELECT:
                self.hold(code, 2, itertools.product(one, repeat=len(widths(code, 2))))

    def test_8_bits(self) -> None:
        for code in SMALL:
            self.hold(code, 8, self.at_random(code, 8, 1000))

    def test_32_and_64_bits(self) -> None:
        for code in RULED:
            for bits in (32, 64) if code == op.SELECT else (0,):
                self.hold(code, bits, self.at_random(code, bits, 500))

    def test_constants_are_folded_alike(self) -> None:
        """Where an operand is wholly known its mask is a constant, and the terms are shorter: they say the
        same."""
        for code in RULED:
            if code == op.SELECT:
                continue
            wide = widths(code, 0)
            for at in range(len(wide)):
                some = list(operands(wide))
                some[at] = Known(some[at].value, ones(wide[at]))
                short, long = result_of(code, some), result_of(code, operands(wide))
                for case in self.at_random(code, 0, 100):
                    names = given(
                        [
                            (value, (1 << wide[number]) - 1 if number == at else mask)
                            for number, (value, mask) in enumerate(case)
                        ]
                    )
                    for one, other in zip(short, long):
                        self.assertEqual(value_of(one, names), value_of(other, names), (code, case))

    def test_instructions_mean_what_images_have(self) -> None:
        """The text that recorded runs execute, against the meaning by which images are run."""
        for code in RULED:
            if code != op.SELECT:
                for case in self.at_random(code, 0, 300):
                    values = [value for value, _ in case]
                    self.assertEqual(function_of(code)(*values), meaning(code)(*values), (code, values))

    def test_as_instructions_and_as_text(self) -> None:
        for code in RULED:
            wide = widths(code, 64 if code == op.SELECT else 0)
            some = [Known(Var(2 * at, width), Var(2 * at + 1, width)) for at, width in enumerate(wide)]
            known = result_of(code, some)
            kinds = tuple(kind for width in wide for kind in (I32 if width == 32 else I64,) * 2)
            types = [func_type(kinds, [I32 if term.bits == 32 else I64]) for term in known]
            bodies = [Body([], [*code_of(term), op.ins(op.END)]) for term in known]
            instance = Instance(parts_of(module_of(typed(types, bodies), "m")))
            named = result_of(code, operands(wide))
            texts = [
                eval(f"lambda {', '.join(given([(0, 0)] * len(wide)))}: {python(term)}", dict(HELPERS))
                for term in named
            ]
            for case in self.at_random(code, 64 if code == op.SELECT else 0, 60):
                numbers = list(given(case).values())
                wanted = [value_of(term, given(case)) for term in named]  # type: ignore[arg-type]
                self.assertEqual([instance.call(number, numbers) for number in (0, 1)], wanted, (code, case))
                self.assertEqual([text(*numbers) for text in texts], wanted, (code, case))


class Mutants(unittest.TestCase):
    """Rules that say too much are found out."""

    def refused(self, code: int, rule: knowledge.Rule) -> None:
        kept = knowledge.RULES[op.OPERATORS[code].word]
        knowledge.RULES[op.OPERATORS[code].word] = rule
        try:
            case = Algebra()
            with self.assertRaises(AssertionError):
                case.hold(code, 8, case.at_random(code, 8, 3000))
        finally:
            knowledge.RULES[op.OPERATORS[code].word] = kept

    def test_too_wide(self) -> None:
        wide = lambda code, a, b: knowledge.masked(
            knowledge.apply(code, a.value, b.value), knowledge.word("or", a.mask, b.mask)
        )  # noqa: E731
        for name in ("add", "sub", "mul", "and", "or", "xor", "shl", "shr_s", "rotl", "lt_s", "eq"):
            self.refused(op.CODE_OF[f"i32.{name}"], wide)

    def test_a_sum_without_carries(self) -> None:
        self.refused(
            op.CODE_OF["i32.add"],
            lambda code, a, b: knowledge.masked(
                knowledge.apply(code, a.value, b.value), knowledge.word("and", a.mask, b.mask)
            ),
        )


if __name__ == "__main__":
    unittest.main()
