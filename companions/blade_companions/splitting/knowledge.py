"""The algebra of known bits. Of a number some bits may be known: `mask` has a 1 for each of them, and `value`
has them, with 0 for each other bit. Each rule gives bits of an instruction's result that are known whatever
the unknown bits of its operands are. Licence: public domain (CC0)."""
from __future__ import annotations

from typing import Callable, Dict, NamedTuple, Sequence

from . import codes as op
from .terms import Const, Term, apply, choose, is_ones, ones, word, zero


class Known(NamedTuple):
    """What is known of a number: its known bits, and the mask of them. value & ~mask is 0."""

    value: Term
    mask: Term

    @property
    def bits(self) -> int:
        return self.value.bits


def wholly(value: Term) -> Known:
    return Known(value, ones(value.bits))


def nothing(bits: int) -> Known:
    return Known(zero(bits), zero(bits))


def inverted(term: Term) -> Term:
    return word("xor", term, ones(term.bits))


def masked(value: Term, mask: Term) -> Known:
    return Known(word("and", value, mask), mask)


def is_full(mask: Term) -> Term:
    """1 where all bits are known, else 0."""
    return Const(1, 32) if is_ones(mask) else word("eq", mask, ones(mask.bits))


def low_run(mask: Term) -> Term:
    """The ones below the lowest 0."""
    if is_ones(mask):
        return mask
    return word(
        "sub", word("and", inverted(mask), word("add", mask, Const(1, mask.bits))), Const(1, mask.bits)
    )


def conjunction(code: int, a: Known, b: Known) -> Known:
    """A known 0 on either side makes a 0."""
    zeros = word("or", word("and", a.mask, inverted(a.value)), word("and", b.mask, inverted(b.value)))
    return Known(word("and", a.value, b.value), word("or", word("and", a.mask, b.mask), zeros))


def disjunction(code: int, a: Known, b: Known) -> Known:
    """A known 1 on either side makes a 1."""
    value = word("or", a.value, b.value)
    return Known(value, word("or", word("and", a.mask, b.mask), value))


def difference(code: int, a: Known, b: Known) -> Known:
    return masked(word("xor", a.value, b.value), word("and", a.mask, b.mask))


def sum_like(code: int, a: Known, b: Known) -> Known:
    """Sums, differences and products: bit i of the result depends on bits 0 to i alone."""
    return masked(apply(code, a.value, b.value), low_run(word("and", a.mask, b.mask)))


def shifted(code: int, a: Known, by: Known) -> Known:
    """Shifts and rotations, where the amount is known; what comes in at a shift without sign is a known 0."""
    name, bits = op.OPERATORS[code].word, a.bits
    mask = apply(code, a.mask, by.value)
    if name in ("shl", "shr_u"):
        mask = word("or", mask, inverted(apply(code, ones(bits), by.value)))
    amount = Const(bits - 1, bits)
    known = word("eq", word("and", by.mask, amount), amount)
    return masked(apply(code, a.value, by.value), choose(mask, zero(bits), known))


def truth(value: Term, known: Term) -> Known:
    """A 0 or 1: all bits but the lowest are known in any case."""
    return masked(value, word("add", known, Const((1 << value.bits) - 2, value.bits)))


def compared(code: int, a: Known, b: Known) -> Known:
    return truth(apply(code, a.value, b.value), is_full(word("and", a.mask, b.mask)))


def equated(code: int, a: Known, b: Known) -> Known:
    """Equality is known also where a bit that is known of both differs."""
    both = word("and", a.mask, b.mask)
    differs = word("ne", word("and", word("xor", a.value, b.value), both), zero(a.bits))
    return truth(apply(code, a.value, b.value), word("or", is_full(both), differs))


def tested(code: int, a: Known) -> Known:
    """Whether it is 0: known also where a bit is known to be 1."""
    return truth(apply(code, a.value), word("or", is_full(a.mask), word("ne", a.value, zero(a.bits))))


def counted(code: int, a: Known) -> Known:
    result = apply(code, a.value)
    return masked(result, choose(ones(result.bits), zero(result.bits), is_full(a.mask)))


def converted(code: int, a: Known) -> Known:
    """Wrapping and extension: known bits move, and the sign's copies are known where the sign is."""
    mask = apply(code, a.mask)
    if code == op.CODE_OF["i64.extend_i32_u"]:
        mask = word("or", mask, Const(0xFFFFFFFF << 32, 64))
    return Known(apply(code, a.value), mask)


def selected(a: Known, b: Known, condition: Known) -> Known:
    """One of two: where the condition isn't known, the bits on which both agree."""
    if is_ones(condition.mask):
        return Known(choose(a.value, b.value, condition.value), choose(a.mask, b.mask, condition.value))
    known = word("or", is_full(condition.mask), word("ne", condition.value, zero(condition.bits)))
    agree = word("and", word("and", a.mask, b.mask), inverted(word("xor", a.value, b.value)))
    mask = choose(choose(a.mask, b.mask, condition.value), agree, known)
    return masked(choose(a.value, b.value, condition.value), mask)


Rule = Callable[..., Known]
RULES: Dict[str, Rule] = {
    "and": conjunction,
    "or": disjunction,
    "xor": difference,
    "eq": equated,
    "ne": equated,
    "eqz": tested,
    **{name: sum_like for name in ("add", "sub", "mul")},
    **{name: shifted for name in ("shl", "shr_s", "shr_u", "rotl", "rotr")},
    **{name: compared for name in op.COMPARED if name not in ("eq", "ne")},
    **{name: counted for name in ("clz", "ctz", "popcnt")},
    **{
        name: converted
        for name in ("wrap_i64", "extend_i32_s", "extend_i32_u", "extend8_s", "extend16_s", "extend32_s")
    },
}


def result_of(code: int, operands: Sequence[Known]) -> Known:
    """What is known of an instruction's result. Quotients aren't here: their operands have to be known
    wholly."""
    if code == op.SELECT:
        return selected(*operands)
    return RULES[op.OPERATORS[code].word](code, *operands)
