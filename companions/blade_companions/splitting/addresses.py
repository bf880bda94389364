"""Addresses as sums: of locals, each so many times, and a constant, modulo 2^32. So stores to neighbouring
bytes are seen, in a row of instructions and in loops, and their masks are cleared together. Licence: public
domain (CC0)."""
from __future__ import annotations

from dataclasses import dataclass, field
from typing import Dict, List, NamedTuple, Optional, Sequence, Set, Tuple

from . import codes as op
from .flow import NONE, Flow, Function, Step

WORD = 1 << 32
MOST_LOCALS = 3  # in a sum: an address has few


class Sum(NamedTuple):
    """A sum of locals' first values, by how often each is in it, and a constant. A number below 0 stands for
    a node that is no sum."""

    locals: Tuple[Tuple[int, int], ...]
    constant: int

    @property
    def offset(self) -> int:
        """The constant as a number with sign."""
        return self.constant - WORD if self.constant >> 31 else self.constant


def constant(value: int) -> Sum:
    return Sum((), value % WORD)


def alone(local: int) -> Sum:
    return Sum(((local, 1),), 0)


def added(a: Sum, b: Sum, times: int = 1) -> Sum:
    """a + b * times."""
    found = dict(a.locals)
    for local, often in b.locals:
        found[local] = (found.get(local, 0) + often * times) % WORD
    return Sum(
        tuple(sorted((local, often) for local, often in found.items() if often)),
        (a.constant + b.constant * times) % WORD,
    )


class Sums:
    """The sums of locals and of nodes along straight code. The locals in them stand for their values where it
    began; of twins the first does."""

    def __init__(self, flow: Flow, twins: Optional[Dict[int, int]] = None) -> None:
        self.flow = flow
        self.first = twins or {}  # the first twin of each local that has one
        self.twins: Dict[int, List[int]] = {}
        for local, first in self.first.items():
            self.twins.setdefault(first, []).append(local)
        self.changed: Dict[int, Sum] = {}  # locals that were set since
        self.nodes: Dict[int, Sum] = {}

    def begin(self) -> None:
        """Straight code begins here: each local stands for itself, and what was pushed before is no sum of
        these."""
        self.changed, self.nodes = {}, {}

    def local(self, index: int) -> Sum:
        return self.changed.get(index) or alone(self.first.get(index, index))

    def node(self, node: int) -> Sum:
        """What a node is: by itself, with a number of its own, where it is no sum of locals."""
        return self.nodes.get(node) or alone(-1 - node)

    def follow(self, step: Step) -> None:
        """What a step makes of sums."""
        code, args = step.ins.code, step.ins.numbers
        found: Optional[Sum] = None
        if code == op.I32_CONST:
            found = constant(args[0])
        elif code == op.LOCAL_GET:
            found = self.local(args[0])
        elif code in (op.LOCAL_SET, op.LOCAL_TEE):
            self.changed[args[0]] = found = self.node(step.operands[0])
        elif code == op.END and not step.meets and step.carried != NONE:
            found = self.node(step.carried)
        elif code in op.OPERATORS:
            found = combined(op.OPERATORS[code].name, *map(self.node, step.operands))
        if found is not None and step.result != NONE and len(found.locals) <= MOST_LOCALS:
            self.nodes[step.result] = found

    def holder(self, local: int) -> Optional[Tuple[int, int]]:
        """A local that has the first value of another one now, but for a constant: itself or a twin, if it
        wasn't set, or one that was set by it."""
        for twin in (local, *self.twins.get(local, ())):
            if twin >= 0 and twin not in self.changed:
                return twin, 0
        for index, one in self.changed.items():
            if one.locals == ((local, 1),):
                return index, one.offset
        return None

    def holders(self, one: Sum) -> Optional[Dict[int, Tuple[int, int]]]:
        """By each local of a sum, one that has its value now."""
        found = {local: self.holder(local) for local, _ in one.locals}
        return None if None in found.values() else found  # type: ignore[return-value]


def combined(name: str, a: Sum, b: Sum = Sum((), 0)) -> Optional[Sum]:
    if name in ("i32.add", "i32.sub"):
        return added(a, b, 1 if name == "i32.add" else -1)
    if name == "i32.shl" and not b.locals:
        return added(constant(0), a, 1 << b.constant % 32)
    return None


CONTROL = frozenset([op.LOOP, op.IF, op.ELSE, op.END, op.BR, op.BR_IF, op.BR_TABLE, op.RETURN])


def twins_of(flow: Flow, function: Function) -> Dict[int, int]:
    """Locals that have equal values wherever straight code begins or ends: `wasm-opt --ssa` makes one of each
    use of a variable. By each local the first of its twins. At first all that begin with 0 are held for
    twins; those that some straight code sets to different sums are parted, until none is."""
    pieces = straight_pieces(flow, function)
    count, params = len(function.locals), len(function.type.params)
    first = {local: local if local < params else params for local in range(count)}
    for local in range(params, count):
        first[local] = next(
            one
            for one in range(params, count)
            if flow.kind[function.locals[one]] == flow.kind[function.locals[local]]
        )
    while True:
        groups: Dict[Tuple[object, ...], int] = {}
        parted: Dict[int, int] = {}
        for local in range(count):
            ends = [(at, renamed(piece[local], first)) for at, piece in enumerate(pieces) if local in piece]
            told = tuple(
                end for end in ends if end[1] != alone(first[local])
            )  # what is set to its twin's value stays as it was
            parted[local] = groups.setdefault((first[local], told), local)
        if parted == first:
            return {local: one for local, one in first.items() if one != local}
        first = parted


def renamed(one: Sum, first: Dict[int, int]) -> Sum:
    """A sum by first twins."""
    found = Sum((), one.constant)
    for local, often in one.locals:
        found = added(found, alone(first.get(local, local)), often)
    return found


def straight_pieces(flow: Flow, function: Function) -> List[Dict[int, Sum]]:
    """What each piece of straight code sets locals to."""
    sums, found = Sums(flow), []
    for step in function.steps:
        if step.ins.code in CONTROL and step.meets:
            if sums.changed:
                found.append(sums.changed)
            sums.begin()
        sums.follow(step)
    return found


@dataclass
class Group:
    """Stores of a loop whose addresses differ by constants: they write `width` bytes from `first` on in each
    turn, and each turn's lie behind (or, where it is descending, in front of) those of the turn before."""

    sum: Tuple[Tuple[int, int], ...]
    first: int
    width: int
    is_descending: bool
    stores: Set[int] = field(default_factory=set)  # their steps
    byte: Optional[
        Tuple[str, int]
    ] = None  # the byte that all of them store: ("const", value) or ("local", index); None clears masks


def straight_loop(function: Function, at: int) -> Optional[int]:
    """The end of a loop whose body is straight: nothing leaves it but the branch back at its end, and nothing
    is called."""
    depth = 0
    for number in range(at + 1, len(function.steps)):
        step = function.steps[number]
        code = step.ins.code
        if code == op.BLOCK:
            depth += 1
        elif code == op.END and depth:
            if step.meets:
                return None
            depth -= 1
        elif code == op.END:
            before = function.steps[number - 1].ins
            return number if before.code == op.BR_IF and before.numbers == (0,) else None
        elif code == op.BR_IF:
            if depth or step.ins.numbers != (0,) or function.steps[number + 1].ins.code != op.END:
                return None
        elif code in (
            op.LOOP,
            op.IF,
            op.BR,
            op.BR_TABLE,
            op.RETURN,
            op.UNREACHABLE,
            op.CALL,
            op.CALL_INDIRECT,
            op.MEMORY_GROW,
        ):
            return None
    return None


def in_a_row(places: Sequence[Tuple[int, int]]) -> Optional[Tuple[int, int]]:
    """The first of bytes and how many they are, where they lie in a row; each is a store's first and how many
    it writes."""
    covered = sorted({byte for first, width in places for byte in range(first, first + width)})
    return (covered[0], len(covered)) if covered and covered[-1] - covered[0] == len(covered) - 1 else None


def groups_of(flow: Flow, function: Function, twins: Dict[int, int], at: int, end: int) -> List[Group]:
    """The groups of a straight loop whose stores lie in a row over all its turns; others are left out."""
    sums = Sums(flow, twins)
    found: Dict[Tuple[Tuple[int, int], ...], List[Tuple[int, int, int]]] = {}
    for number in range(at + 1, end):
        step = function.steps[number]
        if step.ins.code in op.STORES:
            address = sums.node(step.operands[0])
            place = address.offset + step.ins.numbers[1]
            found.setdefault(address.locals, []).append((number, place, op.ACCESSES[step.ins.code].width))
        sums.follow(step)
    return [
        group
        for locals_, stores in found.items()
        for group in rows(locals_, stores, stride_of(sums, locals_))
    ]


def rows(
    locals_: Tuple[Tuple[int, int], ...], stores: Sequence[Tuple[int, int, int]], stride: Optional[int]
) -> List[Group]:
    """All stores of a sum as one group, or else each by itself, where its turns lie in a row. A store is its
    step, its first byte and its width."""

    def group(some: Sequence[Tuple[int, int, int]]) -> List[Group]:
        row = in_a_row([(first, width) for _, first, width in some])
        if not row or not stride or abs(stride) != row[1]:
            return []
        return [Group(locals_, *row, stride < 0, {number for number, _, _ in some})]

    return group(stores) or [one for store in stores for one in group([store])]


def stride_of(sums: Sums, locals_: Tuple[Tuple[int, int], ...]) -> Optional[int]:
    """By how much a sum grows in a turn, where that is constant."""
    total = 0
    for local, often in locals_:
        after = sums.local(local)
        if local < 0 or after.locals != ((local, 1),):
            return None
        total += after.constant * often
    total %= WORD
    return total - WORD if total >> 31 else total
