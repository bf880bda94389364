"""Random images that are exact: all operators and accesses, branches, loops, calls, traps. Licence: public
domain (CC0)."""
from __future__ import annotations

import random
from typing import Dict, List, Tuple

from outcomes import I32
from images import (
    ARG,
    CALL,
    I64,
    JUMP,
    LOAD,
    MOVE,
    OUT,
    OUTSIDE,
    RET,
    SELECT,
    SET,
    STORE,
    TEST,
    Function,
    K,
    Value,
    image,
)
from blade_companions.formats.lowering import ACCESS_NAMES
from blade_companions.native.operators import ACCESS_TABLE, BITS, TABLE

EDGES = (
    0,
    1,
    2,
    31,
    32,
    63,
    64,
    127,
    128,
    255,
    0x7FFF,
    0x8000,
    0xFFFF,
    0x7FFFFFFF,
    0x80000000,
    0xFFFFFFFF,
    0x100000000,
    0x7FFFFFFFFFFFFFFF,
    0x8000000000000000,
    0xFFFFFFFFFFFFFFFF,
)
GLOBALS = ((I32, 7), (I64, 1 << 40))
SIZE = len(GLOBALS)  # the variable of the memory's size
STATICS = SIZE + 1


def value(random_: random.Random, kind: int) -> int:
    """An edge, or any number of a type."""
    number = random_.choice(EDGES) if random_.random() < 0.5 else random_.getrandbits(64)
    return number & ((1 << BITS[kind]) - 1)


class Writer:
    """Writes one function. All locals are given first; then any command may read them."""

    def __init__(
        self, random_: random.Random, first: int, entry: int, earlier: List[Tuple[int, Function]]
    ) -> None:
        self.random, self.first, self.entry, self.earlier = random_, first, entry, earlier
        self.parameters = [random_.choice((I32, I64)) for _ in range(random_.randrange(4))]
        self.results = [random_.choice((I32, I64)) for _ in range(random_.randrange(4))]
        self.locals = [I32] * 6 + [I64] * 4
        kinds = self.parameters + self.results + self.locals
        self.variables = len(kinds)
        own = len(self.parameters) + len(self.results)
        self.local: Dict[int, List[int]] = {
            kind: [
                first + at
                for at, one in enumerate(kinds)
                if one == kind and (at < len(self.parameters) or at >= own)
            ]
            for kind in (I32, I64)
        }
        self.scratch = self.local[I32].pop()
        self.counter = self.local[I32].pop()
        self.commands: List[Tuple] = []

    @property
    def position(self) -> int:
        return self.entry + len(self.commands)

    def operand(self, kind: int) -> Value:
        chance = self.random.random()
        if chance < 0.2:
            return K(value(self.random, kind))
        if chance < 0.25:
            return 0 if kind == I32 else 1  # a global
        return self.random.choice(self.local[kind])

    def target(self, kind: int) -> int:
        return self.random.choice(self.local[kind] + [0 if kind == I32 else 1])

    def mark(self) -> int:
        return self.random.choice((0, 0, 1, 2, 8, 9))

    def operator(self) -> None:
        code = self.random.choice((MOVE, SELECT, *TABLE))
        if code in (MOVE, SELECT):
            kind = self.random.choice((I32, I64))
            operands = (
                [self.operand(kind)]
                if code == MOVE
                else [self.operand(kind), self.operand(kind), self.operand(I32)]
            )
            self.commands.append((SET, self.mark(), code, self.target(kind), *operands))
        else:
            one = TABLE[code]
            self.commands.append(
                (SET, self.mark(), code, self.target(one.value), *map(self.operand, one.operands))
            )

    def access(self) -> None:
        """A Load or Store at a small address, or at any, which traps."""
        code, name = self.random.choice(list(ACCESS_NAMES.items()))
        access, offset = ACCESS_TABLE[code], self.random.choice((0, 1, 8, 65000))
        address = self.random.choice(self.local[I32])
        if self.random.random() < 0.95:
            self.commands.append((SET, 0, 0x71, address, address, K(0x7FF)))
        self.commands.append((SET, 0, OUTSIDE, self.scratch, address, SIZE, K(offset + access.bits // 8)))
        self.commands.append((TEST, self.scratch, 3, self.position + 1))
        if "load" in name:
            self.commands.append((LOAD, self.mark(), code, 0, self.target(access.kind), offset, address))
        else:
            self.commands.append((STORE, code, 0, offset, address, self.operand(access.kind)))

    def choice(self) -> None:
        """A branch over some commands."""
        at = len(self.commands)
        self.commands.append(())
        self.some(3)
        self.commands.append((JUMP, self.position + 1))
        condition, behind = self.operand(I32), self.position
        self.commands[at] = (TEST, condition, behind, self.entry + at + 1)
        self.operator()

    def loop(self) -> None:
        """Some commands three times."""
        self.commands.append((SET, 0, MOVE, self.counter, K(3)))
        head = self.position
        for _ in range(3):
            self.operator()
        self.commands.append((SET, 0, 0x6B, self.counter, self.counter, K(1)))
        self.commands.append((TEST, self.counter, head, self.position + 1))

    def call(self) -> None:
        if not self.earlier:
            return
        number = self.random.randrange(len(self.earlier))
        first, callee = self.earlier[number]
        for index, kind in enumerate(callee.parameters):
            self.commands.append((ARG, self.mark(), number, index, self.operand(kind)))
        self.commands.append((CALL, number))
        for index, kind in enumerate(callee.results):
            self.commands.append(
                (SET, self.mark(), MOVE, self.target(kind), first + len(callee.parameters) + index)
            )

    def some(self, count: int) -> None:
        for _ in range(count):
            self.random.choice((self.operator, self.operator, self.operator, self.access, self.call))()

    def function(self) -> Function:
        for kind in (I32, I64):
            for variable in self.local[kind]:
                if variable - self.first >= len(self.parameters):
                    self.commands.append((SET, 0, MOVE, variable, K(value(self.random, kind))))
        for _ in range(self.random.randrange(3, 8)):
            self.some(4)
            self.random.choice((self.choice, self.loop, self.operator))()
        for index, kind in enumerate(self.results):
            self.commands.append((OUT, self.mark(), index, self.operand(kind)))
        self.commands.append((RET,))
        return Function(self.parameters, self.results, self.variables, self.commands)


def random_image(seed: int) -> Tuple[bytes, List[Function]]:
    """An image of some functions, each of which may call those before it."""
    random_ = random.Random(seed)
    first, entry, found = STATICS, 7, []
    for _ in range(random_.randrange(1, 4)):
        function = Writer(random_, first, entry, found).function()
        found.append((first, function))
        first, entry = first + function.variables, entry + len(function.commands)
    functions = [function for _, function in found]
    return image(functions, memories=[(1, 2)], globals_=GLOBALS), functions


def random_start(seed: int, function: Function) -> str:
    """A start file of a function: edges, and some bytes."""
    random_ = random.Random(f"start {seed}")
    lines = [f"arg {value(random_, kind)}" for kind in function.parameters]
    return ("\n".join([*lines, f"memory 0 16 {bytes(random_.getrandbits(8) for _ in range(512)).hex()}"])
            + "\n")
