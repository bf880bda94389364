"""Small programs for tests: written by hand, and made at random. C's memory is secret; a start gives its
first bytes. Licence: public domain (CC0)."""
from __future__ import annotations

import random
from typing import List, Sequence

from blade_companions.formats.encoding import I32, MAGIC, func_type, leb, section, string, vector
from blade_companions.formats.instructions import Instruction
from blade_companions.formats.labels import Entry, with_labels
from blade_companions.formats.module import Module, module_of
from blade_companions.splitting import codes as op
from blade_companions.splitting.parts import Body, written

SECRET, PUBLIC = 0, 64  # where bytes of the start stand: 64 secret ones, then 64 public ones
ROOM = 128  # from here on a program stores


def i(name: str, *args: int) -> Instruction:
    """An instruction by its name; an operator of 32 bits and what has to do with locals by its short one."""
    words = {"get": "local.get", "set": "local.set", "tee": "local.tee", "const": "i32.const"}
    word = words.get(name, name)
    code = op.NAMES[word if word in op.NAMES else f"i32.{name}"]
    if code in op.ACCESSES:
        args = (0, args[0] if args else 0)
    if code in op.OPENING:
        args = args or (op.EMPTY,)
    return op.ins(code, *args)


def module_bytes(bodies: Sequence[Body], params: int, more: bytes = b"") -> bytes:
    """A module of functions i32^params -> i32, of which the first is exported as f, with one memory of a
    page."""
    sections = [(1, [func_type([I32] * params, [I32])]), (3, [leb(0)] * len(bodies)), (5, [b"\1\1\1"])]
    return (
        MAGIC
        + b"".join(section(number, vector(parts)) for number, parts in sections)
        + more
        + section(7, vector([string("f") + b"\0\0"]))
        + section(10, written(bodies, []))
    )


def module(
    bodies: Sequence[Sequence[Instruction]],
    locals_: int = 8,
    params: int = 1,
    labels: Sequence[Entry] = (("secret-memory", (0,)),),
    more: bytes = b"",
) -> Module:
    """A labelled module of such functions."""
    code = [Body([I32] * locals_, [*body, i("end")]) for body in bodies]
    bare = module_of(module_bytes(code, params, more), "program.wasm")
    return module_of(with_labels(bare, list(labels)), "program.wasm")


def store(at: int, value: Sequence[Instruction], name: str = "i32.store") -> List[Instruction]:
    return [i("const", at), *value, i(name)]


def load(at: int, name: str = "i32.load") -> List[Instruction]:
    return [i("const", at), i(name)]


def looked_up(value: Sequence[Instruction]) -> List[Instruction]:
    """A byte at an address that a value has a part in: a sink."""
    return [*value, i("const", 15), i("and"), i("i32.load8_u", PUBLIC)]


# A place that was public and then takes a secret, if the argument says so: a mask that isn't cleared lets the
# old value be used.
STALE = module(
    [
        [
            *store(ROOM, [i("const", 3)]),
            i("get", 0),
            i("if"),
            *store(ROOM, load(SECRET)),
            i("end"),
            *looked_up(load(ROOM)),
        ]
    ]
)
# The same with single bytes, which a loop stores: masks are cleared behind it.
LOOPED = module(
    [
        [
            *store(ROOM, [i("const", 0x01010101)]),
            *store(ROOM + 4, [i("const", 0x02020202)]),
            i("const", ROOM),
            i("set", 1),
            i("get", 0),
            i("if"),
            i("loop"),
            i("get", 1),
            i("get", 1),
            i("i32.load8_u"),
            i("const", SECRET),
            i("i32.load8_u"),
            i("xor"),
            i("i32.store8"),
            i("get", 1),
            i("const", 1),
            i("add"),
            i("tee", 1),
            i("const", ROOM + 8),
            i("lt_u"),
            i("br_if", 0),
            i("end"),
            i("end"),
            *looked_up(load(ROOM + 7, "i32.load8_u")),
        ]
    ]
)
# Two stores in a row, and then the load: what is cleared later has to be cleared by then.
NEIGHBOURS = module(
    [
        [
            *store(ROOM, [i("const", 1)]),
            *store(ROOM + 4, [i("const", 2)]),
            i("get", 0),
            i("if"),
            *store(ROOM, load(SECRET)),
            *store(ROOM + 4, load(SECRET + 4)),
            *looked_up(load(ROOM + 4)),
            i("set", 1),
            i("end"),
            *looked_up(load(ROOM)),
        ]
    ]
)
# Half of a word is public: a sum with a secret in its upper half keeps the lower one known.
HALF = module(
    [
        [
            *store(ROOM, load(PUBLIC, "i32.load16_u"), "i32.store16"),
            *store(ROOM + 2, load(SECRET, "i32.load16_u"), "i32.store16"),
            *store(ROOM + 8, [*load(ROOM), i("const", 7), i("add")]),
            i("get", 0),
            i("if"),
            *store(ROOM + 8, [*load(ROOM + 8), *load(SECRET + 8), i("add")]),
            i("end"),
            *looked_up(load(ROOM + 8, "i32.load16_u")),
        ]
    ]
)
# What no recorded run comes to: a load of what a start gave, at a sink.
UNSEEN = module(
    [
        [
            i("const", 0),
            i("set", 1),
            i("get", 0),
            i("if"),
            *looked_up(load(SECRET)),
            i("set", 1),
            i("end"),
            i("get", 1),
        ]
    ]
)
# A secret at a sink, always: it stays a leak.
LEAK = module([[*looked_up(load(SECRET))]])
# Known bits that go on unchanged from one value to the next: `x ^ -1` has the mask of x.
CHAIN = module(
    [
        [
            *store(ROOM, load(PUBLIC)),
            *store(ROOM + 4, load(PUBLIC + 4)),
            *looked_up(
                [
                    *load(ROOM),
                    i("const", 0xFFFFFFFF),
                    i("xor"),
                    *load(ROOM + 4),
                    i("const", 0xFFFFFFFF),
                    i("xor"),
                    i("and"),
                    *load(ROOM),
                    i("add"),
                    i("const", 7),
                    i("and"),
                ]
            ),
        ]
    ]
)
# A tee is the last step before a store, of its value and of its address: the shadow has to learn of both. The
# address is no sum of locals.
TEED = module(
    [
        [
            *store(ROOM + 16, [i("get", 0), i("const", 4), i("add"), i("tee", 1)]),
            *store(ROOM + 12, [i("const", 3)]),
            *[i("get", 0), i("const", 2), i("shl"), i("const", ROOM + 8), i("xor"), i("tee", 2)],
            *load(SECRET),
            i("i32.store"),
            *looked_up(load(ROOM + 12)),
            *looked_up(load(ROOM + 16)),
            i("add"),
        ]
    ]
)
BY_HAND = {
    "teed": TEED,
    "stale": STALE,
    "looped": LOOPED,
    "neighbours": NEIGHBOURS,
    "half": HALF,
    "unseen": UNSEEN,
    "leak": LEAK,
    "chain": CHAIN,
}


class Maker:
    """Makes a random program: stores and loads near ROOM, branches and look-ups by what is loaded, loops, and
    calls of a second function."""

    OPERATORS = ["add", "sub", "and", "or", "xor", "mul", "shl", "shr_u", "eq", "lt_u", "rotl"]

    def __init__(self, seed: int) -> None:
        self.random = random.Random(seed)
        self.budget = 0

    def program(self) -> Module:
        bodies = []
        for number in range(2):
            self.budget, self.calls = 26, number == 0
            body = [ins for _ in range(7) for ins in self.statement(3)]
            bodies.append([*body, i("get", self.random.randrange(6))])
        return module(bodies)

    def address(self) -> List[Instruction]:
        """Within 64 bytes: a constant, a local that is masked, or a local with a constant."""
        base = self.random.choice([SECRET, PUBLIC, ROOM, ROOM])
        if self.random.random() < 0.6:
            return [i("const", base + self.random.randrange(0, 60))]
        tee = [i("tee", self.random.randrange(6))] if self.random.random() < 0.3 else []
        near = [i("const", 31), i("and"), i("const", base), i("add")]
        return [i("get", self.random.randrange(6)), *near, *tee]

    def value(self, depth: int) -> List[Instruction]:
        choice = self.random.random()
        if depth == 0 or choice < 0.3:
            return (
                [i("get", self.random.randrange(6))]
                if self.random.random() < 0.6
                else [i("const", self.random.choice([0, 1, 7, 255, 0xFFFF0000, 4]))]
            )
        if choice < 0.52:
            return [
                *self.address(),
                i(
                    self.random.choice(["i32.load", "i32.load8_u", "i32.load8_s", "i32.load16_u"]),
                    self.random.choice([0, 0, 4]),
                ),
            ]
        if choice < 0.63:
            number, name = self.random.choice(
                [
                    (0xFFFFFFFF, "xor"),
                    (0, "or"),
                    (255, "and"),
                    (0xFFFFFFFF, "and"),
                    (0, "add"),
                    (8, "shr_u"),
                    (0xFFFFFFFF, "add"),
                ]
            )
            return [*self.value(depth - 1), i("const", number), i(name)]
        if choice < 0.65:
            return [*self.value(depth - 1), i("tee", self.random.randrange(6))]
        if choice < 0.68 and self.calls:
            return [*self.value(depth - 1), i("call", 1)]
        if choice < 0.72:
            return [*self.value(depth - 1), *self.value(depth - 1), *self.value(0), i("select")]
        return [*self.value(depth - 1), *self.value(depth - 1), i(self.random.choice(self.OPERATORS))]

    def statement(self, depth: int) -> List[Instruction]:
        self.budget -= 1
        choice = self.random.random()
        if choice < 0.35 or depth == 0 or self.budget < 0:
            if self.random.random() < 0.5:
                return [*self.value(2), i("set", self.random.randrange(6))]
            return [
                *self.address(),
                *self.value(2),
                i(
                    self.random.choice(["i32.store", "i32.store", "i32.store8", "i32.store16"]),
                    self.random.choice([0, 0, 4]),
                ),
            ]
        if choice < 0.7:
            return [*self.address(), *self.value(2), i(self.random.choice(["i32.store", "i32.store8"]))]
        if choice < 0.85:
            other = [i("else"), *self.statement(depth - 1)] if self.random.random() < 0.5 else []
            return [
                *self.value(1),
                i("if"),
                *self.statement(depth - 1),
                *self.statement(depth - 1),
                *other,
                i("end"),
            ]
        return self.loop(depth)

    def loop(self, depth: int) -> List[Instruction]:
        """A few turns: local 7 counts, and local 6 is an address that each turn stores at and moves on."""
        step = self.random.choice([1, 1, 4, -1, 2, 8])
        names = {1: "i32.store8", -1: "i32.store8", 2: "i32.store16", 4: "i32.store", 8: "i64.store"}
        more = self.statement(0) if self.random.random() < 0.4 else []
        turns = self.random.randrange(1, 6)
        return [
            i("const", ROOM + 30),
            i("set", 6),
            i("const", turns),
            i("set", 7),
            i("loop"),
            i("get", 6),
            *self.value(1),
            *[i("i64.extend_i32_u")] * (step == 8),
            i(names[step]),
            *more,
            i("get", 6),
            i("const", step & 0xFFFFFFFF),
            i("add"),
            i("set", 6),
            i("get", 7),
            i("const", 1),
            i("sub"),
            i("tee", 7),
            i("br_if", 0),
            i("end"),
        ]
