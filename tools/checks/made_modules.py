#!/usr/bin/env python3
"""Makes small valid modules by chance, for tests: with loops, tables, calls of all kinds, labels and demands;
every third one imports from another. made-modules FOLDER COUNT [SEED] writes NUMBER/first.wasm and, where it
imports, NUMBER/second.wasm. Licence: public domain (CC0)."""
from __future__ import annotations

import random
import sys
from typing import Any, List, Sequence

import harness
from blade_companions.formats.encoding import (
    I32, I64, custom, func_type, leb, module, section, signed_leb, sized, string, vector)

BINARY = {I32: list(range(0x6A, 0x79)), I64: list(range(0x7C, 0x8B))}
COMPARE = {I32: list(range(0x46, 0x50)), I64: list(range(0x51, 0x5B))}
UNARY = {I32: [0x45, 0x67, 0x68, 0x69, 0xC0, 0xC1], I64: [0x79, 0x7A, 0x7B, 0xC2, 0xC3, 0xC4]}
LOADS = {I32: [0x28, 0x2C, 0x2D, 0x2E, 0x2F], I64: list(range(0x29, 0x2A)) + list(range(0x30, 0x36))}
STORES = {I32: [0x36, 0x3A, 0x3B], I64: [0x37, 0x3C, 0x3D, 0x3E]}


class Body:
    """One function's instructions, made so that they are valid."""

    def __init__(self, maker: Any, kind: Any) -> None:
        self.maker, self.chance, self.kind = maker, maker.chance, kind
        self.locals = list(kind[0]) + [self.chance.choice((I32, I64))
                                       for _ in range(self.chance.randrange(4))]
        self.labels = [list(kind[1])]
        self.left = 60

    def value(self, kind: int, depth: int = 0) -> bytes:
        """Instructions that leave one value."""
        self.left -= 1
        if depth > 3 or self.left < 0:
            return self.leaf(kind)
        ways = [self.leaf, self.operator, self.load, self.select, self.tee, self.result, self.nested,
                self.size, self.call]
        return self.chance.choice(ways)(kind, depth + 1)

    def leaf(self, kind: int, depth: int = 0) -> bytes:
        here = [at for at, one in enumerate(self.locals) if one == kind]
        if here and self.chance.random() < 0.6:
            return b"\x20" + leb(self.chance.choice(here))
        there = [at for at, (one, _) in enumerate(self.maker.globals) if one == kind]
        if there and self.chance.random() < 0.4:
            return b"\x23" + leb(self.chance.choice(there))
        return bytes([0x41 if kind == I32 else 0x42]) + signed_leb(
            self.chance.choice((0, 1, 2, 7, 8, 64, 255, -1, 4096)))

    def operator(self, kind: int, depth: int) -> bytes:
        chance = self.chance.random()
        if chance < 0.15:
            return self.value(kind, depth) + bytes(
                [self.chance.choice(UNARY[kind])]) if kind == I64 or self.chance.random() < 0.8 else (
                self.value(I64, depth) + b"\xA7")
        if chance < 0.25 and kind == I64:
            return self.value(I32, depth) + self.chance.choice((b"\xAC", b"\xAD"))
        if chance < 0.4 and kind == I32:
            other = self.chance.choice((I32, I64))
            return self.value(other, depth) + self.value(other,
                                                         depth) + bytes([self.chance.choice(COMPARE[other])])
        return self.value(kind, depth) + self.value(kind, depth) + bytes([self.chance.choice(BINARY[kind])])

    def load(self, kind: int, depth: int) -> bytes:
        if not self.maker.has_memory:
            return self.leaf(kind)
        return self.address(depth) + bytes([self.chance.choice(LOADS[kind]),
                                            0]) + leb(self.chance.choice((0, 4, 300)))

    def address(self, depth: int) -> bytes:
        return self.value(I32, depth)

    def select(self, kind: int, depth: int) -> bytes:
        return self.value(kind, depth) + self.value(kind, depth) + self.value(I32, depth) + b"\x1B"

    def tee(self, kind: int, depth: int) -> bytes:
        here = [at for at, one in enumerate(self.locals) if one == kind]
        return self.value(kind, depth) + b"\x22" + leb(self.chance.choice(here)) if here else self.leaf(kind)

    def size(self, kind: int, depth: int) -> bytes:
        if kind != I32 or not self.maker.has_memory:
            return self.leaf(kind)
        return b"\x3F\x00" if self.chance.random() < 0.7 else self.value(I32, depth) + b"\x40\x00"

    def called(self, types: Any, depth: int) -> bytes:
        """Arguments for the parameters of a function."""
        return b"".join(self.value(one, depth) for one in types)

    def call(self, kind: int, depth: int) -> bytes:
        fit = [at for at, one in enumerate(self.maker.kinds) if list(one[1]) == [kind]]
        if not fit:
            return self.leaf(kind)
        at = self.chance.choice(fit)
        arguments = self.called(self.maker.kinds[at][0], depth + 1)
        if self.maker.has_table and self.chance.random() < 0.4:
            return arguments + self.value(I32, depth) + b"\x11" + leb(
                self.maker.type_index(self.maker.kinds[at])) + b"\0"
        return arguments + b"\x10" + leb(at)

    def result(self, kind: int, depth: int) -> bytes:
        """A block, an if or a loop that leaves the value."""
        return self.nest([], [kind], depth)

    def nested(self, kind: int, depth: int) -> bytes:
        """One with parameters, too."""
        return self.nest([self.chance.choice((I32, I64)) for _ in range(self.chance.randrange(3))], [kind],
                         depth)

    def nest(self, params: Sequence[int], results: Sequence[int], depth: int) -> bytes:
        sort = self.chance.choice((0x02, 0x03, 0x04))
        head = self.called(params, depth) + (self.value(I32, depth) if sort == 0x04 else b"")
        kind = (leb(self.maker.type_index((tuple(params), tuple(results)))) if params else bytes([results[0]])
                if results else b"\x40")
        self.labels.append(params if sort == 0x03 else results)
        parts = [self.part(len(params), results, depth)]
        if sort == 0x04 and (params != results or self.chance.random() < 0.6):
            parts.append(self.part(len(params), results, depth))
        self.labels.pop()
        return head + bytes([sort]) + kind + b"\x05".join(parts) + b"\x0B"

    def part(self, drops: int, results: Sequence[int], depth: int) -> bytes:
        body = b"\x1A" * drops + self.statements(depth)
        if self.chance.random() < 0.15:
            return body + self.leave(depth)
        return body + b"".join(self.value(one, depth) for one in results)

    def leave(self, depth: int) -> bytes:
        """A branch behind which nothing is reached."""
        at = self.chance.randrange(len(self.labels))
        taken = self.labels[-1 - at]
        values = b"".join(self.value(one, depth) for one in taken)
        same = [other for other in range(len(self.labels)) if self.labels[-1 - other] == taken]
        ways = [b"\x00", values + b"\x0C" + leb(at),
                b"".join(self.value(one, depth) for one in self.kind[1]) + b"\x0F",
                values + self.value(I32, depth) + b"\x0E"
                + vector([leb(self.chance.choice(same)) for _ in range(3)]) + leb(at)]
        return self.chance.choice(ways)

    def statements(self, depth: int = 0) -> bytes:
        return (b"".join(self.statement(depth + 1) for _ in range(self.chance.randrange(1, 4)))
                if self.left > 0 else b"")

    def statement(self, depth: int) -> bytes:
        self.left -= 1
        kind = self.chance.choice((I32, I64))
        here = [at for at, one in enumerate(self.locals) if one == kind]
        there = [at for at, (one, changes) in enumerate(self.maker.globals) if one == kind and changes]
        ways = [self.value(kind, depth) + b"\x1A", b"\x01"]
        if here:
            ways.append(self.value(kind, depth) + b"\x21" + leb(self.chance.choice(here)))
        if there:
            ways.append(self.value(kind, depth) + b"\x24" + leb(self.chance.choice(there)))
        if self.maker.has_memory:
            ways.append(self.address(depth) + self.value(kind, depth)
                        + bytes([self.chance.choice(STORES[kind]), 0]) + leb(8))
        at = self.chance.randrange(len(self.labels))
        values = self.labels[-1 - at]
        ways.append(b"".join(self.value(one, depth) for one in values) + self.value(I32, depth) + b"\x0D"
                    + leb(at) + b"\x1A" * len(values))
        if depth < 4:
            ways.append(self.nest([], [], depth))
        return self.chance.choice(ways)

    def whole(self) -> bytes:
        body = self.statements() + self.statements() + b"".join(self.value(one) for one in self.kind[1])
        extra = self.locals[len(self.kind[0]) :]
        return vector([b"\x01" + bytes([one]) for one in extra]) + body + b"\x0B"


class Maker:
    """One module; with the first one's exports, it imports some of them."""

    body = Body
    results = (0, 1, 1, 1, 2)  # how many a function has
    chance_of_memory = 0.8

    def __init__(self, chance: random.Random, other: Any = None) -> None:
        self.chance, self.other = chance, other
        self.types, self.imports, self.entries = [], [], []
        self.kinds, self.globals = [], []
        self.has_memory = self.has_table = False
        self.own_memory = self.own_table = False
        self.slots = 0
        if other:
            self.take(other)
        self.first_function, self.first_global = len(self.kinds), len(self.globals)
        self.globals += [(chance.choice((I32, I64)), chance.random() < 0.7)
                         for _ in range(chance.randrange(3))]
        for _ in range(chance.randrange(1, 5)):
            results = tuple(chance.choice((I32, I64)) for _ in range(chance.choice(self.results)))
            self.kinds.append((tuple(chance.choice((I32, I64)) for _ in range(chance.randrange(4))), results))
        self.own_memory = not self.has_memory and chance.random() < self.chance_of_memory
        self.has_memory |= self.own_memory
        self.own_table = not self.has_table and chance.random() < 0.5
        if self.own_table:
            self.has_table, self.slots = True, chance.randrange(1, 6)
        for kind in self.kinds:
            self.type_index(kind)

    def type_index(self, kind: Any) -> int:
        if kind not in self.types:
            self.types.append(kind)
        return self.types.index(kind)

    def take(self, other: Any) -> None:
        for at, kind in enumerate(other.kinds):
            if self.chance.random() < 0.6:
                self.imports.append(string("first") + string(f"f{at}") + b"\0" + leb(self.type_index(kind)))
                self.kinds.append(kind)
        if other.has_memory and self.chance.random() < 0.5:
            self.imports.append(string("first") + string("memory") + b"\x02\0\x01")
            self.has_memory = True
        if other.has_table and self.chance.random() < 0.7:
            self.imports.append(string("first") + string("table") + b"\x01\x70\0" + leb(other.slots))
            self.has_table, self.slots = True, other.slots
        for at, (kind, changes) in enumerate(other.globals):
            if self.chance.random() < 0.5:
                self.imports.append(string("first") + string(f"g{at}") + b"\x03" + bytes([kind, changes]))
                self.globals.append((kind, changes))

    def exports(self) -> List[bytes]:
        found = [string(f"f{at}") + b"\0" + leb(at) for at in range(len(self.kinds))]
        found += [string(f"g{at}") + b"\x03" + leb(at) for at in range(len(self.globals))]
        if self.has_memory:
            found.append(string("memory") + b"\x02\0")
        if self.has_table:
            found.append(string("table") + b"\x01\0")
        return found

    def labels(self) -> bytes:
        entries, demands = [], []
        for at in range(self.first_function, len(self.kinds)):
            params, results = self.kinds[at]
            entries += [b"\0" + leb(at) + leb(one)
                        for one in range(len(params)) if self.chance.random() < 0.3]
            demands += [b"\3" + leb(at) + leb(one)
                        for one in range(len(results)) if self.chance.random() < 0.08]
        for at in range(self.first_global, len(self.globals)):
            pick = self.chance.random()
            entries += [b"\1" + leb(at)] * (pick < 0.15)
            demands += [b"\4" + leb(at)] * (pick > 0.9)
        if self.own_memory and self.chance.random() < 0.5:
            entries.append(b"\2\0")
        return custom("blade.labels", (b"\2" if demands else b"\1") + vector(entries + demands))

    def bytes(self) -> bytes:
        defined = self.kinds[self.first_function :]
        bodies = [sized(self.body(self, kind).whole()) for kind in defined]
        made = section(1,
                       vector([func_type(*kind) for kind in self.types])) + section(2, vector(self.imports))
        made += section(3, vector([leb(self.type_index(kind)) for kind in defined]))
        if self.own_table:
            made += section(4, vector([b"\x70\0" + leb(self.slots)]))
        if self.own_memory:
            made += section(5, vector([b"\1\1\3"]))
        made += section(6, vector([bytes([kind, changes, 0x41 if kind == I32 else 0x42, 0, 0x0B]) for kind,
                                   changes in self.globals[self.first_global :]]))
        made += section(7, vector(self.exports()))
        if self.has_table and self.slots and self.kinds:
            at = self.chance.randrange(self.slots)
            count = self.chance.randrange(self.slots - at + 1)
            listed = [leb(self.chance.randrange(len(self.kinds))) for _ in range(count)]
            made += section(9, vector([b"\0\x41" + signed_leb(at) + b"\x0B" + vector(listed)]))
        return module(made, section(10, vector(bodies)), self.labels())


def main(words: Sequence[str]) -> None:
    folder, count, seed = words[0], int(words[1]), int(words[2]) if len(words) > 2 else 0
    for number in range(count):
        chance = random.Random(f"{seed} {number}")
        first = Maker(chance)
        makers = [("first", first)] + ([("second", Maker(chance, first))] if number % 3 == 0 else [])
        for name, maker in makers:
            harness.write_bytes(f"{folder}/{number}/{name}.wasm", maker.bytes())


if __name__ == "__main__":
    main(sys.argv[1:])
