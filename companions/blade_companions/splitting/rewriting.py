"""Writes the split module: its functions again, doors by which it is called from outside, and all numbers of
functions moved on. Licence: public domain (CC0)."""
from __future__ import annotations

from dataclasses import replace
from typing import Dict, List

from . import codes as op
from .functions import FunctionWriter, Making
from .kinds import Kinds, declared
from .parts import Body, Global, Parts
from .shadow import Shadow
from .signatures import Signatures
from ..formats.instructions import Instruction
from ..formats.module import FUNCTION, GLOBAL

FUNCTION_LABELS = ("secret-param", "public-result")


def kept_exports(parts: Parts) -> List[str]:
    """The names of what stays exported: functions, and globals that don't change. By a memory, a table or
    another global a client could change what the shadow is to know."""
    return [
        name
        for (sort, name), index in parts.exports.items()
        if sort == FUNCTION or sort == GLOBAL and not parts.globals[index].is_mutable
    ]


class ModuleWriter:
    """Writes the module, and tells the shadow which accessors it calls."""

    def __init__(self, kinds: Kinds, shadow: Shadow) -> None:
        self.kinds, self.flow, self.parts, self.shadow = kinds, kinds.flow, kinds.flow.module, shadow
        self.signatures = Signatures(kinds)

    def write(self) -> Parts:
        parts, kept = self.parts, kept_exports(self.parts)
        made = replace(
            parts,
            types=list(parts.types),
            functions=list(parts.functions),
            bodies=[],
            globals=list(parts.globals),
            labels=list(parts.labels),
            exports={key: index for key, index in parts.exports.items() if key[1] in kept},
        )
        making = Making(self.kinds, self.shadow, self.signatures, made)
        making.known_global = self.known_globals(made)
        making.handed = self.handing_globals(made)
        for index, function in self.flow.functions.items():
            kind, body = FunctionWriter(making, function).write()
            made.functions[index] = made.type_index(kind)
            made.bodies.append(body)
        self.add_doors(made)
        self.renumber(made)
        return made

    def known_globals(self, made: Parts) -> Dict[int, int]:
        """Two globals beside each of kind D: its known bits and their mask."""
        secret, found = declared(self.flow), {}
        for index, node in enumerate(self.flow.globals):
            if self.kinds.of(node) == "D":
                one = self.parts.globals[index]
                found[index] = len(made.globals)
                full = 0 if node in secret else (1 << op.BITS[one.type]) - 1
                made.globals += [Global(one.type, True, one.first & full), Global(one.type, True, full)]
        return found

    def handing_globals(self, made: Parts) -> Dict[int, int]:
        """For each type two globals that hand on what is known of results of this type."""
        found: Dict[int, int] = {}
        for index, hands in self.signatures.results.items():
            kind = self.parts.type_of(index).results[0] if hands else None
            if kind and kind not in found:
                found[kind] = len(made.globals)
                made.globals += [Global(kind, True, 0)] * 2
        return found

    def add_doors(self, made: Parts) -> None:
        """An exported function gets a door of its own type, by which it is called from outside. Arguments are
        known there. A call that didn't return lets no other one in: masks that were to be cleared may be
        left."""
        exported = [(key, index) for key, index in made.exports.items() if key[0] == FUNCTION]
        if not exported:
            return
        busy, doors = len(made.globals), {}  # type: int, Dict[int, int]
        made.globals.append(Global(op.I32, True, 0))
        for key, index in exported:
            if index not in doors:
                doors[index] = len(made.functions)
                made.functions.append(self.parts.functions[index])
                made.bodies.append(Body([], self.door(index, busy)))
                made.labels += [
                    (kind, (doors[index], *numbers[1:]))
                    for kind, numbers in self.parts.labels
                    if kind in FUNCTION_LABELS and numbers[0] == index
                ]
            made.exports[key] = doors[index]

    def door(self, index: int, busy: int) -> List[Instruction]:
        kind = self.parts.type_of(index)
        code = op.assembled(f"global.get {busy}; if; unreachable; end; i32.const 1; global.set {busy}")
        code += [op.ins(op.LOCAL_GET, at) for at in range(len(kind.params))]
        for at in sorted(self.signatures.params[index]):
            code += [op.ins(op.LOCAL_GET, at), op.ins(op.CONST[kind.params[at]], -1)]
        return code + op.assembled(f"call {index}; i32.const 0; global.set {busy}; end")

    def renumber(self, made: Parts) -> None:
        """The shadow's functions are imported, and so all others move on."""
        by = len(self.shadow.numbers)
        made.imports = self.shadow.imports()
        made.functions = [made.type_index(kind) for _, _, kind in made.imports] + made.functions
        for body in made.bodies:
            body.code = [
                one if one.code != op.CALL else one._replace(numbers=(moved(one.numbers[0], by),))
                for one in body.code
            ]
        made.exports = {
            key: moved(index, by) if key[0] == FUNCTION else index for key, index in made.exports.items()
        }
        made.elements = [
            (offset, tuple(moved(one, by) for one in functions)) for offset, functions in made.elements
        ]
        made.labels = [
            (kind, (moved(numbers[0], by), *numbers[1:]) if kind in FUNCTION_LABELS else numbers)
            for kind, numbers in made.labels
        ]
        made.names = {moved(index, by): name for index, name in made.names.items()}


def moved(index: int, by: int) -> int:
    """A function's number behind so many accessors. One below 0 is that of an accessor."""
    return -1 - index if index < 0 else index + by
