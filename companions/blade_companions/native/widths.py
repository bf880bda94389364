"""The type of each variable of an image: i32 or i64. Licence: public domain (CC0).

No rule of programs compares types. Here operators, accesses, parameters, results and globals say what is an
i32; an i32 in an i64's place, or a constant above 32 bits in an i32's, is refused with its position."""
from __future__ import annotations

from typing import Dict, List, Tuple

from ..formats.image import TRAPS, Command, Image, Operand
from ..formats.reading import Bad

from .operators import ACCESS_TABLE, MOVE, OUTSIDE, SELECT, TABLE
from .reading import I32, I64


class Widths:
    """Classes of variables that have one type, and the type where it is known."""

    def __init__(self, image: Image) -> None:
        self.image = image
        self.parent: Dict[int, int] = {}
        self.known: Dict[int, int] = {}
        self.constants: List[
            Tuple[int, int, int]
        ] = []  # the position, the constant, the variable whose type it has
        self.position = 0

    def root(self, variable: int) -> int:
        while self.parent.get(variable, variable) != variable:
            self.parent[variable] = variable = self.parent.get(self.parent[variable], self.parent[variable])
        return variable

    def refuse(self, what: str) -> None:
        raise Bad(f"{what} at {self.position}")

    def is_of(self, operand: Operand, kind: int) -> None:
        """An operand has a type."""
        if not operand.is_variable:
            if kind == I32 and operand.value >> 32:
                self.refuse("a constant is no i32")
        elif self.known.setdefault(self.root(operand.value), kind) != kind:
            self.refuse(f"v{operand.value} is an i32 and an i64")

    def are_one(self, variable: int, operand: Operand) -> None:
        """A variable has the type of an operand."""
        if not operand.is_variable:
            self.constants.append((self.position, operand.value, variable))
            return
        one, other = self.root(variable), self.root(operand.value)
        if one == other:
            return
        self.parent[one] = other
        kind = self.known.pop(one, None)
        if kind is not None:
            self.is_of(operand, kind)

    def declare(self) -> None:
        """What parameters, results, globals and sizes are declared to be."""
        self.known.update(enumerate(self.image.global_types))
        for number in range(len(self.image.global_types), self.image.shared):
            self.known[number] = I32
        for function in self.image.functions:
            kinds = function.types + function.result_types
            self.known.update((function.first + index, kind) for index, kind in enumerate(kinds))

    def set(self, command: Command) -> None:
        to, operands = Operand(True, command.writes), command.operands
        if command.operator == MOVE:
            self.are_one(command.writes, operands[0])
        elif command.operator == SELECT:
            self.are_one(command.writes, operands[0])
            self.are_one(command.writes, operands[1])
            self.is_of(operands[2], I32)
        else:
            kinds, value = (
                ((I32, I32, I64), I32) if command.operator == OUTSIDE else TABLE[command.operator][:2]
            )
            for operand, kind in zip(operands, kinds):
                self.is_of(operand, kind)
            self.is_of(to, value)

    def command(self, command: Command) -> None:
        operands = command.operands
        if command.kind == "Set":
            self.set(command)
        elif command.kind in ("Load", "Store"):
            value = Operand(True, command.writes) if command.kind == "Load" else operands[1]
            self.is_of(operands[0], I32)
            self.is_of(value, ACCESS_TABLE[command.operator].kind)
        elif command.kind == "Test":
            self.is_of(operands[0], I32)
        elif command.kind in ("Arg", "Out"):
            self.are_one(command.writes, operands[0])

    def run(self) -> None:
        self.declare()
        for self.position in range(TRAPS, len(self.image.commands)):
            self.command(self.image.commands[self.position])
        for self.position, number, variable in self.constants:
            root = self.root(variable)
            if root not in self.known and number >> 32:
                self.known[root] = I64
            if self.known.get(root) == I32:
                self.is_of(Operand(False, number), I32)

    def of(self, variable: int) -> int:
        """The type of a variable; one that only constants of 32 bits reach is an i32."""
        return self.known.get(self.root(variable), I32)


def widths_of(image: Image) -> Widths:
    """The types of all variables of an image."""
    widths = Widths(image)
    widths.run()
    return widths
