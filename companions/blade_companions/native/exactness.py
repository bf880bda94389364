"""Whether C's variables can stand for an image's registers. Licence: public domain (CC0).

A register of an image keeps its number from one call to the next at the same depth; a variable of C begins
with each call. Both agree if the image is definite. A running call has four kinds of facts:

- A variable of the function, which is not a result, was written in this call.
- An Arg gave the parameter of a function a value, and no Call has come since.
- The last Call was a call of a certain function, so this function's results can be read.
- An Out gave a result of the running function a value.

At a function's entry, only its parameters are known to be written. A command needs a fact of the first or
the third kind for each variable that it reads. Globals and sizes of memories need nothing. A Call needs a
value of each parameter, and a Ret needs a value of each result. An image is definite if no path leads to a
command that needs a fact which is not true on this path. An image that is not definite is refused, with the
position.

Each path begins at a function's entry. Commands that no path reaches are not translated, and need nothing."""
from __future__ import annotations

from typing import Dict, Iterable, List, NamedTuple, Tuple

from ..formats.image import Image
from ..formats.reading import Bad

from .flow import Blocks

Fact = Tuple[
    str, int
]  # what holds a value: a local, an argument, a result that came back, a result to give; the variable
LOCAL, ARGUMENT, RETURNED, GIVEN = "local", "argument", "result of a call", "result"


class Effect(NamedTuple):
    """Of a command: what it needs to be written, what it writes, and whether it is a Call."""

    needs: List[Fact]
    writes: List[Fact]
    calls: bool = False


class Inexact(Bad):
    """An image that C's variables can't stand for."""


class Function:
    """The assignments of one function."""

    def __init__(self, image: Image, number: int) -> None:
        self.image, self.function = image, image.functions[number]
        self.blocks = Blocks(image, self.function.entry)
        self.bits: Dict[Fact, int] = {}

    def read_fact(self, variable: int) -> Fact:
        """Who holds a variable that isn't shared: a result is that of a call."""
        return (LOCAL if self.function.has_local(variable) else RETURNED, variable)

    def effect(self, position: int) -> Effect:
        command, shared = self.image.commands[position], self.image.shared
        needs = [self.read_fact(value) for is_variable, value in command.operands
                 if is_variable and value >= shared]
        if command.kind in ("Set", "Load"):
            return Effect(needs, [(LOCAL, command.writes)] if command.writes >= shared else [])
        if command.kind == "Arg":
            return Effect(needs, [(ARGUMENT, command.writes)])
        if command.kind == "Out":
            return Effect(needs, [(GIVEN, command.writes)])
        if command.kind == "Call":
            callee = self.image.functions[self.image.function_at(command.targets[0])]
            arguments = [(ARGUMENT, variable) for variable in callee.parameter_variables]
            results = [(RETURNED, variable) for variable in callee.result_variables]
            return Effect(arguments, results, calls=True)
        if command.kind == "Ret":
            return Effect([(GIVEN, variable) for variable in self.function.result_variables], [])
        return Effect(needs, [])

    def mask(self, facts: Iterable[Fact]) -> int:
        """Facts as bits."""
        found = 0
        for fact in facts:
            found |= 1 << self.bits.setdefault(fact, len(self.bits))
        return found

    def after(self, first: int, known: int, check: bool) -> int:
        """What is written behind a block; what it needs is checked on the way."""
        for position in self.blocks.members[first]:
            effect = self.effect(position)
            if check:
                self.check(position, effect, known)
            if effect.calls:
                known &= ~self.lost
            known |= self.mask(effect.writes)
        return known

    def check(self, position: int, effect: Effect, known: int) -> None:
        for fact in effect.needs:
            if not known & self.mask([fact]):
                raise Inexact(f"{fact[0]} v{fact[1]} isn't written before it is needed at {position}")

    def run(self) -> None:
        """Takes the facts on all ways to each block together, then checks every block once."""
        for position in self.blocks.reached:
            effect = self.effect(position)
            self.mask(effect.needs + effect.writes)
        self.lost = sum(1 << bit for (kind, _), bit in self.bits.items() if kind in (ARGUMENT, RETURNED))
        function = self.function
        before = {
            function.entry: self.mask((LOCAL, variable) for variable in function.parameter_variables)
        }
        waiting = [function.entry]
        while waiting:
            first = waiting.pop()
            known = self.after(first, before[first], check=False)
            for target in self.blocks.following(first):
                former = before.get(target)
                merged = known if former is None else former & known
                if merged != former:
                    before[target] = merged
                    waiting.append(target)
        for first in sorted(before):
            self.after(first, before[first], check=True)


def check_exactness(image: Image) -> None:
    """Refuses an image that C's variables can't stand for."""
    for number in range(len(image.functions)):
        Function(image, number).run()
