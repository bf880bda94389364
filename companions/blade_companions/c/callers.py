"""Whether the calls of labelled functions keep to their labels, as the linked module and its image have them:
what is given for a secret parameter is secret in the caller already, and no call of the source is gone.
Licence: public domain (CC0)."""
from __future__ import annotations

from collections import defaultdict
from typing import Dict, Iterable, List, NamedTuple, Sequence, Set, Tuple

from ..formats.image import Command, Image, Operand
from ..formats.instructions import CALL, CALL_INDIRECT, read_instruction, read_locals
from ..formats.labels import Entry
from ..formats.module import FUNCTION, Module
from ..formats.operators import MOVE, SELECT
from ..formats.reading import Reader
from ..verdict.flow import declared_origins, find
from .units import starts_of, units_of


class Given(NamedTuple):
    """What a call gives for a secret parameter: where, the caller, the function and the parameter."""

    position: int
    caller: int
    function: int
    parameter: int


class Secrets:
    """The variables of an image that hold secrets whichever way their value came: not those that hold one by
    one way and a public value by another."""

    def __init__(self, image: Image) -> None:
        self.image = image
        self.origins = {origin.variable for origin in declared_origins(image)}
        self.writers: Dict[int, List[Command]] = defaultdict(list)
        self.readers: Dict[int, Set[int]] = defaultdict(set)
        for command in image.commands:
            if command.writes >= 0:
                self.writers[command.writes].append(command)
                for variable in command.reads:
                    self.readers[variable].add(command.writes)
        exported = {variable for function in image.entries.values() for variable in self.params(function)}
        self.secret = set(find(image).secret.came)
        public = {x for x in exported | set(range(len(image.secret_globals) + len(image.memories)))
                  if x not in self.origins}
        self.remove(public & self.secret)

    def params(self, function: int) -> range:
        one = self.image.functions[function]
        return range(one.first, one.first + one.params)

    def remove(self, public: Set[int]) -> None:
        """Takes those out that a public value reaches, until none is left."""
        work = list(public) + [x for x in self.secret if x not in self.origins and not self.holds(x)]
        while work:
            variable = work.pop()
            if variable in self.secret:
                self.secret.discard(variable)
                work += [x for x in self.readers[variable] if x in self.secret and x not in self.origins
                         and not self.holds(x)]

    def holds(self, variable: int) -> bool:
        return all(self.is_secret(command) for command in self.writers[variable])

    def is_secret(self, command: Command) -> bool:
        """Whether what a command writes is secret, or a constant that stands beside secrets."""
        if command.kind == "Load":
            return self.image.memories[command.memory].is_secret
        operands = command.operands
        if command.kind == "Set" and command.operator == SELECT:
            return (operands[-1].is_variable and operands[-1].value in self.secret
                    or all(self.fits(one) for one in operands[:2]))
        if command.kind in ("Arg", "Out") or command.operator == MOVE:
            return self.fits(operands[0])
        return any(x in self.secret for x in command.reads)

    def fits(self, operand: Operand) -> bool:
        return not operand.is_variable or operand.value in self.secret


def public_arguments(image: Image, allowed: Iterable[int]) -> List[Given]:
    """The calls that give a public value for a parameter that is declared secret, but for those of some
    functions."""
    goals: Dict[int, Tuple[int, int]] = {}
    for number, function in enumerate(image.functions):
        if number not in allowed:
            goals.update({function.first + at: (number, at)
                          for at, is_secret in enumerate(function.secret_params) if is_secret})
    given = [(position, command) for position, command in enumerate(image.commands) if command.kind == "Arg"
             and command.writes in goals]
    if not given:
        return []
    secret = Secrets(image).secret
    return [Given(position, image.function_at(position), *goals[command.writes])
            for position, command in given
            if not command.operands[0].is_variable or command.operands[0].value not in secret]


def called_in(module: Module) -> Dict[int, Set[int]]:
    """Of each function those that its code may call, by the table all that stand there."""
    imported = len(module.imported(FUNCTION))
    listed = {one for element in module.elements for one in element.functions}
    return {imported + at: called_by(Reader(module.data, *body), listed)
            for at, body in enumerate(module.bodies)}


def called_by(reader: Reader, listed: Set[int]) -> Set[int]:
    found: Set[int] = set()
    list(read_locals(reader))
    while reader.place < reader.end:
        one = read_instruction(reader)
        if one.code == CALL:
            found.add(one.numbers[0])
        elif one.code == CALL_INDIRECT:
            found |= listed
    return found


def reached_from(function: int, called: Dict[int, Set[int]]) -> Set[int]:
    found: Set[int] = set()
    work = [function]
    while work:
        new = called.get(work.pop(), set()) - found
        found |= new
        work += new
    return found


def gone(linked: Module, entries: Sequence[Entry], allowed: Iterable[int]) -> List[Tuple[int, int]]:
    """The functions whose source leads to a labelled function, and whose code in the module doesn't, each
    with that function."""
    wanted = {numbers[0] for kind, numbers in entries if len(numbers) == 2} - set(allowed)
    units, starts, called = units_of(linked), starts_of(linked), called_in(linked)
    found = []
    for unit in units:
        for symbol, place in unit.calls:
            targets = {starts.get(label.place, -1) for one in units for label in one.labels
                       if label.symbol == symbol and (one is unit or label.sort != "local")} & wanted
            caller = starts.get(place, -1)
            if (caller >= 0 and targets and caller not in targets
                    and not targets & reached_from(caller, called)):
                found.append((caller, min(targets)))
    return list(dict.fromkeys(found))
