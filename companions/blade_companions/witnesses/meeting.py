"""A run in the order of the program that follows which bytes of its start each value comes of, and where an
observer meets one: what one run shows, not what is proved. Licence: public domain (CC0)."""
from __future__ import annotations

from typing import Dict, Iterator, List, Sequence, Set, Tuple

from ..verdict.flow import Origin, demanded_variables
from ..formats.image import Command, Image, Operand
from ..formats.operators import DIVISIONS
from .pairs import Secret
from ..formats.running import Step
from .steering import Recorded

Key = Tuple[int, int]  # a position and a variable, as an end has them
BITS = 1_024  # of a mark, for bytes


class Meeting(Recorded):
    """A mark of a value is a number: a bit for each byte that may change, and above these one for each cause
    through whose sites it came since it was loaded. A cause's bit stands with the bits of bytes alone. If
    more bytes may change than there are bits, a bit is that of several bytes in a row."""

    def __init__(self, image: Image, function: int, secret: Secret,
                 causes: Sequence[Sequence[Origin]] = ()) -> None:
        super().__init__(image, function, secret.start)
        self.size = len(secret.first)
        self.row = max(1, -(-self.size // BITS))  # bytes of a bit
        bits = -(-self.size // self.row)
        self.changed = (1 << bits) - 1
        self.causes = [1 << bits + number for number in range(len(causes))]
        self.through: Dict[int, int] = {}
        declared: Dict[int, int] = {}
        for bit, origins in zip(self.causes, causes):
            for origin in origins:
                to, key = (declared,
                           origin.variable) if origin.position is None else (self.through, origin.position)
                to[key] = to.get(key, 0) | bit
        self.demanded = demanded_variables(image)
        self.fixed: Dict[int, int] = {}  # marks of globals
        self.marks: List[Dict[int, int]] = [{}, {}]
        self.given: Dict[int, int] = {}
        self.bytes: List[Dict[int, int]] = [{} for _ in image.memories]
        self.reached: Set[int] = set()
        self.first: Dict[Key, int] = {}  # what was met first, in the order of the run
        self.met: Dict[Key, int] = {}  # all that was met
        self.loads: Dict[int, int] = {}  # what each load of a secret memory loaded
        self.count = 0
        self.ways = {"Set": self.follow_set, "Test": self.follow_test, "Load": self.follow_load,
                     "Store": self.follow_store, "Arg": self.follow_arg, "Out": self.follow_out,
                     "Call": self.follow_call, "Ret": self.follow_ret}
        self.begin(image.functions[function].first, secret, declared)

    def begin(self, param: int, secret: Secret, declared: Dict[int, int]) -> None:
        """The marks of the start; param is the variable of the first parameter."""
        marks = [1 << number for number in range(-(-self.size // self.row))]
        for one, at, _ in secret.pieces(secret.first):
            if one.memory is None:
                variable = param + one.offset
                bits = {marks[place // self.row] for place in range(at, at + one.size)}
                self.marks[-1][variable] = sum(bits) | declared.get(variable, 0)
            else:
                self.bytes[one.memory].update((one.offset + place, marks[(at + place) // self.row])
                                              for place in range(one.size))

    def places(self, mark: int) -> Iterator[int]:
        """The bytes of a mark."""
        for number in range(-(-self.size // self.row)):
            if mark >> number & 1:
                yield from range(number * self.row, min(self.size, (number + 1) * self.row))

    def mark(self, operand: Operand) -> int:
        """That of an operand."""
        if not operand[0]:
            return 0
        return (self.fixed if operand[1] < self.bound else self.marks[-1]).get(operand[1], 0)

    def put(self, to: Dict[int, int], position: int, variable: int, mark: int) -> None:
        """A site writes a variable; one that is demanded public is met there."""
        if mark:
            mark |= self.through.get(position, 0)
        if variable in self.demanded:
            self.meet(position, variable, mark)
        if mark:
            to[variable] = mark
        else:
            to.pop(variable, None)

    def meet(self, position: int, variable: int, mark: int) -> None:
        """What a command has in a variable when the run comes to it."""
        self.reached.add(position)
        if mark:
            key = (position, variable)
            self.first.setdefault(key, mark & self.changed)
            self.met[key] = self.met.get(key, 0) | mark

    def see(self, position: int, operand: Operand) -> int:
        """An observer learns of an operand."""
        mark = self.mark(operand)
        self.meet(position, operand[1], mark)
        return mark

    def step(self) -> Step:
        command = self.image.commands[self.position]
        self.count += 1
        follow = self.ways.get(command.kind)
        if follow:
            follow(self.position, command)
        return super().step()

    def follow_set(self, position: int, command: Command) -> None:
        mark = 0
        for operand in command.operands:
            mark |= self.see(position, operand) if command.operator in DIVISIONS else self.mark(operand)
        self.put(self.fixed if command.writes < self.bound else self.marks[-1], position, command.writes,
                 mark)

    def follow_test(self, position: int, command: Command) -> None:
        self.see(position, command.operands[0])

    def touched(self, command: Command) -> range:
        """The bytes of an access."""
        at = (self.value(command.operands[0]) & 0xFFFFFFFF) + command.offset
        return range(at, at + self.widths[command.operator])

    def follow_load(self, position: int, command: Command) -> None:
        mark, marks = self.see(position, command.operands[0]), self.bytes[command.memory]
        for place in self.touched(command):
            mark |= marks.get(place, 0)
        mark &= self.changed
        if self.image.memories[command.memory].is_secret:
            self.loads[position] = self.loads.get(position, 0) | mark
        self.put(self.fixed if command.writes < self.bound else self.marks[-1], position, command.writes,
                 mark)

    def follow_store(self, position: int, command: Command) -> None:
        mark = self.see(position, command.operands[0]) | self.mark(command.operands[1])
        if not self.image.memories[command.memory].is_secret:
            self.see(position, command.operands[1])
        marks = self.bytes[command.memory]
        for place in self.touched(command):
            if mark:
                marks[place] = mark
            else:
                marks.pop(place, None)

    def follow_arg(self, position: int, command: Command) -> None:
        self.put(self.given, position, command.writes, self.mark(command.operands[0]))

    def follow_out(self, position: int, command: Command) -> None:
        self.put(self.marks[-2], position, command.writes, self.mark(command.operands[0]))

    def follow_call(self, _: int, __: Command) -> None:
        self.marks.append(self.given)
        self.given = {}

    def follow_ret(self, _: int, __: Command) -> None:
        if self.returns:
            self.marks.pop()

    def go(self, most: int) -> "Meeting":
        """So many commands, or to the run's end."""
        for _ in range(most):
            if self.left:
                break
            self.step()
        return self
