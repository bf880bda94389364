"""Runs of an image in the order of its program: what they execute, and traces of them. Licence: public domain
(CC0)."""
from __future__ import annotations

import re
from collections import Counter
from dataclasses import dataclass, field
from typing import Callable, Dict, Iterator, List, Optional, Sequence, Tuple

from .image import TRAPS, Command, Image, Operand
from .operators import ACCESS_NAMES, DIVISIONS, MOVE, OPERATIONS, OPERATORS, OUTSIDE, SELECT, width_of
from .reading import MOST_CALLS, Bad

PAGE = 65536
# a position, its command, and whether the condition of a Test isn't 0
Step = Tuple[int, Command, Optional[bool]]


def signed(value: int, bits: int) -> int:
    value &= (1 << bits) - 1
    return value - (1 << bits) if value >> (bits - 1) else value


def quotient(a: int, b: int) -> int:
    """Rounded towards zero."""
    whole = abs(a) // abs(b)
    return whole if (a < 0) == (b < 0) else -whole


def rotated(a: int, by: int, bits: int) -> int:
    by %= bits
    return a << by | a >> (bits - by)


ARITHMETIC: Dict[str, Callable[[int, int, int], int]] = {
    "add": lambda a, b, n: a + b, "sub": lambda a, b, n: a - b, "mul": lambda a, b, n: a * b,
    "and": lambda a, b, n: a & b, "or": lambda a, b, n: a | b, "xor": lambda a, b, n: a ^ b,
    "shl": lambda a, b, n: a << b % n, "shr_u": lambda a, b, n: a >> b % n, "shr_s": lambda a, b,
    n: signed(a, n) >> b % n,
    "rotl": lambda a, b, n: rotated(a, b, n), "rotr": lambda a, b, n: rotated(a, -b, n),
    "div_u": lambda a, b, n: a // b if b else 0, "rem_u": lambda a, b, n: a % b if b else 0,
    "div_s": lambda a, b, n: quotient(signed(a, n), signed(b, n)) if b else 0,
    "rem_s": lambda a, b, n: signed(a, n) - signed(b, n) * quotient(signed(a, n), signed(b, n)) if b else 0,
    "eq": lambda a, b, n: a == b, "ne": lambda a, b, n: a != b, "lt_u": lambda a, b, n: a < b,
    "gt_u": lambda a, b, n: a > b,
    "le_u": lambda a, b, n: a <= b, "ge_u": lambda a, b, n: a >= b,
    "lt_s": lambda a, b, n: signed(a, n) < signed(b, n), "gt_s": lambda a, b, n: signed(a, n) > signed(b, n),
    "le_s": lambda a, b, n: signed(a, n) <= signed(b, n), "ge_s": lambda a, b,
    n: signed(a, n) >= signed(b, n),
}
SINGLE: Dict[str, Callable[[int, int], int]] = {
    "eqz": lambda a, n: a == 0, "clz": lambda a, n: n - a.bit_length(), "ctz": lambda a,
    n: (a & -a).bit_length() - 1 if a else n,
    "popcnt": lambda a, n: bin(a).count("1"), "wrap_i64": lambda a, n: a, "extend_i32_s": lambda a,
    n: signed(a, 32),
    "extend_i32_u": lambda a, n: a, "extend8_s": lambda a, n: signed(a, 8), "extend16_s": lambda a,
    n: signed(a, 16),
    "extend32_s": lambda a, n: signed(a, 32),
}


def meaning(operator: int) -> Callable[..., int]:
    """An operator on the values of its operands."""
    if operator == MOVE:
        return lambda a: a
    if operator == OUTSIDE:
        return lambda a, pages, reach: int(a + reach > pages * PAGE)
    if operator == SELECT:
        return lambda a, b, c: a if c & 0xFFFFFFFF else b
    width, name = OPERATORS[operator].split(".")
    bits = int(width[1:])
    mask = (1 << bits) - 1
    narrow = mask if not name.startswith("extend_i32") else 0xFFFFFFFF
    if name in SINGLE:
        one = SINGLE[name]
        return (lambda a: int(one(a & narrow, bits)) & mask) if name != "wrap_i64" else (lambda a: a & mask)
    two = ARITHMETIC[name]
    return lambda a, b: int(two(a & mask, b & mask, bits)) & mask


@dataclass
class Start:
    """Arguments and first contents of memories, by the lines of a start file."""

    arguments: List[int] = field(default_factory=list)
    contents: List[Tuple[int, int, bytes]] = field(default_factory=list)


ARGUMENT = re.compile(r"arg ([0-9]{1,40})")
CONTENTS = re.compile(r"memory ([0-9]{1,40}) ([0-9]{1,40}) ([0-9a-fA-F]+)")


def read_start(text: str) -> Start:
    start, lines = Start(), text.split("\n")
    for number, line in enumerate(lines[:-1] if lines[-1] == "" else lines, 1):
        argument, contents = ARGUMENT.fullmatch(line), CONTENTS.fullmatch(line)
        if argument:
            start.arguments.append(int(argument[1]))
        elif contents and len(contents[3]) % 2 == 0:
            start.contents.append((int(contents[1]), int(contents[2]), bytes.fromhex(contents[3])))
        else:
            raise Bad(f"start: line {number}")
    return start


def start_text(arguments: Sequence[int], contents: Sequence[Tuple[int, int, bytes]]) -> str:
    """A start file of arguments and bytes: memory, offset, bytes."""
    return "\n".join([f"arg {value}" for value in arguments]
                     + [f"memory {number} {offset} {data.hex()}" for number, offset, data in contents]) + "\n"


def fits(image: Image, function: int, start: Start) -> None:
    """Refuses a start that isn't one of a function."""
    types = image.functions[function].types
    if len(start.arguments) != len(types):
        raise Bad(f"start: arguments {len(start.arguments)}, and the function has {len(types)}")
    if any(value >> (32 if kind == 0x7F else 64) for kind, value in zip(types, start.arguments)):
        raise Bad("start: an argument is too great")
    for number, offset, data in start.contents:
        if number >= len(image.memories) or offset + len(data) > image.memories[number].pages * PAGE:
            raise Bad(f"start: bytes outside of the memory {number}")


class Run:
    """A run of one function of an image."""

    def __init__(self, image: Image, function: int, start: Start) -> None:
        fits(image, function, start)
        self.image, defined = image, image.functions[function]
        self.spaces = [bytearray(memory.reserve * PAGE) for memory in image.memories]
        for space, memory in zip(self.spaces, image.memories):
            for number, row in memory.rows:
                space[number * 16 : number * 16 + 16] = row
        for number, offset, data in start.contents:
            self.spaces[number][offset : offset + len(data)] = data
        self.statics = dict(enumerate(image.first_globals + [memory.pages for memory in image.memories]))
        self.bound = len(self.statics)
        self.frames: List[Dict[int, int]] = [{}, {defined.first + at: value for at,
                                                  value in enumerate(start.arguments)}]
        self.entering: Dict[int, int] = {}
        self.returns: List[int] = []
        self.position, self.left = defined.entry, False
        self.meanings = {code: meaning(code) for code in OPERATIONS}
        self.widths = {code: width_of(name) for code, name in ACCESS_NAMES.items()}
        self.extends = {code: (width_of(name) * 8, int(name[1:3])) for code,
                        name in ACCESS_NAMES.items() if name.endswith("_s")}

    def value(self, operand: Operand) -> int:
        if not operand[0]:
            return operand[1]
        variable = operand[1]
        return self.statics[variable] if variable < self.bound else self.frames[-1].get(variable, 0)

    def write(self, variable: int, value: int) -> None:
        if variable < self.bound:
            self.statics[variable] = value
        else:
            self.frames[-1][variable] = value

    def step(self) -> Step:
        """Executes one command, and gives its position, it, and where a Test leads whether its condition
        isn't 0."""
        position = self.position
        command = self.image.commands[position]
        self.position = position + 1
        kind, taken = command.kind, None
        if kind == "Set":
            self.write(command.writes, self.meanings[command.operator](*map(self.value, command.operands)))
        elif kind == "Test":
            taken = bool(self.value(command.operands[0]) & 0xFFFFFFFF)
            self.position = command.targets[0 if taken else 1]
        elif kind == "Jump":
            self.position = command.targets[0]
        elif kind in ("Load", "Store"):
            self.access(command)
        else:
            self.move(command)
        return position, command, taken

    def access(self, command: Command) -> None:
        at, size = (
            self.value(command.operands[0]) & 0xFFFFFFFF) + command.offset, self.widths[command.operator]
        space = self.spaces[command.memory]
        if command.kind == "Store":
            value = self.value(command.operands[1]) & ((1 << 8 * size) - 1)
            space[at : at + size] = value.to_bytes(size, "little")
            return
        value = int.from_bytes(space[at : at + size], "little")
        if command.operator in self.extends:
            narrow, wide = self.extends[command.operator]
            value = signed(value, narrow) & ((1 << wide) - 1)
        self.write(command.writes, value)

    def move(self, command: Command) -> None:
        """Arg, Out, Call, Ret and Trap."""
        if command.kind == "Arg":
            self.entering[command.writes] = self.value(command.operands[0])
        elif command.kind == "Out":
            self.frames[-2][command.writes] = self.value(command.operands[0])
        elif command.kind == "Call" and len(self.returns) + 1 < MOST_CALLS:
            self.returns.append(self.position)
            self.position = command.targets[0]
            self.frames.append(self.entering)
            self.entering = {}
        elif command.kind == "Ret" and self.returns:
            self.position = self.returns.pop()
            self.frames.pop()
        else:
            self.left = True

    def steps(self, most: int) -> Iterator[Step]:
        """Its steps to its end, or so many."""
        for _ in range(most):
            if self.left:
                return
            yield self.step()


def counts(run: Run, most: int) -> Counter:
    """How many commands of each kind a run executes, and how many protects."""
    found: Counter = Counter()
    for _, command, _ in run.steps(most):
        found[command.kind] += 1
        found["commands"] += 1
        found["protects"] += command.mark >= 8
        found["divisions"] += command.kind == "Set" and command.operator in DIVISIONS
    return found


def freed(entry: int, command: Command) -> List[str]:
    """A protected value is held back at first, and set free by executing it once more."""
    return [f"exec {entry}"] * (command.mark >= 8)


def traced(run: Run, most: int) -> Iterator[str]:
    """Directives in the order of the program; each access is executed ahead of its bounds test."""
    steps = run.steps(most)
    for position, command, taken in steps:
        if position < TRAPS or command.kind in ("Jump", "Call", "Ret", "Trap"):
            yield from ("fetch", "retire")
        elif command.kind == "Test":
            yield from (f"fetch {int(taken)}", "exec 0", "retire")
        elif command.kind == "Set" and command.operator == OUTSIDE:
            yield from access_trace(command, steps)
        else:
            yield from ("fetch", "exec 0", *freed(0, command), "retire")


def access_trace(bounds: Command, steps: Iterator[Step]) -> Iterator[str]:
    """The bounds, their test and the access behind them, which is executed first. Nothing, if the steps that
    may be taken end before."""
    _, _, outside = next(steps, (0, None, None))
    if outside is None:
        return
    if outside:
        yield from ("fetch", "fetch 1", "exec 0", *freed(0, bounds), "exec 1", "retire", "retire")
        return
    _, access, _ = next(steps, (0, None, None))
    if access is None:
        return
    yield from ("fetch", "fetch 0", "fetch", "exec 2", "exec 0", *freed(0, bounds), "exec 1",
                *freed(2, access), "retire", "retire", "retire")
