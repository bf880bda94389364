"""Traces that take wrong guesses on purpose. Licence: public domain (CC0)."""
from __future__ import annotations

import random
from collections import Counter, defaultdict
from typing import Dict, Iterator, List, NamedTuple, Optional, Sequence, Tuple

from ..verdict.flow import is_bounds_test
from ..formats.image import TRAPS, Command, Image, Operand
from ..formats.operators import OUTSIDE
from ..formats.running import PAGE, Run, Start, freed, signed

ROOM, FORWARD_ROOM = 64, 32  # entries of the buffers of twin and of forward
LINES = 1_000_000  # the most directives of a trace
FAR = 1 << 30
TURNS = 6  # so many inner tests of wrong paths are guessed against their conditions, one in each trace
TOWARDS = 0.7  # how often a guess goes towards a goal


def bases(image: Image) -> List[int]:
    """Where each memory begins in the space of all memories, and where the last one ends."""
    found = [0]
    for memory in image.memories:
        found.append(found[-1] + memory.reserve * PAGE)
    return found


def nexts(position: int, command: Command) -> Tuple[int, ...]:
    """Where a command leads; a call also behind itself."""
    if command.kind in ("Ret", "Trap"):
        return ()
    if command.kind in ("Test", "Jump"):
        return command.targets
    return (*command.targets, position + 1)


def distances(image: Image, goals: Sequence[int]) -> Dict[int, int]:
    """How many commands each position is away from the nearest goal."""
    back: Dict[int, List[int]] = defaultdict(list)
    for position, command in enumerate(image.commands):
        for to in nexts(position, command):
            back[to].append(position)
    found = dict.fromkeys(goals, 0)
    work = list(found)
    for position in work:
        for former in back.get(position, ()):
            if former not in found:
                found[former] = found[position] + 1
                work.append(former)
    return found


class Recorded(Run):
    """A run that keeps the first address of each load, also of those on wrong paths."""

    def __init__(self, image: Image, function: int, start: Start) -> None:
        super().__init__(image, function, start)
        self.bases, self.reads = bases(image), {}

    def place(self, command: Command, address: int) -> int:
        """The place of an access in the space of all memories."""
        return self.bases[command.memory] + (address & 0xFFFFFFFF) + command.offset

    def access(self, command: Command) -> None:
        if command.kind == "Load":
            self.reads.setdefault(self.position - 1, self.place(command, self.value(command.operands[0])))
        super().access(command)


class Choices(NamedTuple):
    """How wrong paths guess: by chance, by distances to goals, and which inner test against its condition
    (from 1; 0 for none)."""

    chance: random.Random
    away: Dict[int, int]
    turn: int
    forwards: bool

    def guess(self, targets: Sequence[int], known: Optional[int], number: int) -> bool:
        """Whether the condition of a test is guessed to hold; known is its value, number counts the inner
        tests whose values are known."""
        yes, no = (self.away.get(to, FAR) for to in targets)
        if self.away and yes != no and self.chance.random() < TOWARDS:
            return yes < no
        if known is None:
            return self.chance.random() < 0.5
        return bool(known & 0xFFFFFFFF) ^ (number == self.turn)


class WrongPath:
    """What is fetched on a wrong path, and executed as soon as it can be. None is a value that isn't known
    there."""

    def __init__(self, run: Recorded, position: int, choices: Choices) -> None:
        self.run, self.position, self.choices = run, position, choices
        self.commands = run.image.commands
        self.depth = 0  # of calls, from that of the run
        self.chain = list(run.returns)
        self.written: Dict[Tuple[int, int], Optional[int]] = {}
        self.entering: Dict[int, Optional[int]] = {}
        self.waiting = False  # whether a store stands before that keeps loads waiting
        self.stored: List[range] = []  # places of stores that may be forwarded, whose values aren't followed
        self.tests = 0
        self.lines: List[str] = []
        self.entry = 1

    def key(self, variable: int, depth: int) -> Tuple[int, int]:
        return (0 if variable < self.run.bound else depth, variable)

    def value(self, operand: Operand) -> Optional[int]:
        """That of an operand, where it is known."""
        if not operand.is_variable:
            return operand.value
        variable, run = operand.value, self.run
        key = self.key(variable, self.depth)
        if key in self.written:
            return self.written[key]
        if variable < run.bound:
            return run.statics[variable]
        at = len(run.frames) - 1 + self.depth
        return run.frames[at].get(variable, 0) if 0 <= at < len(run.frames) else 0

    def write(self, variable: int, depth: int, value: Optional[int]) -> None:
        self.written[self.key(variable, depth)] = value

    def go(self) -> List[str]:
        """The directives."""
        room = FORWARD_ROOM if self.choices.forwards else ROOM
        while self.entry < room and self.step():
            self.entry += 1
        return self.lines

    def execute(self) -> None:
        self.lines.append(f"exec {self.entry}")

    def step(self) -> bool:
        """One command; false where the path ends."""
        position, command = self.position, self.commands[self.position]
        if position < TRAPS or command.kind == "Trap" or command.kind == "Ret" and not self.chain:
            return False
        self.position += 1
        values = [self.value(operand) for operand in command.operands]
        if command.kind == "Test":
            self.test(position, command, values[0])
            return True
        self.lines.append("fetch")
        if command.kind in ("Jump", "Call", "Ret"):
            self.leave(position, command)
        elif command.kind == "Store":
            self.store(command, values)
        elif command.kind == "Load":
            self.load(position, command, values[0])
        else:
            self.assign(command, values)
        return True

    def test(self, position: int, command: Command, value: Optional[int]) -> None:
        """An access is guessed to be within its bounds."""
        guess = False
        if not is_bounds_test(self.commands, position):
            self.tests += value is not None
            guess = self.choices.guess(command.targets, value, self.tests)
        self.lines.append(f"fetch {int(guess)}")
        self.position = command.targets[0 if guess else 1]
        if value is not None and bool(value & 0xFFFFFFFF) == guess:
            self.execute()

    def leave(self, position: int, command: Command) -> None:
        """A jump, a call or a return."""
        if command.kind == "Ret":
            self.position, self.depth = self.chain.pop(), self.depth - 1
            return
        self.position = command.targets[0]
        if command.kind == "Call":
            self.chain.append(position + 1)
            self.depth += 1
            for variable, value in self.entering.items():
                self.write(variable, self.depth, value)
            self.entering = {}

    def store(self, command: Command, values: Sequence[Optional[int]]) -> None:
        """It keeps loads waiting, unless it is forwarded."""
        known = None not in values
        self.waiting = self.waiting or not (self.choices.forwards and known)
        if known:
            self.execute()
            at = self.run.place(command, values[0])
            self.stored.append(range(at, at + self.run.widths[command.operator]))

    def load(self, position: int, command: Command, address: Optional[int]) -> None:
        """It is executed where its address is known and no store waits that meets it."""
        value = None
        if address is not None and not self.waiting:
            at = self.run.place(command, address)
            places = range(at, at + self.run.widths[command.operator])
            if not any(places.start < one.stop and one.start < places.stop for one in self.stored):
                self.execute()
                self.run.reads.setdefault(position, at)
                value = None if command.is_protected else self.loaded(command, places)
        self.write(command.writes, self.depth, value)

    def loaded(self, command: Command, places: range) -> int:
        """The value there."""
        value = int.from_bytes(bytes(map(self.byte, places)), "little")
        if command.operator in self.run.extends:
            narrow, wide = self.run.extends[command.operator]
            value = signed(value, narrow) & ((1 << wide) - 1)
        return value

    def byte(self, at: int) -> int:
        for base, space in zip(self.run.bases, self.run.spaces):
            if base <= at < base + len(space):
                return space[at - base]
        return 0

    def assign(self, command: Command, values: Sequence[Optional[int]]) -> None:
        """Set, Arg and Out."""
        value = None
        if None not in values:
            self.execute()
            if not command.is_protected:
                value = self.run.meanings[command.operator](*values) if command.kind == "Set" else values[0]
        if command.kind == "Arg":
            self.entering[command.writes] = value
        else:
            self.write(command.writes, self.depth - (command.kind == "Out"), value)


class WrongGuesses:
    """A run in the order of the program, with wrong paths before its tests, each of which ends with an empty
    buffer."""

    def __init__(self, run: Recorded, choices: Choices, each: int) -> None:
        self.run, self.choices, self.each = run, choices, each
        self.times: Counter = Counter()
        self.lines: List[str] = []
        self.paths: List[Tuple[int, int]] = []  # the lines of each wrong path, from and behind
        self.cut = False  # whether the trace ends before its run

    def take(self, position: int, command: Command, taken: bool) -> bool:
        """Goes the wrong way from a test, if it is worth it."""
        wrong, away = command.targets[1 if taken else 0], self.choices.away
        if self.times[position] >= self.each or wrong < TRAPS or (away and away.get(wrong, FAR) >= ROOM):
            return False
        path = WrongPath(self.run, wrong,
                         self.choices._replace(turn=(self.choices.turn + self.times[position]) % TURNS))
        self.times[position] += 1
        first = len(self.lines)
        self.lines += [f"fetch {int(not taken)}", *path.go(), "exec 0", "retire"]
        self.paths.append((first, len(self.lines)))
        return True

    def trace(self) -> List[str]:
        """The directives, at most as many as a trace may have."""
        steps = self.run.steps(LINES)
        for position, command, taken in steps:
            if len(self.lines) > LINES:
                break
            if position < TRAPS or command.kind in ("Jump", "Call", "Ret", "Trap"):
                self.lines += ("fetch", "retire")
            elif command.kind == "Test":
                if not self.take(position, command, taken):
                    self.lines += (f"fetch {int(taken)}", "exec 0", "retire")
            elif command.kind == "Set" and command.operator == OUTSIDE:
                self.access(command, steps)
            else:
                self.lines += ("fetch", "exec 0", *freed(0, command), "retire")
        self.cut = len(self.lines) > LINES or not self.run.left
        return self.lines[:LINES]

    def access(self, bounds: Command, steps: Iterator[tuple]) -> None:
        """Bounds, their test, and the access, which is executed first where it is within them."""
        position, test, outside = next(steps, (0, None, True))
        if outside:
            self.lines += ("fetch", "exec 0", *freed(0, bounds), "retire")
            if test is not None and not self.take(position, test, True):
                self.lines += ("fetch 1", "exec 0", "retire")
            return
        _, access, _ = next(steps, (0, None, None))
        if access is not None:
            self.lines += ("fetch", "fetch 0", "fetch", "exec 2", "exec 0", *freed(0, bounds), "exec 1",
                           *freed(2, access), "retire", "retire", "retire")


class Choosing:
    """How the wrong paths of one function's traces are chosen: a number for each trace."""

    def __init__(self, image: Image, goals: Sequence[int], seed: int, forwards: bool) -> None:
        self.seed, self.forwards = seed, forwards
        self.away = distances(image, goals) if goals else {}

    def of(self, run: Recorded, number: int) -> WrongGuesses:
        """Every second one goes towards the goals."""
        choices = Choices(random.Random(f"{self.seed} {number}"), self.away if number % 2 else {}, number,
                          self.forwards)
        return WrongGuesses(run, choices, 2 + number // 2)
