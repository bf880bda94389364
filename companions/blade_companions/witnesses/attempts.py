"""What a search tries: pairs of secrets on traces, in an order that a seed gives. Each attempt is judged by
the program. Licence: public domain (CC0)."""
from __future__ import annotations

import os
import random
from dataclasses import dataclass
from itertools import islice
from typing import Callable, Dict, Iterator, List, NamedTuple, Optional, Sequence, Tuple

from ..verdict.flow import Findings
from ..formats.image import Image
from .meeting import Meeting
from .pairs import Pair, Secret, drawn, flipped, is_wide, turned
from .program import Outcome, Program
from ..formats.running import read_start, traced
from .steering import LINES, Choosing, Recorded, WrongGuesses

# pairs at what the run met, pairs at first and in all, traces with wrong guesses
AIMED, FEW, PAIRS, WRONG = 24, 8, 40, 8
VALUES = 40  # of a public argument


class Attempt(NamedTuple):
    """Secrets that are compared with a first one: on the trace that predict chooses, on one with wrong
    guesses, which have numbers, or by whole runs."""

    first: bytes
    others: Tuple[bytes, ...]
    wrong: Optional[int] = None
    arguments: Optional[Tuple[int, ...]] = None
    whole: bool = False


class Tried(NamedTuple):
    """What came of an attempt: how many comparisons, the secret that is told apart, the trace's file, its
    wrong paths, whether it ended before its run; and what whole runs show."""

    compared: int
    other: Optional[bytes] = None
    trace: str = ""
    paths: Sequence[Tuple[int, int]] = ()
    cut: bool = False
    differs: str = ""


@dataclass
class Sought:
    """What is looked through, and by what."""

    program: Program
    image: Image
    function: int
    secret: Secret
    findings: Findings
    meeting: Meeting
    seed: int
    public: bool  # whether public arguments change, too
    given: str = ""  # the trace of the start file's own secret, once it is made
    given_cut: bool = False
    choosing: Optional[Choosing] = None

    @property
    def forwards(self) -> bool:
        return self.program.judge == "forward"

    def text(self, secret: bytes, arguments: Optional[Sequence[int]] = None) -> str:
        return self.secret.text(secret, arguments)

    def recorded(self, secret: bytes, arguments: Optional[Sequence[int]] = None) -> Recorded:
        """The run from these bytes."""
        return Recorded(self.image, self.function, read_start(self.text(secret, arguments)))

    def begin(self) -> None:
        """What all attempts share."""
        self.given = f"{self.program.folder}/given"
        self.given_cut = self.chosen(self.secret.first, self.given)
        refused = {end.position for end in self.findings.refused}
        self.choosing = Choosing(self.image, sorted(refused - self.meeting.reached or refused), self.seed,
                                 self.forwards)

    def chosen(self, first: bytes, path: str) -> bool:
        """Writes a trace without guesses of ours; whether it ends before its run. The buffer of `forward` has
        less room than that of predict."""
        if not self.forwards:
            return not self.program.predict(self.text(first), path)
        run = self.recorded(first)
        with open(path, "w", encoding="ascii") as file:
            file.writelines(f"{line}\n" for line in islice(traced(run, LINES), LINES))
        return not run.left

    # One attempt.

    def attempt(self, one: Attempt, path: str) -> Tried:
        """What comes of one; path is for the trace that it makes."""
        if one.whole:
            return self.by_whole_runs(one)
        if one.wrong is not None:
            return self.by_wrong_guesses(one, path)
        if one.first == self.secret.first:
            path, cut = self.given, self.given_cut
        else:
            cut = self.chosen(one.first, path)
        return self.first_apart(one, path)._replace(cut=cut)

    def first_apart(self, one: Attempt, trace: str) -> Tried:
        """The first of the secrets that the program tells apart on a trace, which is removed where there is
        none."""
        for count, other in enumerate(one.others, 1):
            if self.program.told_apart(trace, self.text(one.first, one.arguments),
                                       self.text(other, one.arguments)):
                return Tried(count, other, trace)
        if trace != self.given:
            os.remove(trace)
        return Tried(len(one.others))

    def by_wrong_guesses(self, one: Attempt, path: str) -> Tried:
        """On a trace that takes wrong guesses."""
        made = self.wrong(one.wrong, one.arguments)
        lines = made.trace()
        with open(path, "w", encoding="ascii") as file:
            file.writelines(f"{line}\n" for line in lines)
        return self.first_apart(one, path)._replace(paths=made.paths, cut=made.cut)

    def wrong(self, number: int, arguments: Optional[Sequence[int]]) -> WrongGuesses:
        """The trace with wrong guesses that has a number."""
        return self.choosing.of(self.recorded(self.secret.first, arguments), number)

    def by_whole_runs(self, one: Attempt) -> Tried:
        """What whole runs show, though no observer may: secrets in public memories or demanded results, and
        other ways than the first run's."""
        first = self.program.run(self.text(one.first))
        for count, other in enumerate(one.others, 1):
            differs = self.run_differs(first, self.program.run(self.text(other)))
            if differs:
                return Tried(count, other, differs=differs)
        return Tried(len(one.others))

    def run_differs(self, first: Outcome, second: Outcome) -> str:
        """How two whole runs differ, in words."""
        for index in (index for function, index in self.image.demands if function == self.function):
            if first.end == second.end == "returned" and first.results[index] != second.results[index]:
                return (f"result {index}, which is demanded public: {first.results[index]} and "
                        f"{second.results[index]}")
        for memory, offset in sorted(first.rows.keys()
                                     | second.rows.keys()) if "spent" not in (first.end, second.end) else ():
            one, other = (run.rows.get((memory, offset), "as at first") for run in (first, second))
            if one != other and not self.image.memories[memory].is_secret:
                return f"memory {memory}, which is public, from byte {offset} on: {one} and {other}"
        if first.end != second.end:
            return f"its end: {first.end} and {second.end}"
        for site in sorted(first.counts.keys() | second.counts.keys()):
            one, other = first.counts.get(site, 0), second.counts.get(site, 0)
            if one != other:
                return f"position {site} is executed {one} and {other} times"
        return ""

    # All attempts, in their order.

    def attempts(self) -> Iterator[Attempt]:
        """The same ones for the same seed."""
        chance, first = random.Random(self.seed), self.secret.first
        yield Attempt(first, (turned(first), flipped(first, 0), drawn(chance, len(first))), whole=True)
        whole, pairs = self.meeting.left, self.secret.pairs(chance)
        met = bool(self.meeting.first)
        few = FEW if met or not whole else 2
        for one, other in [*islice(self.aimed(chance), AIMED), *islice(pairs, few)]:
            yield Attempt(one, (other,))
        for number in range(WRONG):
            yield self.wrong_attempt(chance, number, None)
        if self.public:
            for arguments in self.arguments(chance):
                for number in (0, 1, 2):
                    yield self.wrong_attempt(chance, number, arguments)
        if met or not whole:
            for one, other in islice(pairs, PAIRS - few):
                yield Attempt(one, (other,))

    def wrong_attempt(self, chance: random.Random, number: int,
                      arguments: Optional[Tuple[int, ...]]) -> Attempt:
        """One on a trace with wrong guesses."""
        first = self.secret.first
        return Attempt(first, (turned(first), drawn(chance, len(first))), number, arguments)

    def aimed(self, chance: random.Random) -> Iterator[Pair]:
        """Changes of the bytes that an end meets, those first that none before it met."""
        first, covered = self.secret.first, 0
        changes: Tuple[Callable[[int], int], ...] = (
            lambda byte: byte ^ 1, lambda byte: byte ^ 0x80, lambda byte: 0, lambda byte: 0xFF,
            lambda byte: chance.randrange(256))
        for mark in islice(self.meeting.first.values(), 6):
            new = mark & ~covered or mark
            covered |= mark
            for change in changes:
                other = bytearray(first)
                for place in self.meeting.places(new):
                    other[place] = change(other[place])
                if bytes(other) != first:
                    yield first, bytes(other)

    def arguments(self, chance: random.Random) -> Iterator[Tuple[int, ...]]:
        """Public arguments with which a load would read a secret byte, were its bounds open: by how its
        address goes with each argument. Then others that are far out."""
        function, given = self.image.functions[self.function], self.secret.start.arguments
        targets = [self.meeting.bases[one.memory] + one.offset
                   for one in self.secret.ranges if one.memory is not None]
        public = [index for index, secret in enumerate(function.secret_params) if not secret]
        first = self.reads(given)
        for index in public:
            values: List[int] = []
            for step in (1, -1, 4):
                values += self.leading(index, step, targets, first)
            for value in islice(dict.fromkeys(values), VALUES):
                yield (*given[:index], value, *given[index + 1 :])
        for _ in range(4 * bool(public)):
            yield self.far(chance, public, targets)

    def limit(self, index: int) -> int:
        return 1 << (64 if is_wide(self.image, self.function, index) else 32)

    def reads(self, arguments: Sequence[int]) -> Dict[int, int]:
        """The first address of each load, also on wrong paths."""
        self.program.left()
        made = self.wrong(0, arguments)
        made.trace()
        return made.run.reads

    def leading(self, index: int, step: int, targets: Sequence[int], first: Dict[int, int]) -> Iterator[int]:
        """Values of an argument that lead loads to targets, as far as their addresses go evenly with it."""
        given, wide = self.secret.start.arguments, self.limit(index)
        near = (*given[:index], (given[index] + step) % wide, *given[index + 1 :])
        for position, address in self.reads(near).items():
            slope = address - first.get(position, address)
            for target in targets if slope else ():
                away = (target - first[position]) * step
                if away % slope == 0:
                    yield (given[index] + away // slope) % wide

    def far(self, chance: random.Random, public: Sequence[int], targets: Sequence[int]) -> Tuple[int, ...]:
        """Public arguments at the ends of numbers and between memories."""
        values = list(self.secret.start.arguments)
        aim = chance.choice(targets) if targets else 0
        for index in public:
            far = (0, 1, 0xFFFFFFFF, 0x7FFFFFFF, 0x80000000, aim, aim // 4, aim - self.meeting.bases[-2],
                   values[index] + 1, values[index] * 2)
            if chance.random() < 0.5:
                values[index] = chance.choice(far) % self.limit(index)
        return tuple(values)
