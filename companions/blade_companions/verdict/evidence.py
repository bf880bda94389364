"""What one run from a start shows of the causes of a verdict, and a witness that the program judges again:
they take the place of guesses. Licence: public domain (CC0)."""
from __future__ import annotations

import shlex
import tempfile
from dataclasses import dataclass
from typing import TYPE_CHECKING, Dict, Iterable, List, Optional, Sequence, Set, Tuple

from .causes import Cause
from ..witnesses.directives import last_of
from .flow import DIVISION, LOAD_ADDRESS, STORE_ADDRESS, End, Findings, find, is_bounds_test, kind_of_test
from .guesses import POINTER, SHARED, Guess
from ..formats.image import Image
from ..formats.operators import DIVISIONS
from ..c.lines import Line, Lines
from ..witnesses.meeting import Meeting
from ..witnesses.pairs import Secret, ranges_of, what_changes
from ..witnesses.program import DIFFER, Difference, Program, difference_of, program_of
from ..formats.reading import Bad, read_text
from ..formats.running import read_start

if TYPE_CHECKING:
    from .diagnostics import Told

RUN = 1_000_000  # so many commands of a run are followed
LOOKS_PUBLIC, UNPROVED = "looks public", "by this one run and unproved"


def function_of(image: Image, export: str) -> int:
    """The function of an export."""
    if export not in image.entries:
        raise Bad(f"{export} isn't exported")
    return image.entries[export]


def secret_of(image: Image, export: str, path: str, asked: Sequence[str], kept: Sequence[str]) -> Secret:
    """What changes of a start file."""
    function, start = function_of(image, export), read_start(read_text(path, "start"))
    return Secret(image, start, what_changes(image, function, start, ranges_of(asked), ranges_of(kept)))


def kind_of(image: Image, position: int) -> str:
    """What an observer learns of a command, in the words of its end."""
    command = image.commands[position]
    if command.kind == "Test":
        return kind_of_test(image.commands, position)
    if command.kind in ("Load", "Store"):
        return LOAD_ADDRESS if command.kind == "Load" else STORE_ADDRESS
    return DIVISION if command.kind == "Set" and command.operator in DIVISIONS else command.kind.lower()


def end_at(image: Image, position: int) -> int:
    """The position of the end that an observation belongs to: of a bounds test that of its access."""
    return position + 1 if is_bounds_test(image.commands, position) else position


@dataclass
class Witness:
    """A leak that the program tells apart: where, how both runs differ, and the words that judge it again."""

    position: int
    difference: Difference
    words: str

    def end(self, image: Image) -> int:
        return end_at(image, self.position)


def read_witness(image: Image, path: str, prefix: str, program: Optional[str]) -> Witness:
    """Has the program judge the files of a prefix again."""
    again = shlex.split(read_text(f"{prefix}.again", "start"))
    if len(again) != 7 or again[1] not in ("twin", "forward"):
        raise Bad(f"{prefix}.again: no words of twin or forward; what whole runs show is no witness")
    judge, export = again[1], again[3]
    files = [f"{prefix}.{end}" for end in ("trace", "a.start", "b.start")]
    with tempfile.TemporaryDirectory() as folder:
        called = Program(program_of(program), path, export, judge, folder)
        status, text = called.call([judge, path, export, *files], range(256))
    difference = difference_of(text, judge) if status == DIFFER else None
    if difference is None:
        raise Bad(f"{prefix}: {judge} says nothing of a leak in {path}: status {status}")
    trace = read_text(files[0], "report").splitlines()[: difference.directive]
    position, _ = last_of(image, function_of(image, export), trace, difference.common)
    return Witness(position, difference, shlex.join(["blade", judge, path, export, *files]))


def key_of(line: Line, position: int) -> tuple:
    """A line of C where it is known, else the position."""
    return (line.path, line.number) if line.number else (position,)


@dataclass
class Evidence:
    """What is known of the refused ends by one run, by a witness, or by both."""

    found: Findings
    causes: List[Cause]
    meeting: Optional[Meeting] = None
    witness: Optional[Witness] = None
    is_searched: bool = True  # whether a search compared any two runs

    def numbers(self, ends: Iterable[End], bits: int = -1) -> Tuple[int, int]:
        """Of some ends how many the run came to, and how many met there what may change, with a mark among
        some bits."""
        met = sum(bool(self.meeting.met.get((end.position, end.variable), 0) & bits) for end in ends)
        return sum(end.position in self.meeting.reached for end in ends), met

    def is_witnessed(self, ends: Iterable[End], bits: int = -1) -> bool:
        """Whether the witness is of one of some ends, and the run, where there is one, doesn't say that it
        came by another way."""
        if self.witness is None:
            return False
        ends = [end for end in ends if end.position == self.witness.end(self.found.image)]
        if not ends or self.meeting is None:
            return bool(ends)
        marks = [self.meeting.met.get((end.position, end.variable), 0) for end in ends]
        return not any(marks) or any(mark & bits for mark in marks)

    def text(self, ends: Sequence[End], bits: int = -1, likely: Optional[Guess] = None) -> str:
        """What is shown of some ends, in place of a guess; nothing where nothing is. What helps goes by the
        guess, where that isn't of a number."""
        if self.is_witnessed(ends, bits):
            return ("leak witnessed: two runs that agree in public are told apart at position "
                    f"{self.witness.position}")
        if self.meeting is None:
            return ""
        reached, met = self.numbers(ends, bits)
        if met:
            said = "what may change arrives there; blade-witness looks for two runs that show it"
        elif reached:
            helps = (f"{likely.reason}: {likely.remedy}" if likely in (POINTER, SHARED)
                     else "give it as a parameter, or keep it in the ledger")
            said = f"{LOOKS_PUBLIC}, {UNPROVED}; {helps}"
        else:
            said = "this run doesn't come there; give other starts"
        return f"reached {reached}, met {met}: {said}"

    def mark_causes(self) -> None:
        """Says it of the causes whose ends are known."""
        bits = self.meeting.causes if self.meeting else [-1] * len(self.causes)
        for cause, bit in zip(self.causes, bits):
            cause.observed = self.text(cause.reached, bit, cause.likely) if cause.reached else ""
            if cause.observed:
                cause.likely = None

    def mark_problems(self, told: "Told", lines: Lines) -> None:
        """Says it of the refused places, by their lines."""
        by_line: Dict[tuple, List[End]] = {}
        for end in self.found.refused:
            by_line.setdefault(key_of(lines.line(end.position), end.position), []).append(end)
        for one in told.problems:
            ends = by_line.get(key_of(one.line, one.position), [])
            text = self.text(ends, likely=one.likely)
            if text and LOOKS_PUBLIC not in text:  # what helps then is told with it
                text += f"; what helps: {one.rule.help}"
            if text:
                told.observed[one.position], one.likely = text, None
            if told.witnessed is None and self.is_witnessed(ends):
                told.witnessed = one.position

    def never_loaded(self) -> List[int]:
        """The loads of secret memories that cause something and in this run never loaded what may change."""
        guilty = {origin.position for origin in self.found.guilty}
        return sorted(position for position,
                      mark in self.meeting.loads.items() if not mark and position in guilty)

    def not_reached(self) -> List[int]:
        """The refused positions that the run doesn't come to."""
        return [position for position in dict.fromkeys(end.position for end in self.found.refused)
                if position not in self.meeting.reached]

    def tallied(self) -> Tuple[int, int, int]:
        """How many refused positions there are, how many the run came to, and how many met there what may
        change."""
        refused: Dict[int, Set[int]] = {}
        for end in self.found.refused:
            refused.setdefault(end.position, set()).add(end.variable)
        reached = [position for position in refused if position in self.meeting.reached]
        met = sum(any((position, variable) in self.meeting.met for variable in refused[position])
                  for position in reached)
        return len(refused), len(reached), met

    def run_text(self) -> str:
        """How far the run came, and what it met."""
        refused, reached, met = self.tallied()
        part = "" if self.meeting.left else f" in its first {self.meeting.count:,} commands"
        return (f"the run from this start reaches {reached} of {refused} violations{part}, and meets at "
                f"{met} of them what may change")

    def still_refused(self, loads: Sequence[int]) -> int:
        """How many ends would be refused, were these loads of public numbers."""
        return len(find(self.found.image, loads).refused)


def evidence_of_run(found: Findings, causes: Sequence[Cause], secret: Secret, export: str,
                    most: int) -> Evidence:
    """What the run from a start shows."""
    meeting = Meeting(found.image, function_of(found.image, export), secret,
                      [cause.origins for cause in causes]).go(most)
    return Evidence(found, list(causes), meeting)
