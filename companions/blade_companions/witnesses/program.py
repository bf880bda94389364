"""Calls of blade on one function of an image: the judge of what is found here. Licence: public domain
(CC0)."""
from __future__ import annotations

import os
import shutil
import subprocess
import time
from dataclasses import dataclass
from typing import Dict, List, NamedTuple, Optional, Sequence, Tuple

from ..formats.reading import Bad, GaveUp
from ..programs import ready_program

ALIKE, DIFFER, TRAPPED, SPENT, STUCK = 0, 1, 16, 17, 18
STEPS = 100_000_000  # of a run


def program_of(asked: Optional[str]) -> str:
    """The program: that which is asked for, else that of BLADE, else the one of this release or clone, else
    blade of PATH. A launcher isn't taken by itself: each call would look anew whether the program is up to
    date."""
    for one in (asked, os.environ.get("BLADE")):
        if one and shutil.which(one):
            return os.path.abspath(one) if os.path.dirname(one) else one
        if one and one == asked:
            raise GaveUp(f"{one} is no program")
    found = ready_program() or ("blade" if shutil.which("blade") else None)
    if found is None:
        raise GaveUp("there is no blade that is built: run ./blade once, or give one by "
                     "--blade PROGRAM or BLADE")
    return found


class Over(Exception):
    """Time is over."""


@dataclass
class Difference:
    """Where two runs are told apart: the directive, from 1; what each shows there; what both showed
    before."""

    directive: int
    first: str
    second: str
    common: List[str]


class Outcome(NamedTuple):
    """How a run ended, what it gave, the rows of memories that it changed, and how often it executed each
    site."""

    end: str
    results: List[str]
    rows: Dict[Tuple[int, int], str]
    counts: Dict[int, int]


class Program:
    """The program on one function of an image. Files that a call needs are written to a folder."""

    def __init__(self, path: str, image: str, export: str, judge: str, folder: str) -> None:
        self.path, self.image, self.export = path, image, export
        self.judge = judge  # twin or forward
        self.folder = folder
        self.until: Optional[float] = None  # the time at which calls end

    def left(self) -> Optional[float]:
        """The seconds that are left, of which there are some."""
        seconds = None if self.until is None else self.until - time.monotonic()
        if seconds is not None and seconds <= 0:
            raise Over
        return seconds

    def file(self, name: str, text: str) -> str:
        """Writes a file, and gives its path."""
        path = f"{self.folder}/{name}"
        with open(path, "w", encoding="ascii") as file:
            file.write(text)
        return path

    def call(self, words: Sequence[str], expected: Sequence[int], keep: bool = True) -> Tuple[int, str]:
        """The status, which is an expected one, and the text where it is kept."""
        try:
            done = subprocess.run([self.path, *words], stdout=subprocess.PIPE if keep else subprocess.DEVNULL,
                                  stderr=subprocess.PIPE, check=False, timeout=self.left())
        except subprocess.TimeoutExpired:
            raise Over from None
        text = (done.stdout or b"").decode("utf-8", "replace")
        if done.returncode not in expected:
            said = text.strip().split("\n")[-1] or done.stderr.decode("utf-8", "replace").strip()[-200:]
            raise Bad(f"{self.path} {words[0]} ends with status {done.returncode}: {said}")
        return done.returncode, text

    def predict(self, start: str, to: str) -> bool:
        """Writes the trace that predict chooses; whether it goes to the run's end."""
        words = ["predict", self.image, self.export, to, self.file("first", start)]
        return self.call(words, (ALIKE, TRAPPED, SPENT), False)[0] != SPENT

    def judged(self, trace: str, first: str, second: str) -> List[str]:
        """The words of a judgement on a trace, which is the path of a file, and two starts."""
        return [self.judge, self.image, self.export, trace, self.file("first", first),
                self.file("second", second)]

    def told_apart(self, trace: str, first: str, second: str) -> bool:
        """Whether a judgement ends with 1. The starts agree in public, since nothing else changes; the last
        judgement reads that, too."""
        return self.call(self.judged(trace, first, second), (ALIKE, DIFFER, STUCK), False)[0] == DIFFER

    def compared(self, trace: str, first: str, second: str) -> Optional[Difference]:
        """Where two runs are told apart whose starts agree in public."""
        status, text = self.call(self.judged(trace, first, second), (ALIKE, DIFFER, STUCK))
        return difference_of(text, self.judge) if status == DIFFER else None

    def observed(self, trace: str, start: str) -> List[str]:
        """What one run shows, and `stuck` where it goes no further: it is compared with itself."""
        rows = self.call(self.judged(trace, start, start), (ALIKE, STUCK))[1].split("\n")
        return rows[1 + (self.judge == "forward") :]

    def run(self, start: str) -> Outcome:
        """A whole run."""
        path = f"{self.folder}/counts"
        words = ["run", self.image, self.export, self.file("first", start), "--steps", str(STEPS), "--counts",
                 path]
        text = self.call(words, (ALIKE, TRAPPED, SPENT))[1]
        with open(path, encoding="ascii") as file:
            counted = [line.split() for line in file.read().splitlines()[1:]]
        return outcome_of(text, {int(row[1]): int(row[2]) for row in counted})


def difference_of(text: str, judge: str) -> Optional[Difference]:
    """What a judgement with status 1 says; None where the starts differ in public."""
    rows = text.split("\n")[judge == "forward" :]
    if rows[0] != "public agree" or not rows[-4].startswith("differ "):
        return None
    return Difference(int(rows[-4].split()[1]), rows[-3], rows[-2], rows[1:-4])


def outcome_of(text: str, counts: Dict[int, int]) -> Outcome:
    """What a run printed, with its counts."""
    lines = [line.split() for line in text.splitlines()]
    returned = lines[0][0] == "returned"
    end = "returned" if returned else "spent" if lines[0][0] == "spent" else " ".join(lines[0])
    rows = {(int(line[1]), int(line[2])): line[3] for line in lines[1:] if line[0] == "row"}
    return Outcome(end, lines[0][2::2] if returned else [], rows, counts)
