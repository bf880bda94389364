"""A search: attempts side by side on all processors, and the first in their order that the program tells
apart. Licence: public domain (CC0)."""
from __future__ import annotations

import multiprocessing
import os
import signal
import sys
import time
from collections import deque
from contextlib import closing
from dataclasses import dataclass, field
from itertools import islice
from multiprocessing.connection import Connection
from typing import Iterator, Optional, Tuple

from .attempts import Attempt, Sought, Tried
from .program import Over
from ..formats.reading import Bad

AHEAD = 2  # so many attempts a processor are begun before the first is done
TOLD = 5.0  # seconds between lines of progress


@dataclass
class Done:
    """How far a search came."""

    pairs: int = 0
    traces: int = 0
    paths: int = 0
    runs: int = 0
    cut: bool = False  # whether a trace ended before its run
    stopped: bool = False  # whether time was over before all was tried
    begun: float = field(default_factory=time.monotonic)
    firsts: set = field(default_factory=set)  # the secrets for which predict chose a trace

    def add(self, attempt: Attempt, tried: Tried) -> None:
        """Counts an attempt."""
        self.cut = self.cut or tried.cut
        if attempt.whole:
            self.runs += tried.compared
            return
        self.pairs += tried.compared
        self.paths += len(tried.paths)
        self.traces += attempt.wrong is not None or attempt.first not in self.firsts
        if attempt.wrong is None:
            self.firsts.add(attempt.first)

    @property
    def is_begun(self) -> bool:
        """Whether any two runs were compared."""
        return self.pairs + self.runs > 0

    def text(self) -> str:
        wrong = f" with {self.paths} wrong paths" if self.paths else ""
        return f"{self.pairs} pairs of starts on {self.traces} traces{wrong}, {self.runs} pairs of whole runs"


class Progress:
    """Lines on standard error: how far the search is. On a terminal each is written over the one before."""

    def __init__(self, done: Done, seconds: float) -> None:
        self.done, self.seconds = done, seconds
        self.last, self.wide = done.begun, 0

    def spent(self) -> float:
        return time.monotonic() - self.done.begun

    def tell(self) -> None:
        """A line, if the last one is old enough."""
        now, terminal = time.monotonic(), sys.stderr.isatty()
        if now - self.last >= (0.2 if terminal else TOLD):
            self.last = now
            line = f"blade-witness: {self.done.text()}, {self.spent():.0f} s of {self.seconds:.0f}"
            self.wide = max(self.wide, len(line))
            print(f"\r{line.ljust(self.wide)}" if terminal else line, end="" if terminal else "\n",
                  file=sys.stderr, flush=True)

    def end(self) -> None:
        if self.wide and sys.stderr.isatty():
            print("\r" + " " * self.wide + "\r", end="", file=sys.stderr, flush=True)

    def left(self) -> float:
        return self.seconds - self.spent()


FORK = multiprocessing.get_context("fork")


class Child:
    """An attempt in a process of its own, with files of its own. It has a group, too, which ends with it."""

    def __init__(self, sought: Sought, attempt: Attempt, number: int) -> None:
        self.attempt, self.folder = attempt, f"{sought.program.folder}/{number}"
        self.results, to = FORK.Pipe(False)
        self.process = FORK.Process(target=self.work, args=(sought, to))
        self.process.start()
        to.close()

    def work(self, sought: Sought, to: Connection) -> None:
        """Makes the attempt, in a process of its own, and hands over what came of it."""
        os.setpgid(0, 0)
        os.mkdir(self.folder)
        sought.program.folder = self.folder
        try:
            to.send(sought.attempt(self.attempt, f"{self.folder}/trace"))
        except Exception as fault:  # whatever it is, the first process tells it
            to.send(fault)

    def result(self, progress: Progress) -> Tried:
        """What came of it, when that is there."""
        while not self.results.poll(max(0.0, min(progress.left(), 0.2))):
            progress.tell()
            if progress.left() <= 0:
                raise Over
        try:
            tried = self.results.recv()
        except EOFError:
            raise Bad("an attempt was ended from outside") from None
        if isinstance(tried, Exception):
            raise tried  # Over, too
        return tried

    def end(self) -> None:
        try:
            os.killpg(self.process.pid, signal.SIGKILL)
        except ProcessLookupError:
            self.process.kill()
        self.process.join()
        self.results.close()


def in_order(sought: Sought, progress: Progress) -> Iterator[Tuple[Attempt, Tried]]:
    """All attempts with what came of them, in their order, made by all processors side by side."""
    ahead = AHEAD * len(os.sched_getaffinity(0))
    attempts, children = enumerate(sought.attempts()), deque()
    try:
        while True:
            children.extend(Child(sought, one, number) for number,
                            one in islice(attempts, ahead - len(children)))
            if not children:
                return
            yield children[0].attempt, children[0].result(progress)
            children.popleft().end()
    finally:
        for child in children:
            child.end()


@dataclass
class Searched:
    """What a search found: the attempt that tells two runs apart, else one by which whole runs show a secret,
    if any."""

    done: Done
    found: Optional[Tuple[Attempt, Tried]] = None
    whole_runs: Optional[Tuple[Attempt, Tried]] = None


def search(sought: Sought, seconds: float) -> Searched:
    """The first attempt that is told apart is the answer. Neither the processors nor the seconds change which
    one that is: time only ends the search."""
    done = Done()
    progress, searched = Progress(done, seconds), Searched(done)
    sought.program.until = done.begun + seconds
    try:
        sought.begin()
        with closing(in_order(sought, progress)) as made:
            for attempt, tried in made:
                done.add(attempt, tried)
                progress.tell()
                if tried.differs:
                    searched.whole_runs = (attempt, tried)
                elif tried.other is not None:
                    searched.found = (attempt, tried)
                    break
    except Over:
        done.stopped = True
    progress.end()
    return searched
