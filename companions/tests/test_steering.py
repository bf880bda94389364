"""Tests of traces that take wrong guesses on purpose: the oracle's buffer machine takes each directive, rolls
back behind each wrong path, reads where the run says that it reads, and ends as the run in order does.
Licence: public domain (CC0)."""
from __future__ import annotations

import os
import random
import sys
import unittest
import unittest.mock
from typing import Any, Dict, Tuple

from blade_companions.formats.image import Image, read_image
from blade_companions.formats.running import Run, Start, read_start
from blade_companions.witnesses import steering
from blade_companions.witnesses.steering import Choices, Recorded, WrongGuesses, distances

ORACLES = os.path.join(os.path.dirname(os.path.dirname(os.path.dirname(os.path.realpath(__file__)))),
                       "oracles")
STEPS = 10_000
Machine = Any  # that of oracles/traces.py
# Programs of the oracles, with start files by which their runs return.
STARTS = {"LOADS_IMAGE": "arg 0\n", "SUM_IMAGE": "arg 0\narg 3\n", "NESTED_IMAGE": "arg 1\n",
          "LOOP_IMAGE": "arg 3\n", "SWAPPING_IMAGE": "arg 5\narg 7\narg 2\n", "INDIRECT_IMAGE": "arg 2\n",
          "LOOP_READS_IMAGE": "arg 8\n", "GROW_AND_STORE_IMAGE": "arg 1\n", "GUESSED": "arg 0\n"}


def directed(machine: Machine, line: str) -> str:
    """What a directive shows on the oracle's machine; an error where it isn't enabled."""
    word, _, number = line.partition(" ")
    shown = (machine.retire() if word == "retire" else machine.execute(int(number)) if word == "exec"
             else machine.fetch(bool(int(number)) if number else None))
    if shown is None:
        raise AssertionError(f"{line} isn't enabled")
    return shown


def steered(image: Image, function: int, start: str, number: int,
            forwards: bool) -> Tuple[Recorded, WrongGuesses]:
    """A run and its trace with wrong guesses; every second one goes towards the last command."""
    goals = distances(image, [len(image.commands) - 1]) if number % 2 else {}
    run = Recorded(image, function, read_start(start))
    guesses = WrongGuesses(run, Choices(random.Random(number), goals, number, forwards), 2)
    guesses.trace()
    return run, guesses


@unittest.skipUnless(os.path.isdir(ORACLES), "a release has no oracles")
class Steering(unittest.TestCase):
    @classmethod
    def setUpClass(cls) -> None:
        sys.path.insert(0, ORACLES)
        import images
        import traces
        cls.oracle, cls.images = traces, {**images.IMAGES, "GUESSED": traces.GUESSED}

    def follow(self, name: str, number: int, forwards: bool) -> int:
        """Follows a trace on the oracle's machine; how many wrong paths it has."""
        image, start = read_image(self.images[name]), read_start(STARTS[name])
        function = next(iter(image.entries.values()))
        run, guesses = steered(image, function, STARTS[name], number, forwards)
        machine = self.oracle.Machine(image, function, start, 32 if forwards else 64, forwards)
        shown, reads, behind = [], {}, {last: first for first, last in guesses.paths}
        for at, line in enumerate(guesses.lines):
            entry = machine.entries[int(line.split()[1])] if line.startswith("exec") else None
            shown.append(directed(machine, line))
            if shown[-1].startswith("read"):
                reads.setdefault(entry.position, int(shown[-1].split()[1]))
            if at + 1 in behind:
                self.assertEqual(shown[at - 1], "rollback 0")
                self.assertEqual(machine.entries, [])
        self.assertEqual(reads, run.reads)
        other = self.in_order(image, function, start)
        self.assertEqual((machine.end, machine.entries, machine.registers), ("returned", [], other.registers))
        self.assertEqual(machine.space, other.space)
        return len(guesses.paths)

    def in_order(self, image: Image, function: int, start: Start) -> Machine:
        """The oracle's machine behind the run in order, on a trace without wrong guesses."""
        machine, run = self.oracle.Machine(image, function, start), Run(image, function, start)
        for _, command, taken in run.steps(STEPS):
            directed(machine, f"fetch {int(taken)}" if command.kind == "Test" else "fetch")
            while machine.entries and machine.entries[0].kind not in ("nop", "done", "ready", "fail"):
                directed(machine, "exec 0")
            directed(machine, "retire")
        return machine

    def test_the_oracle_takes_each_trace(self) -> None:
        paths: Dict[str, int] = {}
        for name in STARTS:
            for number in range(6):
                for forwards in (False, True):
                    with self.subTest(name, number=number, forwards=forwards):
                        paths[name] = paths.get(name, 0) + self.follow(name, number, forwards)
        # Of these three each wrong way is a trap at once.
        self.assertEqual({name for name, count in paths.items() if not count},
                         {"LOADS_IMAGE", "LOOP_READS_IMAGE", "INDIRECT_IMAGE"})

    def test_distances_of_a_loop(self) -> None:
        """LOOP_IMAGE: 7 jump 8; 8 and 9 are set; 10 jump 11; 11 to 14 are set; 15 tests to 16 or 18; 16 is
        set; 17 jump 10; .. 21 ret."""
        away = distances(read_image(self.images["LOOP_IMAGE"]), [21])
        self.assertEqual([away.get(at) for at in range(7, 22)],
                         [12, 11, 10, 9, 8, 7, 6, 5, 4, 11, 10, 3, 2, 1, 0])

    def test_a_trace_that_ends_before_its_run_is_cut(self) -> None:
        for name, start in STARTS.items():
            image = read_image(self.images[name])
            function = next(iter(image.entries.values()))
            whole = steered(image, function, start, 0, False)[1]
            self.assertFalse(whole.cut, name)
            with unittest.mock.patch.object(steering, "LINES", len(whole.lines) - 1):
                short = steered(image, function, start, 0, False)[1]
            self.assertTrue(short.cut, name)
